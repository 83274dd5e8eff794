//! Counts of the port rules: control words, data writes and reads, status, new frames.

use super::{names, Before, Tally};
use crate::ports::doubled;
use crate::state::{State, COPY, FILL, FILL_WAITING};

const RULES: &[&str] = &[
    "register write",
    "register write with bit 13",
    "register write clears a code",
    "absent register",
    "absent register keeps a waiting fill",
    "first half",
    "second half",
    "second half that looks like a register write",
    "second half with CD5 and DMA off",
    "second half without CD5 and DMA on",
    "second half keeps a waiting fill",
    "second half replaces a waiting fill",
    "waiting fill dropped by a register",
    "waiting fill dropped by a first half",
    "DMA started: transfer",
    "DMA started: fill waits",
    "DMA started: copy",
    "transfer begins with length zero",
    "copy begins with length zero",
    "VRAM write swapped",
    "VRAM write straight",
    "VRAM read at an odd address",
    "colour address past 7Fh",
    "scroll word 39",
    "absent scroll word written",
    "absent scroll word read",
    "address turns past FFFFh",
    "data access clears pending",
    "status read clears pending",
    "status read clears overflow alone",
    "status read clears collision alone",
    "status read clears both flags",
    "status read clears pending and a flag",
    "fill begins",
    "fill begins under another code",
    "fill begins with length zero",
    "read keeps a waiting fill",
    "status in a waiting fill",
    "status in a fill",
    "status in a copy",
    "status in a fill with a flag set",
    "status in a copy with a flag set",
    "status PAL",
    "new frame clears a flag",
    "new frame clears a flag and keeps pending",
    "new frame while DMA runs",
    "colour parts, all bits",
    "colour parts, lowest bits",
];

pub fn rules() -> Vec<String> {
    let mut rules = names(RULES);
    for code in 0..16 {
        rules.push(format!("write code {code:04b}"));
        rules.push(format!("read code {code:04b}"));
    }
    rules.extend((0..64).map(|code| format!("data access with code {code}")));
    rules.extend((0..32).map(|number| format!("register number {number}")));
    rules
}

pub fn count(tally: &mut Tally, before: &Before) {
    let command = &before.command;
    let state = &before.machine.state;
    match command.op {
        1 => control(tally, state, command.b),
        2 => control(tally, state, doubled(command.a)),
        3 | 4 => write(tally, state),
        5 => read(tally, state),
        6 => status(tally, state),
        9 => {
            let flag = state.overflow || state.collision;
            tally.meet_if(flag, "new frame clears a flag");
            tally.meet_if(flag && state.pending, "new frame clears a flag and keeps pending");
            tally.meet_if(state.running(), "new frame while DMA runs");
        }
        _ => {
            let all = command.a & 4 != 0;
            tally.meet_if(all, "colour parts, all bits");
            tally.meet_if(!all, "colour parts, lowest bits");
        }
    }
}

fn control(tally: &mut Tally, state: &State, word: u16) {
    let waiting = state.kind == FILL_WAITING;
    if state.pending {
        second_half(tally, state, word);
    } else if word >> 14 == 0b10 {
        let number = word / 256 % 32;
        tally.meet(&format!("register number {number}"));
        if number >= 24 {
            tally.meet("absent register");
            tally.meet_if(waiting, "absent register keeps a waiting fill");
        } else {
            tally.meet("register write");
            tally.meet_if(word & 0x2000 != 0, "register write with bit 13");
            tally.meet_if(state.code != 0, "register write clears a code");
            tally.meet_if(waiting, "waiting fill dropped by a register");
        }
    } else {
        tally.meet("first half");
        tally.meet_if(waiting, "waiting fill dropped by a first half");
    }
}

fn second_half(tally: &mut Tally, state: &State, word: u16) {
    tally.meet("second half");
    tally.meet_if(word >> 14 == 0b10, "second half that looks like a register write");
    let asked = word & 0x80 != 0;
    let allowed = state.registers[1] & 0x10 != 0;
    let waiting = state.kind == FILL_WAITING;
    let starts = asked && allowed;
    tally.meet_if(asked && !allowed, "second half with CD5 and DMA off");
    tally.meet_if(!asked && allowed, "second half without CD5 and DMA on");
    tally.meet_if(waiting && starts, "second half replaces a waiting fill");
    tally.meet_if(waiting && !starts, "second half keeps a waiting fill");
    if starts {
        let kind = state.registers[23] >> 6;
        tally.meet_if(kind < 2, "DMA started: transfer");
        tally.meet_if(kind == 2, "DMA started: fill waits");
        tally.meet_if(kind == 3, "DMA started: copy");
        tally.meet_if(kind < 2 && no_length(state), "transfer begins with length zero");
        tally.meet_if(kind == 3 && no_length(state), "copy begins with length zero");
    }
}

fn no_length(state: &State) -> bool {
    state.registers[19] == 0 && state.registers[20] == 0
}

/// Is the scroll place of this address present?
fn scroll_present(state: &State) -> bool {
    state.address / 2 % 64 < 40
}

fn write(tally: &mut Tally, state: &State) {
    let code = state.code & 15;
    let odd = state.address % 2 == 1;
    tally.meet(&format!("write code {code:04b}"));
    tally.meet_if(code == 1 && odd, "VRAM write swapped");
    tally.meet_if(code == 1 && !odd, "VRAM write straight");
    tally.meet_if(code == 3 && state.address > 0x7F, "colour address past 7Fh");
    tally.meet_if(code == 5 && state.address / 2 % 64 == 39, "scroll word 39");
    tally.meet_if(code == 5 && !scroll_present(state), "absent scroll word written");
    let waiting = state.kind == FILL_WAITING;
    tally.meet_if(waiting, "fill begins");
    tally.meet_if(waiting && code != 1, "fill begins under another code");
    tally.meet_if(waiting && no_length(state), "fill begins with length zero");
    access(tally, state);
}

fn read(tally: &mut Tally, state: &State) {
    let code = state.code & 15;
    tally.meet(&format!("read code {code:04b}"));
    tally.meet_if(code == 0 && state.address % 2 == 1, "VRAM read at an odd address");
    tally.meet_if(code == 4 && !scroll_present(state), "absent scroll word read");
    tally.meet_if(state.kind == FILL_WAITING, "read keeps a waiting fill");
    access(tally, state);
}

fn access(tally: &mut Tally, state: &State) {
    tally.meet(&format!("data access with code {}", state.code));
    tally.meet_if(state.pending, "data access clears pending");
    let next = u32::from(state.address) + u32::from(state.registers[15]);
    tally.meet_if(next > 0xFFFF, "address turns past FFFFh");
}

fn status(tally: &mut Tally, state: &State) {
    let (overflow, collision) = (state.overflow, state.collision);
    let flag = overflow || collision;
    tally.meet_if(state.pending, "status read clears pending");
    tally.meet_if(overflow && !collision, "status read clears overflow alone");
    tally.meet_if(collision && !overflow, "status read clears collision alone");
    tally.meet_if(overflow && collision, "status read clears both flags");
    tally.meet_if(flag && state.pending, "status read clears pending and a flag");
    tally.meet_if(state.kind == FILL_WAITING, "status in a waiting fill");
    tally.meet_if(state.kind == FILL, "status in a fill");
    tally.meet_if(state.kind == COPY, "status in a copy");
    tally.meet_if(flag && state.kind == FILL, "status in a fill with a flag set");
    tally.meet_if(flag && state.kind == COPY, "status in a copy with a flag set");
    tally.meet_if(state.pal, "status PAL");
}
