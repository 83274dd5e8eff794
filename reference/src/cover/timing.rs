//! Counts of the rules of frame timing: what a line that begins does, which levels are offered and
//! acknowledged, the V counter, and what the status word shows.

use super::refused::{count_over, free};
use super::{names, Before, Tally};
use crate::ports::doubled;
use crate::state::{State, COPY, FILL, FILL_WAITING, TRANSFER};

const RULES: &[&str] = &[
    "line begins: 0 after 261",
    "line begins: load on line 0",
    "line begins: load on line 0, and the counter falls",
    "line begins: load on line 0, and the counter expires",
    "line begins: a counter of 0 is loaded on line 0 and does not expire",
    "line begins: load on line 225",
    "line begins: load on lines 226 to 260",
    "line begins: load on line 261",
    "line begins: a counter of 0 does not expire on lines 225 to 261",
    "line begins: no load on line 224",
    "line begins: no load on line 1",
    "counter expires on line 0",
    "counter expires on lines 1 to 223",
    "counter expires on line 224",
    "counter falls",
    "counter falls on line 224",
    "counter falls from 255",
    "expiry loads more than 0",
    "expiry sets horizontal",
    "expiry finds horizontal set",
    "expiry with register 0 bit 4 clear leaves horizontal clear",
    "expiry with register 0 bit 4 clear leaves horizontal set",
    "vertical set with register 1 bit 5 set",
    "vertical set with register 1 bit 5 clear",
    "vertical set already on line 224",
    "vertical and horizontal set by one line",
    "line begins while a fill waits",
    "line begins in a transfer",
    "line begins in a fill",
    "line begins in a copy",
    "line begins with a half awaited",
    "line begins with a sprite flag set",
    "line begins, plain, with the count above the capacity",
    "register 10 written on lines 0 to 224, and the counter stays",
    "level 4 offered alone",
    "level 4 offered with register 0 bit 4 clear",
    "level 4 offered before 6",
    "level 4 offered, vertical set, register 1 bit 5 clear",
    "level 6 offered",
    "level 6 not offered: register 1 bit 5 clear",
    "level 6 not offered: vertical clear",
    "level read with PAL",
    "level read while DMA runs",
    "level read on a full tape",
    "level read with the count above the capacity",
    "acknowledge of 4",
    "acknowledge of 4 leaves 6 offered",
    "acknowledge of 6",
    "acknowledge with PAL",
    "acknowledge in a transfer",
    "acknowledge in a fill",
    "acknowledge in a copy",
    "V counter with PAL",
    "V counter while DMA runs",
    "V counter on a full tape",
    "V counter with the count above the capacity",
    "status read leaves vertical",
    "status read leaves vertical and clears a flag",
    "status read with register 1 bit 5 clear shows vertical",
    "new frame leaves vertical and horizontal",
    "line drawn leaves vertical and horizontal",
];

/// Lines on which the V counter is read, and those on which status bit 3 is.
const V_LINES: [u16; 7] = [0, 224, 229, 234, 235, 260, 261];
const STATUS_LINES: [u16; 5] = [0, 223, 224, 260, 261];

pub fn rules() -> Vec<String> {
    let mut rules = names(RULES);
    rules.extend(V_LINES.map(v_counter_on));
    rules.extend(STATUS_LINES.map(status_on));
    rules
}

fn v_counter_on(line: u16) -> String {
    format!("V counter on line {line}")
}

fn status_on(line: u16) -> String {
    let blanking = if (224..261).contains(&line) { "set" } else { "clear" };
    format!("status bit 3 {blanking} on line {line}")
}

pub fn count(tally: &mut Tally, before: &Before) {
    let (state, command) = (&before.machine.state, &before.command);
    match command.op {
        1 => register(tally, state, command.b),
        2 => register(tally, state, doubled(command.a)),
        6 => status(tally, state),
        8 => tally.meet_if(both(state), "line drawn leaves vertical and horizontal"),
        9 => tally.meet_if(both(state), "new frame leaves vertical and horizontal"),
        13 => begins(tally, before),
        14 => acknowledge(tally, state, command.a),
        15 => {
            if V_LINES.contains(&state.line) {
                tally.meet(&v_counter_on(state.line));
            }
            read(tally, before, "V counter");
        }
        16 => {
            offer(tally, state);
            read(tally, before, "level read");
        }
        _ => (),
    }
}

fn both(state: &State) -> bool {
    state.vertical && state.horizontal
}

fn asks_lines(state: &State) -> bool {
    state.registers[0] & 0x10 != 0
}

fn asks_frames(state: &State) -> bool {
    state.registers[1] & 0x20 != 0
}

/// A register write with another number than the counter holds, while it counts.
fn register(tally: &mut Tally, state: &State, word: u16) {
    let to_10 = !state.pending && word >> 14 == 0b10 && word / 256 % 32 == 10;
    let shows = word % 256 != u16::from(state.counter) && state.line <= 224;
    tally.meet_if(to_10 && shows, "register 10 written on lines 0 to 224, and the counter stays");
}

fn status(tally: &mut Tally, state: &State) {
    if STATUS_LINES.contains(&state.line) {
        tally.meet(&status_on(state.line));
    }
    let flag = state.overflow || state.collision;
    tally.meet_if(state.vertical, "status read leaves vertical");
    tally.meet_if(state.vertical && flag, "status read leaves vertical and clears a flag");
    let unasked = state.vertical && !asks_frames(state);
    tally.meet_if(unasked, "status read with register 1 bit 5 clear shows vertical");
}

fn begins(tally: &mut Tally, before: &Before) {
    let state = &before.machine.state;
    let line = if state.line == 261 { 0 } else { state.line + 1 };
    tally.meet_if(line == 0, "line begins: 0 after 261");
    let loaded = line == 0 || line >= 225;
    let counter = if loaded { state.registers[10] } else { state.counter };
    if loaded {
        load(tally, state, line);
    } else {
        no_load(tally, state, line);
    }
    if line <= 224 && counter == 0 {
        expiry(tally, state, line);
    } else if line <= 224 {
        tally.meet("counter falls");
        tally.meet_if(line == 224, "counter falls on line 224");
        tally.meet_if(counter == 255, "counter falls from 255");
    }
    if line == 224 {
        vertical(tally, state, counter == 0);
    }
    beside(tally, before);
}

/// A load that shows, since the counter holds another number.
fn load(tally: &mut Tally, state: &State, line: u16) {
    let (then, register_10) = (state.counter, state.registers[10]);
    let shows = then != register_10;
    let falls = register_10 != 0;
    if line == 0 {
        tally.meet_if(shows, "line begins: load on line 0");
        tally.meet_if(shows && falls, "line begins: load on line 0, and the counter falls");
        tally.meet_if(shows && !falls, "line begins: load on line 0, and the counter expires");
        let late = then == 0 && falls && asks_lines(state) && !state.horizontal;
        let rule = "line begins: a counter of 0 is loaded on line 0 and does not expire";
        tally.meet_if(late, rule);
        return;
    }
    tally.meet_if(shows && line == 225, "line begins: load on line 225");
    tally.meet_if(shows && (226..261).contains(&line), "line begins: load on lines 226 to 260");
    tally.meet_if(shows && line == 261, "line begins: load on line 261");
    let zeros = then == 0 && register_10 == 0 && asks_lines(state) && !state.horizontal;
    tally.meet_if(zeros, "line begins: a counter of 0 does not expire on lines 225 to 261");
}

/// A load would leave another number than a fall does.
fn no_load(tally: &mut Tally, state: &State, line: u16) {
    let (then, register_10) = (state.counter, state.registers[10]);
    let shows = then > 0 && then != register_10 && then - 1 != register_10;
    tally.meet_if(shows && line == 224, "line begins: no load on line 224");
    tally.meet_if(shows && line == 1, "line begins: no load on line 1");
}

fn expiry(tally: &mut Tally, state: &State, line: u16) {
    tally.meet_if(line == 0, "counter expires on line 0");
    tally.meet_if((1..224).contains(&line), "counter expires on lines 1 to 223");
    tally.meet_if(line == 224, "counter expires on line 224");
    tally.meet_if(state.registers[10] > 0, "expiry loads more than 0");
    tally.meet(match (asks_lines(state), state.horizontal) {
        (true, false) => "expiry sets horizontal",
        (true, true) => "expiry finds horizontal set",
        (false, false) => "expiry with register 0 bit 4 clear leaves horizontal clear",
        (false, true) => "expiry with register 0 bit 4 clear leaves horizontal set",
    });
}

fn vertical(tally: &mut Tally, state: &State, expires: bool) {
    if state.vertical {
        tally.meet("vertical set already on line 224");
        return;
    }
    let asked = asks_frames(state);
    tally.meet_if(asked, "vertical set with register 1 bit 5 set");
    tally.meet_if(!asked, "vertical set with register 1 bit 5 clear");
    let horizontal = expires && asks_lines(state) && !state.horizontal;
    tally.meet_if(horizontal, "vertical and horizontal set by one line");
}

/// What a line that begins takes no notice of.
fn beside(tally: &mut Tally, before: &Before) {
    let state = &before.machine.state;
    tally.meet_if(state.kind == FILL_WAITING, "line begins while a fill waits");
    tally.meet_if(state.kind == TRANSFER, "line begins in a transfer");
    tally.meet_if(state.kind == FILL, "line begins in a fill");
    tally.meet_if(state.kind == COPY, "line begins in a copy");
    tally.meet_if(state.pending, "line begins with a half awaited");
    let flag = state.overflow || state.collision;
    tally.meet_if(flag, "line begins with a sprite flag set");
    let over = !before.taped() && count_over(&before.machine);
    tally.meet_if(over, "line begins, plain, with the count above the capacity");
}

fn acknowledge(tally: &mut Tally, state: &State, level: u8) {
    let six = state.vertical && asks_frames(state);
    tally.meet_if(level == 4, "acknowledge of 4");
    tally.meet_if(level == 4 && six, "acknowledge of 4 leaves 6 offered");
    tally.meet_if(level == 6, "acknowledge of 6");
    tally.meet_if(state.pal, "acknowledge with PAL");
    tally.meet_if(state.kind == TRANSFER, "acknowledge in a transfer");
    tally.meet_if(state.kind == FILL, "acknowledge in a fill");
    tally.meet_if(state.kind == COPY, "acknowledge in a copy");
}

/// A level read shows what is offered.
fn offer(tally: &mut Tally, state: &State) {
    let asked = asks_frames(state);
    if state.horizontal {
        tally.meet_if(!state.vertical, "level 4 offered alone");
        tally.meet_if(!asks_lines(state), "level 4 offered with register 0 bit 4 clear");
        tally.meet_if(state.vertical && asked, "level 4 offered before 6");
        let unasked = state.vertical && !asked;
        tally.meet_if(unasked, "level 4 offered, vertical set, register 1 bit 5 clear");
    } else {
        tally.meet_if(state.vertical && asked, "level 6 offered");
        let unasked = state.vertical && !asked;
        tally.meet_if(unasked, "level 6 not offered: register 1 bit 5 clear");
        tally.meet_if(!state.vertical && asked, "level 6 not offered: vertical clear");
    }
}

/// A read of the timing takes every GOOD state and knows nothing of the tape.
fn read(tally: &mut Tally, before: &Before, name: &str) {
    let machine = &before.machine;
    tally.meet_if(machine.state.pal, &format!("{name} with PAL"));
    tally.meet_if(machine.state.running(), &format!("{name} while DMA runs"));
    let (over, full) = (count_over(machine), free(machine) == 0);
    let rule = format!("{name} on a full tape");
    tally.meet_if(machine.recorded && full && !over, &rule);
    let rule = format!("{name} with the count above the capacity");
    tally.meet_if(machine.recorded && over, &rule);
}

#[cfg(test)]
mod tests {
    use super::*;
    use crate::cover::tests::met_of;

    /// Which of this file's rules one line meets after this one, with this counter and 0 in every
    /// register.
    fn met(line: u32, counter: u32) -> Vec<String> {
        met_of(rules(), &[(32, 13, line), (32, 14, counter), (13, 0, 0)])
    }

    /// From 1 the counter falls to the 0 that a load would leave too.
    #[test]
    fn no_load_on_line_224_only_where_it_shows() {
        let falls = ["counter falls", "counter falls on line 224"];
        let vertical = "vertical set with register 1 bit 5 clear";
        let shows = ["line begins: no load on line 224", falls[0], falls[1], vertical];
        assert_eq!(met(223, 9), names(&shows));
        assert_eq!(met(223, 1), names(&[falls[0], falls[1], vertical]));
    }

    /// A counter that holds register 10 already does not show a load.
    #[test]
    fn a_load_only_where_it_shows() {
        assert_eq!(met(224, 9), names(&["line begins: load on line 225"]));
        assert_eq!(met(224, 0), names(&[]));
        assert_eq!(met(260, 9), names(&["line begins: load on line 261"]));
        let expires = "expiry with register 0 bit 4 clear leaves horizontal clear";
        assert_eq!(met(100, 0), names(&["counter expires on lines 1 to 223", expires]));
    }
}
