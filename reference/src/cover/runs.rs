//! Counts of the rules of DMA runs, unit by unit, and of step backs.

use super::{names, Before, Tally};
use crate::dma::{self, Memories};
use crate::replay::Machine;
use crate::state::{State, Vram, FILL, FILL_WAITING, TRANSFER, UNITS_MOST};
use crate::tape::{remaining_of, RECORD_BYTES, VERSION};

const RULES: &[&str] = &[
    "run of no units, idle",
    "run of no units, fill waits",
    "transfer run with budget 0",
    "fill run with budget 0",
    "copy run with budget 0",
    "run of no units on a full tape",
    "run with a half awaited",
    "budget below the remaining",
    "budget just the remaining",
    "budget above the remaining",
    "run of over 1,000 units",
    "transfer of the most units in one run",
    "fill of the most units in one run",
    "copy of the most units in one run",
    "transfer of the most units but one",
    "fill of the most units but one",
    "copy of the most units but one",
    "recorded unit with the most remaining",
    "call done with the most units remaining",
    "transfer ends",
    "fill ends",
    "copy ends",
    "transfer unit",
    "transfer unit to VRAM from the cartridge",
    "transfer unit to VRAM from work RAM",
    "transfer unit to VRAM, swapped",
    "transfer unit to a colour from the cartridge",
    "transfer unit to a colour from work RAM",
    "transfer unit to a colour past 7Fh",
    "transfer unit to a scroll word from the cartridge",
    "transfer unit to a scroll word from work RAM",
    "transfer unit to an absent scroll word",
    "transfer unit that stores nothing",
    "word from the cartridge",
    "last word of the cartridge",
    "word from work RAM",
    "source turns FFFFFEh to FF0000h",
    "word at E00000h",
    "fill unit at an odd address",
    "fill unit at an even address",
    "fill unit that stores nothing",
    "fill unit with step 0",
    "copy unit",
    "copy unit from a byte this run stored",
    "copy source turns past FFFFh",
    "copy under another code",
    "unit turns the address past FFFFh",
    "step back of 0",
    "step back of 0 over a bad record",
    "step back of all",
    "step back of some",
    "step back within a run",
    "step back within a run to the most units",
    "step back into an ended run",
    "step back out of a run",
    "step back over a fill's first word",
    "undone: nothing stored",
    "undone: VRAM word",
    "undone: colour",
    "undone: scroll",
    "undone: register",
    "undone: VRAM word FFFEh",
    "undone: colour 63",
    "undone: scroll 39",
    "undone: register 23",
    "undone: flag set again",
    "undone: flag cleared again",
    "undone: pending set again",
    "undone: the most units remaining",
];

pub fn rules() -> Vec<String> {
    let mut rules = names(RULES);
    rules.extend((0..8).map(undone_flags));
    rules
}

/// Overflow, collision and used up, as byte 20 of a record has them.
fn undone_flags(byte: u8) -> String {
    format!("undone: {byte} for the flags")
}

pub fn count_run(tally: &mut Tally, before: &Before) {
    let state = &before.machine.state;
    let budget = before.command.c;
    let units = dma::units(state, budget);
    if units == 0 {
        tally.meet_if(state.kind == FILL_WAITING, "run of no units, fill waits");
        tally.meet_if(state.kind == 0, "run of no units, idle");
        tally.meet_if(state.running(), &format!("{} run with budget 0", kind_name(state.kind)));
        let full = before.machine.tape.length / RECORD_BYTES == before.machine.count as usize;
        tally.meet_if(before.taped() && full, "run of no units on a full tape");
        return;
    }
    tally.meet_if(state.pending, "run with a half awaited");
    tally.meet_if(budget < state.remaining, "budget below the remaining");
    tally.meet_if(budget == state.remaining, "budget just the remaining");
    tally.meet_if(budget > state.remaining, "budget above the remaining");
    tally.meet_if(units > 1_000, "run of over 1,000 units");
    let ends = units == state.remaining;
    tally.meet_if(ends, &format!("{} ends", kind_name(state.kind)));
    count_longest(tally, before, units);
    each_unit(tally, &before.machine, units);
}

/// The name of a kind in which units remain.
pub fn kind_name(kind: u8) -> &'static str {
    match kind {
        TRANSFER => "transfer",
        FILL => "fill",
        _ => "copy",
    }
}

/// Runs that begin with the most units that can remain.
fn count_longest(tally: &mut Tally, before: &Before, units: u32) {
    let state = &before.machine.state;
    if state.remaining != UNITS_MOST {
        return;
    }
    let kind = kind_name(state.kind);
    let (whole, but_one) = (units == UNITS_MOST, units == UNITS_MOST - 1);
    tally.meet_if(whole, &format!("{kind} of the most units in one run"));
    tally.meet_if(but_one, &format!("{kind} of the most units but one"));
    tally.meet_if(before.taped(), "recorded unit with the most remaining");
}

/// A call that is given a state is done with the most units that can remain.
pub fn count_most_remaining(tally: &mut Tally, before: &Before) {
    let given = !matches!(before.command.op, 11 | 12);
    let most = given && before.machine.state.remaining == UNITS_MOST;
    tally.meet_if(most, "call done with the most units remaining");
}

/// Makes the units again on a copy, looking at the state before each.
fn each_unit(tally: &mut Tally, machine: &Machine, units: u32) {
    let mut state = machine.state.clone();
    let Ok(lent) = <&Vram>::try_from(machine.vram.lent()) else {
        return;
    };
    let mut vram = Box::new(*lent);
    let memories = machine.memories();
    let mut stored = vec![false; vram.len()];
    for _ in 0..units {
        match state.kind {
            TRANSFER => transfer_unit(tally, &state, memories),
            FILL => fill_unit(tally, &state),
            _ => copy_unit(tally, &state, &mut stored),
        }
        let next = u32::from(state.address) + u32::from(state.registers[15]);
        tally.meet_if(next > 0xFFFF, "unit turns the address past FFFFh");
        dma::unit(&mut state, &mut vram, memories);
    }
}

fn transfer_unit(tally: &mut Tally, state: &State, memories: Memories) {
    tally.meet("transfer unit");
    let source = state.source;
    let from = if source < 0xE0_0000 { "the cartridge" } else { "work RAM" };
    tally.meet(&format!("word from {from}"));
    match (state.code & 15, state.address / 2 % 64) {
        (1, _) => {
            tally.meet(&format!("transfer unit to VRAM from {from}"));
            tally.meet_if(state.address % 2 == 1, "transfer unit to VRAM, swapped");
        }
        (3, _) => {
            tally.meet(&format!("transfer unit to a colour from {from}"));
            tally.meet_if(state.address > 0x7F, "transfer unit to a colour past 7Fh");
        }
        (5, 0..40) => tally.meet(&format!("transfer unit to a scroll word from {from}")),
        (5, _) => tally.meet("transfer unit to an absent scroll word"),
        _ => tally.meet("transfer unit that stores nothing"),
    }
    let last = memories.cartridge.len() == source as usize + 2;
    tally.meet_if(last, "last word of the cartridge");
    tally.meet_if(source == 0xFF_FFFE, "source turns FFFFFEh to FF0000h");
    tally.meet_if(source == 0xE0_0000, "word at E00000h");
}

fn fill_unit(tally: &mut Tally, state: &State) {
    let stores = state.code & 15 == 1;
    let odd = state.address % 2 == 1;
    tally.meet_if(stores && odd, "fill unit at an odd address");
    tally.meet_if(stores && !odd, "fill unit at an even address");
    tally.meet_if(!stores, "fill unit that stores nothing");
    tally.meet_if(state.registers[15] == 0, "fill unit with step 0");
}

fn copy_unit(tally: &mut Tally, state: &State, stored: &mut [bool]) {
    tally.meet("copy unit");
    let source = (state.source % 65_536) as usize;
    let spread = stored.get(source).copied().unwrap_or(false);
    tally.meet_if(spread, "copy unit from a byte this run stored");
    tally.meet_if(state.source == 0xFFFF, "copy source turns past FFFFh");
    tally.meet_if(state.code & 15 != 0, "copy under another code");
    if let Some(place) = stored.get_mut(usize::from(state.address)) {
        *place = true;
    }
}

pub fn count_back(tally: &mut Tally, before: &Before, after: &Machine) {
    let (then, now) = (&before.machine.state, &after.state);
    let (steps, count) = (before.command.c, before.machine.count);
    if steps == 0 {
        tally.meet("step back of 0");
        let at = RECORD_BYTES * (count as usize).saturating_sub(1);
        let top = before.machine.tape.bytes.get(at).copied();
        tally.meet_if(count > 0 && top != Some(VERSION), "step back of 0 over a bad record");
        return;
    }
    tally.meet_if(steps == count, "step back of all");
    tally.meet_if(steps < count, "step back of some");
    let within = then.running() && now.kind == then.kind && now.remaining > then.remaining;
    tally.meet_if(within, "step back within a run");
    let to_most = within && now.remaining == UNITS_MOST;
    tally.meet_if(to_most, "step back within a run to the most units");
    tally.meet_if(!then.running() && now.running(), "step back into an ended run");
    tally.meet_if(then.running() && !now.running(), "step back out of a run");
    let first_word = then.kind == FILL && now.kind == FILL_WAITING;
    tally.meet_if(first_word, "step back over a fill's first word");
    let flag = (now.overflow && !then.overflow) || (now.collision && !then.collision);
    tally.meet_if(flag, "undone: flag set again");
    let flag = (then.overflow && !now.overflow) || (then.collision && !now.collision);
    tally.meet_if(flag, "undone: flag cleared again");
    tally.meet_if(now.pending && !then.pending, "undone: pending set again");
    each_record(tally, before);
}

fn each_record(tally: &mut Tally, before: &Before) {
    let bottom = before.machine.count - before.command.c;
    for record in (bottom..before.machine.count).filter_map(|place| before.record(place)) {
        match record[3] {
            1 => tally.meet("undone: VRAM word"),
            2 => tally.meet("undone: colour"),
            3 => tally.meet("undone: scroll"),
            4 => tally.meet("undone: register"),
            _ => tally.meet("undone: nothing stored"),
        }
        let head = &record[3..6];
        tally.meet_if(head == [1, 0xFF, 0xFE], "undone: VRAM word FFFEh");
        tally.meet_if(head == [2, 0, 63], "undone: colour 63");
        tally.meet_if(head == [3, 0, 39], "undone: scroll 39");
        tally.meet_if(head == [4, 0, 23], "undone: register 23");
        let most = remaining_of(&record) == UNITS_MOST;
        tally.meet_if(most, "undone: the most units remaining");
        tally.meet(&undone_flags(record[20]));
    }
}
