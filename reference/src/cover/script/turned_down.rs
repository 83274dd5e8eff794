//! Counts of what a missing register comes before: what the calls of the script would have answered
//! and done if they had been made (definition, Numbers a call may answer: 11 and 12).

use std::cmp::Ordering;

use super::{changed, CHANGED};
use crate::answer::{
    Answer, BAD_BUFFER, BAD_STATE, BUSY, NOT_MODELLED, NO_SUCH_PLACE, SOURCE_NOT_LENT,
};
use crate::calls::{memories_good, vram_good, PIXELS, WORK_RAM_BYTES};
use crate::cover::{names, Before, Tally};
use crate::replay::Machine;
use crate::script::Item;
use crate::state::{COPY, FILL, FILL_WAITING, TRANSFER};

const RULES: &[&str] = &[
    "script: 12, and all calls would be done",
    "script: 12, as a call that would be refused counts as done",
    "script: 12 with VRAM of a wrong length",
    "script: 12 with pixels of a wrong length",
    "script: 12 with work RAM of a wrong length",
    "script: 12 with a cartridge of a wrong length",
    "script: 12 while a fill waits",
    "script: 12 in a transfer",
    "script: 12 in a fill",
    "script: 12 in a copy",
    "script: 12 while recorded is set",
];

/// The numbers that the first refused call would answer, by where it stands.
const BEFORE: [(&str, &[Answer]); 3] = [
    (
        "a call before it",
        &[BAD_STATE, BAD_BUFFER, BUSY, NOT_MODELLED, NO_SUCH_PLACE, SOURCE_NOT_LENT],
    ),
    ("its own call", &[BAD_STATE, BUSY]),
    ("a call behind it", &[BAD_BUFFER, BUSY, NOT_MODELLED, NO_SUCH_PLACE, SOURCE_NOT_LENT]),
];

pub fn rules() -> Vec<String> {
    let mut rules = names(RULES);
    for (whose, numbers) in BEFORE {
        rules.extend(numbers.iter().map(|number| comes_before(*number, whose)));
    }
    rules.extend(CHANGED.map(would_change));
    rules
}

fn comes_before(number: Answer, whose: &str) -> String {
    format!("script: 12 before the {number} of {whose}")
}

fn would_change(what: &str) -> String {
    format!("script: 12, and the calls before it would change {what}")
}

/// The item at this place is the first that names a missing register.
pub fn count(tally: &mut Tally, before: &Before, items: &[Item], place: usize) {
    let machine = &before.machine;
    lent(tally, machine);
    let set = pending_as_called(machine, &items[..place]);
    tally.meet_if(set, "script: 12, as a call that would be refused counts as done");
    for what in changed(machine, &called(machine, &items[..place]).0) {
        tally.meet(&would_change(what));
    }
    let Some((refused, number)) = called(machine, items).1 else {
        tally.meet("script: 12, and all calls would be done");
        return;
    };
    let (whose, _) = match refused.cmp(&place) {
        Ordering::Less => BEFORE[0],
        Ordering::Equal => BEFORE[1],
        Ordering::Greater => BEFORE[2],
    };
    tally.meet(&comes_before(number, whose));
}

/// What the script is run with.
fn lent(tally: &mut Tally, machine: &Machine) {
    let (state, work_ram) = (&machine.state, machine.work_ram.length == WORK_RAM_BYTES);
    let kind = |kind: u8| state.good() && state.kind == kind;
    let facts = [
        (!vram_good(machine.vram.lent()), "script: 12 with VRAM of a wrong length"),
        (machine.pixels.length != PIXELS, "script: 12 with pixels of a wrong length"),
        (!work_ram, "script: 12 with work RAM of a wrong length"),
        (
            work_ram && !memories_good(machine.memories()),
            "script: 12 with a cartridge of a wrong length",
        ),
        (kind(FILL_WAITING), "script: 12 while a fill waits"),
        (kind(TRANSFER), "script: 12 in a transfer"),
        (kind(FILL), "script: 12 in a fill"),
        (kind(COPY), "script: 12 in a copy"),
        (machine.recorded, "script: 12 while recorded is set"),
    ];
    for (holds, rule) in facts {
        tally.meet_if(holds, rule);
    }
}

/// The calls, up to one that is refused: the machine then, and the place and number of that one.
fn called(machine: &Machine, items: &[Item]) -> (Machine, Option<(usize, Answer)>) {
    let mut machine = machine.clone();
    for (place, item) in items.iter().enumerate() {
        if let Err(number) = machine.lent().0.call(*item) {
            return (machine, Some((place, number)));
        }
    }
    (machine, None)
}

/// The flag that the state has after the calls, where a refused one changes nothing.
pub fn pending_as_called(machine: &Machine, items: &[Item]) -> bool {
    let mut machine = machine.clone();
    for item in items {
        let _ = machine.lent().0.call(*item);
    }
    machine.state.pending
}

#[cfg(test)]
mod tests {
    use super::*;
    use crate::bench::command;
    use crate::cover::script::tests::{assert_met_of, run_of, IN_A_COPY, SET_PENDING, SPOIL_STATE};
    use crate::replay::{Command, VRAM};
    use crate::script::tests::{with_words, MISSING as WORD};

    fn assert_met(before: &[Command], items: &[Item], expected: &[&str]) {
        assert_met_of(rules(), &[before, &run_of(items)].concat(), expected);
    }

    #[test]
    fn the_first_call_that_would_be_refused() {
        assert_met(&[], &[WORD, Item::StatusRead], &["12, and all calls would be done"]);
        assert_met(&[SPOIL_STATE], &[WORD], &["12 before the 1 of its own call"]);
        let before = "12 before the 1 of a call before it";
        assert_met(&[SPOIL_STATE], &[Item::StatusRead, WORD], &[before]);
        assert_met(&[], &[Item::Line(0), WORD], &["12 before the 4 of a call before it"]);
        assert_met(&[], &[WORD, Item::Line(224)], &["12 before the 5 of a call behind it"]);
        let (short, vram) = (command(36, 0, VRAM, 9), "12 with VRAM of a wrong length");
        let behind = "12 before the 2 of a call behind it";
        assert_met(&[short], &[WORD, Item::DataRead], &[behind, vram]);
        assert_met(&[], &with_words(&[0x8F02], &[]), &[]);
    }

    /// In a copy a data write is refused and leaves pending, and a status read is done.
    #[test]
    fn busy() {
        assert_met(&IN_A_COPY, &[WORD], &["12 before the 3 of its own call", "12 in a copy"]);
        let before = ["12 before the 3 of a call before it", "12 in a copy"];
        assert_met(&IN_A_COPY, &[Item::DataWrite(0), WORD], &before);
        let pending = [&IN_A_COPY[..], &[SET_PENDING]].concat();
        let counts = "12, as a call that would be refused counts as done";
        assert_met(&pending, &[Item::DataWrite(0), WORD], &[&before[..], &[counts]].concat());
        let own = ["12 before the 3 of its own call", "12 in a copy"];
        let state = "12, and the calls before it would change the state";
        assert_met(&pending, &[Item::StatusRead, WORD], &[&own[..], &[state]].concat());
        let waits = ["12 while a fill waits", "12, and all calls would be done"];
        assert_met(&[command(32, 6, 0, 1)], &[WORD], &waits);
    }

    #[test]
    fn what_would_change() {
        let done = "12, and all calls would be done";
        let change = CHANGED.map(|what| would_change(what).replace("script: ", ""));
        let vram = with_words(&[0x4000, 0x0000], &[Item::DataWrite(1), WORD]);
        assert_met(&[], &vram, &[done, &change[0], &change[1]]);
        let pixels = with_words(&[0x8144, 0x8705], &[Item::Line(0), WORD]);
        let recorded = "12 while recorded is set";
        assert_met(&[command(38, 1, 0, 0)], &pixels, &[done, recorded, &change[0], &change[2]]);
    }

    #[test]
    fn buffers() {
        for (buffer, length, expected) in [
            (1, 319, "12 with pixels of a wrong length"),
            (2, 65_535, "12 with work RAM of a wrong length"),
            (3, 1, "12 with a cartridge of a wrong length"),
        ] {
            let wrong = command(36, 0, buffer, length);
            assert_met(&[wrong], &[WORD], &["12, and all calls would be done", expected]);
        }
    }
}
