//! Counts of what lies inside an item that comes in parts, and of deliveries that ask neither for
//! the state nor for a buffer.

use std::collections::BTreeSet;

use super::faulty::buffers_good;
use super::{inside_an_item, Walk, BETWEEN_ITEMS};
use crate::calls::{vram_good, PIXELS, WORK_RAM_BYTES};
use crate::cover::{names, Before, Tally};
use crate::replay::{Command, Machine, SCRIPT};

/// What may lie inside an item.
const LIES: [&str; 10] = [
    "the state was made anew",
    "the state was set by hand",
    "a port was written or read",
    "a run, a line or a new frame was called",
    "a script was run",
    "bytes of the script were set",
    "no bytes came",
    "the state was bad and is good again",
    "a buffer was bad and is good again",
    "two or more deliveries came",
];

/// What a delivery may be given that makes no call.
const GIVEN: [&str; 7] = [
    "a bad state",
    "VRAM of a wrong length",
    "pixels of a wrong length",
    "work RAM of a wrong length",
    "a cartridge of a wrong length",
    "a busy chip",
    "recorded set",
];
const WITHOUT_A_CALL: [&str; 2] = ["no bytes", "half an item"];
const ENDS: &[&str] = &[
    "reader: end notice with a bad state",
    "reader: end notice with a bad buffer",
    "reader: end notice while recorded is set",
];

pub fn rules() -> Vec<String> {
    let mut rules = names(ENDS);
    rules.extend(LIES.map(lies));
    for what in WITHOUT_A_CALL {
        rules.extend(GIVEN.map(|given| with(what, given)));
    }
    rules
}

fn lies(what: &str) -> String {
    format!("reader: item whole, and inside it {what}")
}

fn with(what: &str, given: &str) -> String {
    format!("reader: {what} with {given}")
}

pub fn count_end(tally: &mut Tally, machine: &Machine) {
    let facts = [!machine.state.good(), !buffers_good(machine), machine.recorded];
    for (rule, holds) in ENDS.iter().zip(facts) {
        tally.meet_if(holds, rule);
    }
}

/// What lay inside the item that the reader has a part of.
#[derive(Default)]
pub struct Inside {
    lay: BTreeSet<&'static str>,
    deliveries: usize,
}

impl Inside {
    fn note(&mut self, machine: &Machine, what: Option<&'static str>) {
        if inside_an_item(&machine.reader) {
            self.lay.extend(what);
            self.look(machine);
        }
    }

    /// A state or a buffer that is bad now.
    fn look(&mut self, machine: &Machine) {
        self.lay.extend((!machine.state.good()).then_some(LIES[7]));
        self.lay.extend((!buffers_good(machine)).then_some(LIES[8]));
    }

    pub fn silent(&mut self, machine: &Machine, command: &Command) {
        let what = match command.op {
            33 => Some(LIES[0]),
            32 => Some(LIES[1]),
            34 | 35 | 39 if command.b == SCRIPT => Some(LIES[5]),
            _ => None,
        };
        self.note(machine, what);
        if command.op == 19 {
            *self = Inside::default();
        }
    }

    pub fn other(&mut self, before: &Before) {
        let what = match before.command.op {
            1..=6 => Some(LIES[2]),
            7..=9 => Some(LIES[3]),
            17 => Some(LIES[4]),
            18 => Some(LIES[5]),
            _ => None,
        };
        self.note(&before.machine, what);
    }

    pub fn count(&mut self, tally: &mut Tally, walk: &Walk) {
        self.note(walk.machine, walk.bytes.is_empty().then_some(LIES[6]));
        without_a_call(tally, walk);
        self.deliveries += usize::from(!walk.steps.is_empty());
        let whole = |step: &super::Step| step.item.is_some();
        if let Some(place) = walk.steps.iter().position(whole).filter(|place| walk.cut(*place)) {
            self.whole(tally, walk, &walk.steps[place]);
        }
        if walk.steps.iter().any(|step| step.stage == BETWEEN_ITEMS || whole(step)) {
            *self = Inside { lay: BTreeSet::new(), deliveries: 1 };
        }
    }

    fn whole(&self, tally: &mut Tally, walk: &Walk, step: &super::Step) {
        for what in &self.lay {
            let again = match *what {
                what if what == LIES[7] => step.state.good(),
                what if what == LIES[8] => buffers_good(walk.machine),
                _ => true,
            };
            tally.meet_if(again, &lies(what));
        }
        tally.meet_if(self.deliveries > 2, &lies(LIES[9]));
    }
}

/// A delivery that answers 0 and makes no call.
fn without_a_call(tally: &mut Tally, walk: &Walk) {
    let called = walk.steps.iter().any(|step| step.item.is_some());
    let half = !walk.steps.is_empty() && inside_an_item(&walk.after.reader);
    let what = match walk.bytes.is_empty() {
        _ if called || super::stage(&walk.after.reader).is_none() => return,
        true => WITHOUT_A_CALL[0],
        false if half => WITHOUT_A_CALL[1],
        false => return,
    };
    let machine = walk.machine;
    let given = [
        !machine.state.good(),
        !vram_good(machine.vram.lent()),
        machine.pixels.length != PIXELS,
        machine.work_ram.length != WORK_RAM_BYTES,
        machine.cartridge.length % 2 == 1,
        machine.state.good() && machine.state.running(),
        machine.recorded,
    ];
    for (name, holds) in GIVEN.iter().zip(given) {
        tally.meet_if(holds, &with(what, name));
    }
}

#[cfg(test)]
mod tests {
    use super::*;
    use crate::bench::command;
    use crate::cover::reader::tests::{assert_met, deliver, END, SCRIPT, SPOIL_STATE};

    const HALF: Command = Command { op: 20, a: 0, b: 0, c: 3 };
    const REST: Command = Command { op: 20, a: 0, b: 3, c: 1 };
    const MEND: Command = Command { op: 32, a: 4, b: 0, c: 0 };

    /// The status read lies in bytes 1 to 3; this comes before its last one.
    fn assert_inside(commands: &[Command], expected: &[&str]) {
        assert_met(rules(), &SCRIPT, &[&[HALF], commands, &[REST]].concat(), expected);
    }

    #[test]
    fn inside_it() {
        assert_inside(&[], &[]);
        let anew = "item whole, and inside it the state was made anew";
        assert_inside(&[command(33, 0, 0, 0)], &[anew]);
        assert_inside(&[deliver(0, 0)], &["item whole, and inside it no bytes came"]);
        let port = "item whole, and inside it a port was written or read";
        assert_inside(&[command(6, 0, 0, 0)], &[port]);
        let set = "item whole, and inside it the state was set by hand";
        let again = "item whole, and inside it the state was bad and is good again";
        assert_inside(&[SPOIL_STATE, MEND], &[set, again]);
        assert_inside(&[SPOIL_STATE], &[set]);
        let more = "item whole, and inside it two or more deliveries came";
        let commands = [deliver(0, 1), deliver(1, 1), deliver(2, 1), REST];
        assert_met(rules(), &SCRIPT, &commands, &[more]);
    }

    #[test]
    fn asked_for_nothing() {
        let half = "half an item with a bad state";
        assert_met(rules(), &SCRIPT, &[SPOIL_STATE, HALF], &[half]);
        assert_met(rules(), &SCRIPT, &[SPOIL_STATE, deliver(0, 4)], &[]);
        let none = "no bytes with VRAM of a wrong length";
        assert_met(rules(), &SCRIPT, &[command(36, 0, 0, 9), deliver(9, 1)], &[none]);
        let end = "end notice with a bad state";
        assert_met(rules(), &SCRIPT, &[SPOIL_STATE, END], &[end]);
    }
}
