//! Counts of words for missing registers that come to a reader: which are turned down, with what, and
//! which are second halves, by the flag that the state has once the item is whole.

use super::{Step, Walk, BETWEEN_ITEMS, STAGES};
use crate::answer::{BAD_STATE, BUSY, MISSING_REGISTER};
use crate::calls::{memories_good, vram_good, PIXELS, WORK_RAM_BYTES};
use crate::cover::script::missing::{bit_13, MISSING};
use crate::cover::script::{changed, CHANGED};
use crate::cover::{names, Tally};
use crate::replay::{Command, Machine};
use crate::script::judge::names_missing;
use crate::state::{State, COPY, FILL, FILL_WAITING, TRANSFER};

const RULES: &[&str] = &[
    "reader: 12 before the 1 of its call",
    "reader: 12 before the 3 of its call",
    "reader: 12 with bytes behind it",
    "reader: 12 with VRAM of a wrong length",
    "reader: 12 with pixels of a wrong length",
    "reader: 12 with work RAM of a wrong length",
    "reader: 12 with a cartridge of a wrong length",
    "reader: 12 while a fill waits",
    "reader: 12 in a transfer",
    "reader: 12 in a fill",
    "reader: 12 in a copy",
    "reader: 12 while recorded is set",
    "reader: 12, and its item came in one delivery",
    "reader: 12, and pending was set when its item began",
    "reader: second half with the bits of a missing register, and pending was clear when it began",
];

/// Where an item with a content can be cut.
const CUTS: [&str; 4] = [STAGES[2], STAGES[4], STAGES[5], STAGES[6]];

/// What last changed the flag.
#[derive(Clone, Copy, Default, PartialEq, Eq)]
enum By {
    #[default]
    Nothing,
    ThisDelivery,
    EarlierDelivery,
    OtherCall,
    Hand,
    NewState,
}

const NAMES: [(By, &str); 5] = [
    (By::ThisDelivery, "the same delivery"),
    (By::EarlierDelivery, "an earlier delivery"),
    (By::OtherCall, "another call"),
    (By::Hand, "hand"),
    (By::NewState, "a state that is made anew"),
];

pub fn rules() -> Vec<String> {
    let mut rules = names(RULES);
    rules.extend(NAMES.map(|(_, who)| cleared(who)));
    rules.extend(NAMES[..4].iter().map(|(_, who)| set(who)));
    rules.extend(CUTS.map(cut));
    for number in MISSING {
        rules.extend([0x8000, 0xA000].map(|word| for_register(word | number << 8)));
    }
    rules.extend(CHANGED.map(stands));
    rules
}

fn cleared(who: &str) -> String {
    format!("reader: 12, pending cleared by {who}")
}

fn set(who: &str) -> String {
    format!("reader: second half with the bits of a missing register, pending set by {who}")
}

fn cut(stage: &str) -> String {
    format!("reader: 12, its item cut {stage}")
}

fn for_register(word: u16) -> String {
    format!("reader: 12 for register {}, {}", word / 256 % 32, bit_13(word))
}

fn stands(what: &str) -> String {
    format!("reader: 12, and what calls of the same delivery did to {what} stands")
}

/// The pending flag, followed from command to command.
#[derive(Default)]
pub struct Flag {
    now: bool,
    by: By,
    /// The flag when the first byte of the item came.
    at_first: bool,
}

impl Flag {
    fn change(&mut self, pending: bool, by: By) {
        if self.now != pending {
            (self.now, self.by) = (pending, by);
        }
    }

    pub fn silent(&mut self, command: &Command) {
        match (command.op, command.a) {
            (33, _) => self.change(false, By::NewState),
            (32, 5) => self.change(command.c % 2 == 1, By::Hand),
            _ => (),
        }
    }

    pub fn other(&mut self, then: &State, now: &State) {
        self.change(then.pending, self.by);
        self.change(now.pending, By::OtherCall);
    }

    pub fn count(&mut self, tally: &mut Tally, walk: &Walk) {
        if self.by == By::ThisDelivery {
            self.by = By::EarlierDelivery;
        }
        for step in &walk.steps {
            self.change(step.state.pending, By::ThisDelivery);
            if step.stage == BETWEEN_ITEMS {
                self.at_first = self.now;
            }
            if step.item.is_some_and(|item| names_missing(item, false)) {
                self.bits(tally, walk, step);
            }
        }
        self.change(walk.after.state.pending, By::ThisDelivery);
    }

    /// A whole item with the bits of a missing register.
    fn bits(&self, tally: &mut Tally, walk: &Walk, step: &Step) {
        let who = NAMES.iter().find(|(by, _)| *by == self.by);
        let who = who.map_or("", |(_, who)| who);
        let changed_inside = self.at_first != self.now;
        if self.now {
            tally.meet_if(!who.is_empty(), &set(who));
            tally.meet_if(changed_inside, RULES[14]);
            return;
        }
        tally.meet_if(!who.is_empty(), &cleared(who));
        tally.meet_if(changed_inside, RULES[13]);
        turned_down(tally, walk, step);
    }
}

/// The item stops the reader.
fn turned_down(tally: &mut Tally, walk: &Walk, step: &Step) {
    tally.meet(&for_register(step.item.and_then(|item| item.content()).unwrap_or(0)));
    let own = own_number(walk.after, step);
    tally.meet_if(own == Some(BAD_STATE), "reader: 12 before the 1 of its call");
    tally.meet_if(own == Some(BUSY), "reader: 12 before the 3 of its call");
    let behind =
        walk.stop().is_some_and(|(_, number, behind)| number == MISSING_REGISTER && behind > 0);
    tally.meet_if(behind, "reader: 12 with bytes behind it");
    if walk.cut(walk.steps.len() - 1) {
        tally.meet(&cut(walk.steps[0].stage));
    } else {
        tally.meet("reader: 12, and its item came in one delivery");
    }
    for what in changed(walk.machine, walk.after) {
        tally.meet(&stands(what));
    }
    lent(tally, walk.machine, &step.state);
}

/// What the call would have answered if it had been made.
fn own_number(machine: &Machine, step: &Step) -> Option<u8> {
    let mut machine = machine.clone();
    machine.lent().0.call(step.item?).err()
}

fn lent(tally: &mut Tally, machine: &Machine, state: &State) {
    let work_ram = machine.work_ram.length == WORK_RAM_BYTES;
    let kind = |kind: u8| state.good() && state.kind == kind;
    let facts = [
        (!vram_good(machine.vram.lent()), "with VRAM of a wrong length"),
        (machine.pixels.length != PIXELS, "with pixels of a wrong length"),
        (!work_ram, "with work RAM of a wrong length"),
        (work_ram && !memories_good(machine.memories()), "with a cartridge of a wrong length"),
        (kind(FILL_WAITING), "while a fill waits"),
        (kind(TRANSFER), "in a transfer"),
        (kind(FILL), "in a fill"),
        (kind(COPY), "in a copy"),
        (machine.recorded, "while recorded is set"),
    ];
    for (holds, rule) in facts {
        tally.meet_if(holds, &format!("reader: 12 {rule}"));
    }
}

#[cfg(test)]
mod tests {
    use super::*;
    use crate::bench::command;
    use crate::cover::reader::tests::{assert_met, deliver, SET_PENDING, SPOIL_STATE};

    /// A word for register 24, its item in bytes 1 to 5, and one byte more.
    const WORD: [u8; 7] = [1, 0, 3, 1, 0x98, 0, 0];
    const REGISTER: &str = "12 for register 24, bit 13 clear";

    #[test]
    fn turned_down_with() {
        let one = "12, and its item came in one delivery";
        let met = |commands: &[Command], expected: &[&str]| {
            assert_met(rules(), &WORD, commands, &[&[REGISTER], expected].concat());
        };
        met(&[deliver(0, 6)], &[one]);
        met(&[deliver(0, 7)], &[one, "12 with bytes behind it"]);
        met(&[SPOIL_STATE, deliver(0, 6)], &[one, "12 before the 1 of its call"]);
        met(&[deliver(0, 2), deliver(2, 4)], &["12, its item cut inside a length"]);
        met(&[deliver(0, 5), deliver(5, 1)], &["12, its item cut inside a content"]);
        let copy = [command(32, 6, 0, 4), command(32, 7, 0, 1), deliver(0, 6)];
        met(&copy, &[one, "12 before the 3 of its call", "12 in a copy"]);
        let short = command(36, 0, 1, 319);
        met(&[short, deliver(0, 6)], &[one, "12 with pixels of a wrong length"]);
    }

    #[test]
    fn by_the_flag_when_it_is_whole() {
        let half = "second half with the bits of a missing register";
        let (hand, clear) = (
            format!("{half}, pending set by hand"),
            format!("{half}, and pending was clear when it began"),
        );
        assert_met(rules(), &WORD, &[SET_PENDING, deliver(0, 6)], &[&hand]);
        let inside = [deliver(0, 4), SET_PENDING, deliver(4, 2)];
        assert_met(rules(), &WORD, &inside, &[&hand, &clear]);
        let call = format!("{half}, pending set by another call");
        let first = command(1, 0, 0x4000, 0);
        assert_met(rules(), &WORD, &[first, deliver(0, 6)], &[&call]);
        let anew = [SET_PENDING, deliver(0, 4), command(33, 0, 0, 0), deliver(4, 2)];
        let cleared = "12, pending cleared by a state that is made anew";
        let was = "12, and pending was set when its item began";
        let cut = "12, its item cut behind a kind";
        assert_met(rules(), &WORD, &anew, &[REGISTER, cleared, was, cut]);
    }

    /// A first half, then the word: in one delivery and in two.
    #[test]
    fn by_deliveries() {
        let script = [1, 0, 3, 1, 0x40, 0, 0, 3, 1, 0x98, 0];
        let half = "second half with the bits of a missing register";
        let same = format!("{half}, pending set by the same delivery");
        assert_met(rules(), &script, &[deliver(0, 11)], &[&same]);
        let earlier = format!("{half}, pending set by an earlier delivery");
        assert_met(rules(), &script, &[deliver(0, 6), deliver(6, 5)], &[&earlier]);
    }
}
