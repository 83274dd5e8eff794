//! Counts of what a reader is brought and told: each delivery is walked through byte by byte on a
//! copy of the machine, and what lies between deliveries is followed (definition, The reader).

mod calls;
mod faulty;
mod inside;
mod missing;
mod stages;
mod stopped;

use super::{Before, Tally};
use crate::answer::Answer;
use crate::replay::{Command, Machine};
use crate::script::reader::{Made, Reader};
use crate::script::{read_item, Item};
use crate::state::State;
use inside::Inside;
use missing::Flag;
use stopped::Stopped;

pub fn rules() -> Vec<String> {
    let of_bytes = [stages::rules(), faulty::rules(), inside::rules()];
    let of_items = [missing::rules(), calls::rules(), stopped::rules()];
    [of_bytes.concat(), of_items.concat()].concat()
}

/// Where a reader may be that is not stopped.
const STAGES: [&str; 7] = [
    "before the version",
    "between items",
    "inside a length",
    "behind a length of 1",
    "behind a length of 3",
    "behind a kind",
    "inside a content",
];
const BETWEEN_ITEMS: &str = STAGES[1];

/// Where a reader is, unless it is stopped.
fn stage(reader: &Reader) -> Option<&'static str> {
    match reader {
        Reader::BeforeVersion => Some(STAGES[0]),
        Reader::InItems(kept) => Some(match kept.as_slice() {
            [] => STAGES[1],
            [_] => STAGES[2],
            [_, 1] => STAGES[3],
            [_, _] => STAGES[4],
            [_, _, _] => STAGES[5],
            _ => STAGES[6],
        }),
        Reader::Stopped(_) => None,
    }
}

/// Does it have some bytes of an item?
fn inside_an_item(reader: &Reader) -> bool {
    matches!(reader, Reader::InItems(kept) if !kept.is_empty())
}

/// A byte that is taken: where, on which state, and what it does.
struct Step {
    byte: u8,
    stage: &'static str,
    state: State,
    /// The item that it makes whole.
    item: Option<Item>,
    made: Option<Made>,
    left: Reader,
}

/// A delivery, byte by byte.
struct Walk<'a> {
    machine: &'a Machine,
    after: &'a Machine,
    bytes: &'a [u8],
    steps: Vec<Step>,
}

impl Walk<'_> {
    fn of<'a>(before: &'a Before, after: &'a Machine) -> Walk<'a> {
        let bytes = before.command.delivered(before.machine.script.lent());
        let mut machine = before.machine.clone();
        let mut steps = Vec::new();
        for byte in bytes {
            let Some(stage) = stage(&machine.reader) else {
                break;
            };
            let item = made_whole(&machine.reader, *byte);
            let state = machine.state.clone();
            let made = machine.deliver(&[*byte]).calls.pop();
            let left = machine.reader.clone();
            steps.push(Step { byte: *byte, stage, state, item, made, left });
        }
        Walk { machine: &before.machine, after, bytes, steps }
    }

    /// The calls that are done.
    fn done(&self) -> usize {
        self.steps.iter().filter(|step| matches!(step.made, Some((_, Ok(_))))).count()
    }

    /// The byte that stops the reader, with those behind it that are not taken.
    fn stop(&self) -> Option<(&Step, Answer, usize)> {
        let step = self.steps.last()?;
        match step.left {
            Reader::Stopped(number) => Some((step, number, self.bytes.len() - self.steps.len())),
            _ => None,
        }
    }

    /// Was the item that a byte makes whole begun by an earlier delivery?
    fn cut(&self, place: usize) -> bool {
        self.steps[..=place].iter().all(|step| step.stage != BETWEEN_ITEMS)
            && inside_an_item(&self.machine.reader)
    }
}

fn made_whole(reader: &Reader, byte: u8) -> Option<Item> {
    match reader {
        Reader::InItems(kept) => Some(read_item(&[&kept[..], &[byte]].concat(), 0)?.0),
        _ => None,
    }
}

/// The reader of one stream, followed from command to command.
#[derive(Default)]
pub struct Reading {
    stopped: Stopped,
    inside: Inside,
    flag: Flag,
    /// The bytes that it took since it was started anew.
    taken: usize,
}

impl Reading {
    /// A command that prints nothing.
    pub fn silent(&mut self, tally: &mut Tally, machine: &Machine, command: &Command) {
        stages::count_silent(tally, machine, command);
        self.stopped.silent(tally, command);
        self.inside.silent(machine, command);
        self.flag.silent(command);
        if command.op == 19 {
            self.taken = 0;
        }
    }

    /// A command that prints a line or more.
    pub fn count(&mut self, tally: &mut Tally, before: &Before, after: &Machine, number: Answer) {
        match before.command.op {
            20 => self.delivery(tally, before, after),
            22 => self.end_notice(tally, before, number),
            _ => {
                self.stopped.other(tally);
                self.inside.other(before);
                self.flag.other(&before.machine.state, &after.state);
            }
        }
    }

    fn delivery(&mut self, tally: &mut Tally, before: &Before, after: &Machine) {
        let walk = Walk::of(before, after);
        self.taken += walk.steps.len();
        let held = before.machine.script.bytes.len();
        tally.meet_if(self.taken > held, "reader: more bytes than a script of the stream holds");
        stages::count(tally, before, &walk);
        faulty::count(tally, &walk);
        calls::count(tally, &walk);
        self.flag.count(tally, &walk);
        self.inside.count(tally, &walk);
        self.stopped.count(tally, &walk);
    }

    fn end_notice(&mut self, tally: &mut Tally, before: &Before, number: Answer) {
        stages::count_end(tally, &before.machine);
        inside::count_end(tally, &before.machine);
        self.stopped.end_notice(tally, &before.machine, number);
    }
}

#[cfg(test)]
mod tests {
    use super::*;
    use crate::bench::{command, lend_script};
    use crate::cover::tests::met_by;

    pub const ANEW: Command = Command { op: 19, a: 0, b: 0, c: 0 };
    pub const END: Command = Command { op: 22, a: 0, b: 0, c: 0 };
    pub const SPOIL_STATE: Command = Command { op: 32, a: 4, b: 0, c: 64 };
    pub const SET_PENDING: Command = Command { op: 32, a: 5, b: 0, c: 1 };
    /// A status read and the register write of kind 1.
    pub const SCRIPT: [u8; 9] = [1, 0, 1, 4, 0, 3, 1, 0x8F, 0x02];

    pub fn deliver(from: u16, bytes: u32) -> Command {
        command(20, 0, from, bytes)
    }

    /// Of the rules of one file, these commands meet just these after a script is lent. The first
    /// word of a rule is left out.
    pub fn assert_met(rules: Vec<String>, script: &[u8], commands: &[Command], expected: &[&str]) {
        let met = met_by(rules, &[&lend_script(script), commands].concat());
        let mut met: Vec<_> = met.iter().map(|rule| rule.trim_start_matches("reader: ")).collect();
        let mut expected = expected.to_vec();
        met.sort();
        expected.sort();
        assert_eq!(met, expected, "{commands:?}");
    }

    #[test]
    fn each_stage_has_its_name() {
        let reader = |bytes: &[u8]| {
            let mut machine = Machine::new();
            machine.deliver(bytes);
            machine.reader
        };
        for (bytes, name) in [
            (&[][..], Some(STAGES[0])),
            (&[1], Some(STAGES[1])),
            (&[1, 0], Some(STAGES[2])),
            (&[1, 0, 1], Some(STAGES[3])),
            (&[1, 0, 3], Some(STAGES[4])),
            (&[1, 0, 3, 5], Some(STAGES[5])),
            (&[1, 0, 3, 5, 1], Some(STAGES[6])),
            (&[1, 0, 3, 5, 1, 1], Some(STAGES[1])),
            (&[2], None),
        ] {
            assert_eq!(stage(&reader(bytes)), name, "{bytes:?}");
            assert_eq!(inside_an_item(&reader(bytes)), STAGES[2..].contains(&name.unwrap_or("")));
        }
    }
}
