//! Counts of the commands around captured lines: fields of the batch, the batch told, the capture set
//! and copied, and digests that show what judging has left.

use super::{Compared, ADD, JOIN, JUDGE};
use crate::answer::{Answer, DONE};
use crate::cover::{names, Before, Tally};
use crate::judge::Batch;
use crate::replay::{Command, Machine, CAPTURE};

const RULES: &[&str] = &[
    "field 6 of the batch: set by an odd number above 1",
    "field 6 of the batch: cleared by an even number above 0",
    "no field of the batch",
    "numbers of a worst line that there is not, told once there is one",
    "the same, with a join between",
    "the same, with a refused line between",
    "batch told: empty",
    "batch told: with a worst line",
    "batch told: lines and no worst one",
    "batch told: 0 for numbers of a worst line that there is not",
    "batch told: a number at the limit",
    "batch told: lines, behind a state that was made anew",
    "pixels copied: all bytes held change",
    "pixels copied: the capture is lent at another length",
    "pixels copied: the pixel buffer is lent at another length",
    "pixels copied: drawn, and equal to their line",
    "pixels copied: drawn, and not equal to their line",
    "pixels copied: drawn, and equal to another line",
    "pixels copied: drawn, and not equal to another line",
    "op 34 on the capture: a place past the bytes held",
    "op 34 on the capture: a byte beyond the length",
    "op 36 on the capture: more than the bytes held",
];

/// What comes just before digests.
const SHOWN: [&str; 6] = [
    "a line judged that would change the state",
    "a line judged that would change the pixels",
    "a line added that would change the state",
    "a line added that would change the pixels",
    "a refused capture",
    "a join",
];

/// The ops that set buffers.
const SETTING: [u8; 4] = [34, 35, 36, 39];

pub fn rules() -> Vec<String> {
    let mut rules = names(RULES);
    rules.extend((0..7).map(field));
    rules.extend(SETTING.map(on_capture));
    rules.extend(SETTING.map(on_none));
    rules.extend(SHOWN.iter().flat_map(|what| [false, true].map(|tape| digests(what, tape))));
    rules
}

fn field(number: u8) -> String {
    format!("field {number} of the batch")
}

fn on_capture(op: u8) -> String {
    format!("op {op} on the capture")
}

fn on_none(op: u8) -> String {
    format!("op {op} on a buffer above 7")
}

fn digests(what: &str, recorded: bool) -> String {
    let recorded = if recorded { ", recorded" } else { "" };
    format!("digests behind {what}{recorded}")
}

/// Numbers set for a worst line that there is not, and what came since.
#[derive(Clone, Copy, Default)]
struct Unseen {
    joined: bool,
    refused: bool,
}

#[derive(Default)]
pub struct Commands {
    unseen: Option<Unseen>,
    /// The numbers are those of a worst line now, and were not told yet.
    seen: Option<Unseen>,
    /// The line that the pixel buffer has, and the line that was copied.
    drawn: Option<u32>,
    copied: Option<u32>,
    fresh: bool,
    /// What digests would show, if they come next.
    shown: Vec<&'static str>,
}

impl Commands {
    pub fn silent(&mut self, tally: &mut Tally, machine: &Machine, command: &Command) {
        self.shown.clear();
        match command.op {
            28 => self.field(tally, machine, command),
            33 => self.fresh = true,
            34..=36 | 39 => self.buffer(tally, command),
            40 => {
                copied(tally, machine);
                self.copied = self.drawn;
            }
            _ => (),
        }
    }

    fn field(&mut self, tally: &mut Tally, machine: &Machine, command: &Command) {
        let (number, value, none) = (command.a, command.c, machine.batch.batch.worst.is_none());
        if number > 6 {
            tally.meet("no field of the batch");
            return;
        }
        tally.meet(&field(number));
        let there = number == 6 && value % 2 == 1;
        let rule = "field 6 of the batch: set by an odd number above 1";
        tally.meet_if(there && none && value > 1, rule);
        let gone = number == 6 && value % 2 == 0 && value > 0 && !none;
        tally.meet_if(gone, "field 6 of the batch: cleared by an even number above 0");
        if matches!(number, 4 | 5) && none && value != 0 {
            self.unseen = Some(Unseen::default());
        }
        if there {
            self.seen = self.unseen.take();
        }
    }

    fn buffer(&mut self, tally: &mut Tally, command: &Command) {
        let Command { op, b, c, .. } = *command;
        tally.meet_if(b > CAPTURE, &on_none(op));
        if b == CAPTURE {
            tally.meet(&on_capture(op));
            let poke = op == 34;
            tally.meet_if(poke && c >= 324, "op 34 on the capture: a place past the bytes held");
            let beyond = poke && (320..324).contains(&(c % 324));
            tally.meet_if(beyond, "op 34 on the capture: a byte beyond the length");
            let more = op == 36 && c > 324;
            tally.meet_if(more, "op 36 on the capture: more than the bytes held");
            self.copied = self.copied.filter(|_| op == 36);
        }
        // The pixel buffer is number 1.
        self.drawn = self.drawn.filter(|_| b != 1 || op == 36);
    }

    pub fn told(&mut self, tally: &mut Tally, machine: &Machine, command: &Command) {
        if command.op == 48 {
            for what in std::mem::take(&mut self.shown) {
                tally.meet(&digests(what, machine.recorded));
            }
            return;
        }
        batch_told(tally, machine);
        let lines = machine.batch.batch.lines > 0;
        let fresh = std::mem::take(&mut self.fresh) && lines;
        tally.meet_if(fresh, "batch told: lines, behind a state that was made anew");
        if let Some(seen) = self.seen.take() {
            tally.meet("numbers of a worst line that there is not, told once there is one");
            tally.meet_if(seen.joined, "the same, with a join between");
            tally.meet_if(seen.refused, "the same, with a refused line between");
        }
    }

    /// Any call.
    pub fn call(&mut self, tally: &mut Tally, before: &Before, number: Answer) {
        self.shown = shown(before, number);
        match (before.command.op, number) {
            (8, DONE) => self.drawn = Some(before.command.c),
            (17 | 20, _) => self.drawn = None,
            (JUDGE | ADD, DONE) => self.judged(tally, before),
            _ => (),
        }
        self.follow_unseen(before.command.op, number);
    }

    /// A capture of a line that was drawn and copied.
    fn judged(&self, tally: &mut Tally, before: &Before) {
        let (Some(line), Some(compared)) = (self.copied, Compared::of(before)) else {
            return;
        };
        tally.meet(match (line == before.command.c, compared.equal()) {
            (true, true) => "pixels copied: drawn, and equal to their line",
            (true, false) => "pixels copied: drawn, and not equal to their line",
            (false, true) => "pixels copied: drawn, and equal to another line",
            (false, false) => "pixels copied: drawn, and not equal to another line",
        });
    }

    /// A line that is added takes the place of the numbers; a join and a refused line leave them.
    fn follow_unseen(&mut self, op: u8, number: Answer) {
        match (op, number) {
            (ADD, DONE) => (self.unseen, self.seen) = (None, None),
            (ADD, _) => self.each(|unseen| unseen.refused = true),
            (JOIN, DONE) => self.each(|unseen| unseen.joined = true),
            _ => (),
        }
    }

    fn each(&mut self, change: impl Fn(&mut Unseen)) {
        [&mut self.unseen, &mut self.seen].into_iter().flatten().for_each(change);
    }
}

/// What drawing the line would have changed, or that there is nothing to change.
fn shown(before: &Before, number: Answer) -> Vec<&'static str> {
    match (before.command.op, number) {
        (JOIN, _) => vec![SHOWN[5]],
        (JUDGE | ADD, DONE) => {
            let Some(compared) = Compared::of(before) else {
                return Vec::new();
            };
            let mut state = compared.view.state.clone();
            compared.picture.leave(&mut state);
            let pixels = &compared.picture.pixels;
            let changes = [
                state != *compared.view.state,
                before.machine.pixels.bytes[..pixels.len()] != pixels[..],
            ];
            let names = if before.command.op == JUDGE { &SHOWN[..2] } else { &SHOWN[2..4] };
            names.iter().zip(changes).filter(|(_, holds)| *holds).map(|(name, _)| *name).collect()
        }
        (JUDGE | ADD, _) => vec![SHOWN[4]],
        _ => Vec::new(),
    }
}

fn copied(tally: &mut Tally, machine: &Machine) {
    let (pixels, capture) = (&machine.pixels, &machine.capture);
    let mut bytes = pixels.bytes.iter().zip(&capture.bytes);
    let all = bytes.by_ref().take(256).any(|(one, other)| one != other)
        && bytes.skip(64).any(|(one, other)| one != other);
    tally.meet_if(all, "pixels copied: all bytes held change");
    let other = capture.length != 320;
    tally.meet_if(other, "pixels copied: the capture is lent at another length");
    let other = pixels.length != 320;
    tally.meet_if(other, "pixels copied: the pixel buffer is lent at another length");
}

fn batch_told(tally: &mut Tally, machine: &Machine) {
    let (batch, kept) = (&machine.batch.batch, machine.batch.kept);
    let none = batch.worst.is_none();
    let numbers = [batch.lines, batch.equal, batch.differing, batch.visible];
    let facts = [
        (*batch == Batch::default(), "batch told: empty"),
        (!none, "batch told: with a worst line"),
        (none && batch.lines > 0, "batch told: lines and no worst one"),
        (
            none && kept != Default::default(),
            "batch told: 0 for numbers of a worst line that there is not",
        ),
        (numbers.contains(&u32::MAX), "batch told: a number at the limit"),
    ];
    for (holds, rule) in facts {
        tally.meet_if(holds, rule);
    }
}

#[cfg(test)]
mod tests {
    use super::*;
    use crate::bench::command;
    use crate::cover::judge::tests::{assert_met, spoil};
    use crate::replay::PIXELS;

    const TELL: Command = Command { op: 29, a: 0, b: 0, c: 0 };
    const JOIN_IT: Command = Command { op: 27, a: 0, b: 0, c: 0 };
    const DIGESTS: Command = Command { op: 48, a: 0, b: 0, c: 0 };

    fn set(field: u8, value: u32) -> Command {
        command(28, field, 0, value)
    }

    /// The commands behind a capture that op 39 has set.
    fn assert_rules(commands: &[Command], expected: &[&str]) {
        let expected = [expected, &["op 39 on the capture"]].concat();
        assert_met(rules(), "none", commands, &expected);
    }

    #[test]
    fn numbers_that_are_kept() {
        let (four, six) = ("field 4 of the batch", "field 6 of the batch");
        let kept = "numbers of a worst line that there is not, told once there is one";
        let told = "batch told: with a worst line";
        assert_rules(&[set(4, 7), set(6, 1), TELL], &[four, six, kept, told]);
        let between = ["the same, with a join between", "the same, with a refused line between"];
        let refused = command(26, 0, 0, 224);
        let all = [&between[..], &[four, six, kept, told]].concat();
        assert_rules(&[set(4, 7), JOIN_IT, refused, set(6, 1), TELL], &all);
        // A line that is added is the worst one.
        let added = [set(4, 7), command(26, 0, 0, 9), set(6, 1), TELL];
        assert_rules(&added, &[four, six, told]);
        let zero = "batch told: 0 for numbers of a worst line that there is not";
        assert_rules(&[set(4, 7), TELL], &[four, zero, "batch told: empty"]);
        assert_rules(&[set(7, 7), TELL], &["no field of the batch", "batch told: empty"]);
    }

    #[test]
    fn pixels_that_are_copied() {
        let copy = command(40, 0, 0, 0);
        let draw = command(8, 0, 0, 9);
        let equal = "pixels copied: drawn, and equal to their line";
        let judge = |line| command(25, 0, 0, line);
        // Bytes past 320 are changed, but the visible ones are not.
        assert_rules(&[draw, copy, judge(9)], &[equal]);
        let other = "pixels copied: drawn, and equal to another line";
        assert_rules(&[draw, copy, judge(10)], &[other]);
        let poke = "op 34 on the capture";
        assert_rules(&[draw, copy, spoil(3, 1), judge(9)], &[poke]);
        let all = "pixels copied: all bytes held change";
        assert_rules(&[copy, judge(9)], &[all]);
        let length = "pixels copied: the pixel buffer is lent at another length";
        assert_rules(&[command(36, 0, PIXELS, 9), copy], &[all, length]);
    }

    #[test]
    fn digests_behind() {
        let judge = command(25, 0, 0, 9);
        let pixels = "digests behind a line judged that would change the pixels";
        assert_rules(&[judge, DIGESTS, DIGESTS], &[pixels]);
        assert_rules(&[judge, command(38, 0, 0, 0), DIGESTS], &[]);
        let state = "digests behind a line judged that would change the state, recorded";
        let drawn = [command(8, 0, 0, 9), command(32, 17, 0, 1), command(38, 1, 0, 0)];
        assert_rules(&[&drawn[..], &[judge, DIGESTS]].concat(), &[state]);
        let join = "digests behind a join";
        assert_rules(&[JOIN_IT, DIGESTS], &[join]);
        let refused = "digests behind a refused capture";
        assert_rules(&[command(25, 0, 0, 224), DIGESTS], &[refused]);
    }
}
