//! Which answers and rules streams meet, and which they never meet.
//! The counts come from looking at each call from outside, before and after it; for the sprite
//! flags, for used up, for cut runs, for frames and for the reader also from what the calls before
//! it did. The calls of a script and those of a reader are counted by themselves.

mod columns;
mod cuts;
mod flags;
mod frames;
mod lines;
mod masking;
mod ports;
mod reader;
mod refused;
mod refused_timing;
mod runs;
mod script;
mod shading;
mod timing;
mod used_up;

use std::collections::BTreeMap;

use crate::answer::Answer;
use crate::check::{number_in, op_in};
use crate::planes::View;
use crate::replay::{Command, Machine};
use crate::tape::{Record, RECORD_BYTES};
use cuts::Cuts;
use flags::Flags;
use frames::Frames;
use reader::Reading;
use used_up::UsedUp;

/// The answers that the lines of each op may have (definition, Numbers a call may answer). Those of
/// op 21 are the calls that a reader makes.
const ANSWERS: [(u8, &[Answer]); 21] = [
    (1, &[0, 1, 2, 3, 6]),
    (2, &[0, 1, 2, 3, 6]),
    (3, &[0, 1, 2, 3, 6]),
    (4, &[0, 1, 2, 3, 6]),
    (5, &[0, 1, 2, 3, 6]),
    (6, &[0, 1, 2, 3, 6]),
    (7, &[0, 1, 2, 6, 7]),
    (8, &[0, 1, 2, 4, 5, 6]),
    (9, &[0, 1, 2, 6]),
    (10, &[0, 1, 2, 8, 10]),
    (11, &[0, 2, 5]),
    (12, &[0]),
    (13, &[0, 1, 2, 4, 6]),
    (14, &[0, 1, 2, 6, 10]),
    (15, &[0, 1]),
    (16, &[0, 1]),
    (17, &[0, 1, 2, 3, 4, 5, 7, 11, 12]),
    (18, &[0, 2]),
    (20, &[0, 1, 2, 3, 4, 5, 7, 11, 12]),
    (21, &[0, 1, 2, 3, 4, 5, 7]),
    (22, &[0, 1, 2, 3, 4, 5, 7, 11, 12]),
];

/// How often each answer and each rule was met.
pub struct Tally {
    answers: BTreeMap<(u8, Answer), u64>,
    rules: BTreeMap<String, u64>,
}

impl Tally {
    pub fn new() -> Tally {
        let mut tally = Tally { answers: BTreeMap::new(), rules: BTreeMap::new() };
        for (op, numbers) in ANSWERS {
            for number in numbers {
                tally.answers.insert((op, *number), 0);
            }
        }
        let calls = (1..=9).chain([13, 14]).map(recorded).collect();
        let one_call = [calls, ports::rules(), runs::rules(), refused::rules()];
        let of_lines = [lines::rules(), masking::rules(), used_up::rules(), shading::rules()];
        let of_timing = [timing::rules(), refused_timing::rules()];
        let more_calls = [flags::rules(), cuts::rules(), frames::rules()];
        let of_scripts = [script::rules(), reader::rules()];
        for list in [&one_call[..], &of_lines, &of_timing, &more_calls, &of_scripts] {
            tally.rules.extend(list.concat().into_iter().map(|rule| (rule, 0)));
        }
        tally
    }

    /// Counts a rule by its name.
    pub fn meet(&mut self, rule: &str) {
        *self.rules.entry(rule.to_string()).or_insert(0) += 1;
    }

    /// Counts a rule if the condition holds.
    pub fn meet_if(&mut self, holds: bool, rule: &str) {
        if holds {
            self.meet(rule);
        }
    }

    /// Follows a stream and counts what it meets.
    pub fn follow(&mut self, commands: &[Command]) {
        let mut machine = Machine::new();
        let mut past = Past::default();
        for command in commands {
            if command.calls() {
                self.call(&mut machine, &mut past, command);
            } else if command.op != 48 {
                script::items::count_silent(self, &machine, command);
                past.reading.silent(self, &machine, command);
                machine.apply(command);
                past.set_up(command);
            }
        }
    }

    fn call(&mut self, machine: &mut Machine, past: &mut Past, command: &Command) {
        let before = Before { machine: machine.clone(), command: *command };
        let number = self.answered(&machine.apply(command));
        past.reading.count(self, &before, machine, number);
        match command.op {
            17 => {
                past.script(&before, machine);
                script::count(self, &before, machine, number);
            }
            18 => {
                past.cuts.set_up();
                script::items::count(self, &before, number);
            }
            20 => past.script(&before, machine),
            22 => past.cuts.set_up(),
            _ => {
                past.count(self, &before, machine, number);
                self.one_call(&before, machine, number);
            }
        }
    }

    /// Counts the answers of lines by their ops, and gives the number of the last line.
    fn answered(&mut self, lines: &[String]) -> Answer {
        let mut last = 0;
        for (op, number) in lines.iter().filter_map(|line| Some((op_in(line)?, number_in(line)?))) {
            *self.answers.entry((op, number)).or_insert(0) += 1;
            last = number;
        }
        last
    }

    /// Ops 1 to 16.
    fn one_call(&mut self, before: &Before, machine: &Machine, number: Answer) {
        if number != 0 {
            refused::count(self, before, number);
            refused_timing::count(self, before, number);
            shading::count_refused(self, before, number);
            return;
        }
        match before.command.op {
            1..=6 | 9 | 12 => ports::count(self, before),
            7 => runs::count_run(self, before),
            8 => {
                lines::count(self, before, machine);
                masking::count(self, before);
                shading::count(self, before, machine);
            }
            10 => runs::count_back(self, before, machine),
            11 => lines::count_row(self, before),
            _ => (),
        }
        timing::count(self, before);
        runs::count_most_remaining(self, before);
        if before.taped() {
            self.meet(&recorded(before.command.op));
        }
    }

    /// What no stream has met.
    pub fn never(&self) -> Vec<String> {
        let answers = self.answers.iter().filter(|(_, times)| **times == 0);
        let rules = self.rules.iter().filter(|(_, times)| **times == 0);
        answers
            .map(|((op, number), _)| format!("op {op} answer {number}"))
            .chain(rules.map(|(rule, _)| rule.clone()))
            .collect()
    }

    pub fn text(&self) -> String {
        let mut text = String::from("answers: op, number, times\n");
        for ((op, number), times) in &self.answers {
            text.push_str(&format!("  {op:2} {number:2} {times}\n"));
        }
        text.push_str("rules\n");
        for (rule, times) in &self.rules {
            text.push_str(&format!("  {times:8} {rule}\n"));
        }
        for rule in self.never() {
            text.push_str(&format!("never: {rule}\n"));
        }
        text
    }
}

/// What is followed from call to call in a stream.
#[derive(Default)]
struct Past {
    flags: Flags,
    cuts: Cuts,
    frames: Frames,
    used_up: UsedUp,
    reading: Reading,
}

impl Past {
    fn count(&mut self, tally: &mut Tally, before: &Before, after: &Machine, number: Answer) {
        self.flags.count(tally, before, after, number);
        self.cuts.count(tally, before, after, number);
        self.frames.count(tally, before, after, number);
        self.used_up.count(tally, before, after, number);
    }

    fn set_up(&mut self, command: &Command) {
        self.flags.set_up(command);
        self.cuts.set_up();
        self.frames.set_up(command);
        self.used_up.set_up(command);
    }

    /// A script makes many calls, and which of them was the last to touch a flag is not followed.
    fn script(&mut self, before: &Before, after: &Machine) {
        self.flags.forget();
        self.cuts.set_up();
        self.frames.follow(before, after);
        self.used_up.forget();
    }
}

/// The machine as a call found it, and the call.
pub struct Before {
    pub machine: Machine,
    pub command: Command,
}

impl Before {
    /// Is it a recorded call?
    pub fn taped(&self) -> bool {
        self.machine.recorded && self.command.recordable()
    }

    /// What a line is drawn from.
    pub fn view(&self) -> Option<View<'_>> {
        let (state, line) = (&self.machine.state, self.command.c as usize);
        let vram = self.machine.vram.lent().try_into().ok()?;
        Some(View { state, vram, line })
    }

    /// The same, unless the line is blanked.
    pub fn shown(&self) -> Option<View<'_>> {
        self.view().filter(|view| view.state.registers[1] & 0x40 != 0)
    }

    /// A record of the tape, the lowest one being number 0.
    pub fn record(&self, number: u32) -> Option<Record> {
        let at = RECORD_BYTES * number as usize;
        let bytes = self.machine.tape.bytes.get(at..at + RECORD_BYTES)?;
        bytes.try_into().ok()
    }
}

fn recorded(op: u8) -> String {
    format!("recorded form of op {op}")
}

/// A rule that is met at a width of its own.
fn at_width(rule: &str, width: usize) -> String {
    format!("{rule}, width {width}")
}

/// Turns a list of names into rules for both widths.
fn at_both_widths(list: &[&str]) -> Vec<String> {
    list.iter().flat_map(|rule| [320, 256].map(|width| at_width(rule, width))).collect()
}

/// Turns a list of names into rules.
pub fn names(list: &[&str]) -> Vec<String> {
    list.iter().map(|name| name.to_string()).collect()
}

#[cfg(test)]
mod tests {
    use super::*;
    use crate::streams::{stream, Kind};

    /// Which of the rules these commands meet: op, a, c.
    pub fn met_of(rules: Vec<String>, commands: &[(u8, u8, u32)]) -> Vec<String> {
        let command = |(op, a, c): &(u8, u8, u32)| Command { op: *op, a: *a, b: 0, c: *c };
        met_by(rules, &commands.iter().map(command).collect::<Vec<_>>())
    }

    /// Which of the rules these commands meet, in the order of the rules.
    pub fn met_by(rules: Vec<String>, commands: &[Command]) -> Vec<String> {
        let mut tally = Tally::new();
        tally.follow(commands);
        let never = tally.never();
        rules.into_iter().filter(|rule| !never.contains(rule)).collect()
    }

    /// Every rule that is counted is also listed, so that a gap can be seen.
    #[test]
    fn every_counted_rule_is_listed() {
        let listed = Tally::new();
        let mut tally = Tally::new();
        for (kind, _) in Kind::ALL {
            tally.follow(&stream(3, kind, 300));
        }
        assert_eq!(listed.rules.keys().collect::<Vec<_>>(), tally.rules.keys().collect::<Vec<_>>());
        assert_eq!(listed.answers.len(), tally.answers.len());
    }

    /// What a stream has not met is told, and what it has met is not.
    #[test]
    fn what_never_came_up_is_told() {
        let mut tally = Tally::new();
        tally.follow(&[Command { op: 11, a: 0, b: 2_047, c: 7 }]);
        let never = tally.never();
        for met in ["op 11 answer 0", "pattern row 7", "pattern name 2,047"] {
            assert!(!never.contains(&met.to_string()), "{met}");
        }
        for unmet in ["op 11 answer 5", "op 8 answer 0", "pattern row 6", "line 223"] {
            assert!(never.contains(&unmet.to_string()), "{unmet}");
        }
    }
}
