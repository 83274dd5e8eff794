//! Counts of the rules of frame timing that more than one call shows: whole frames, vertical from
//! its line to its acknowledge, and step backs over lines and acknowledges.

use super::{names, Before, Tally};
use crate::answer::{Answer, DONE};
use crate::replay::{Command, Machine, TAPE};
use crate::timing::level;

const RULES: &[&str] = &[
    "whole frame of lines",
    "whole frame with register 0 bit 4 changed inside",
    "whole frame with register 1 bit 5 changed inside",
    "whole frame with register 10 changed inside",
    "status read shows vertical that another has left",
    "status read after an acknowledge of 6 does not show vertical",
    "step back over a line that began",
    "step back over 10 or more lines that began",
    "step back over an acknowledge of 4",
    "step back over an acknowledge of 6",
    "step back over lines and acknowledges",
    "step back from line 0 to line 261",
    "step back from line 224: vertical clear again",
    "step back over an expiry: horizontal clear again",
    "step back to another line counter",
    "level read shows a level that a step back gave back",
    "line begins again after a step back",
];

/// Numbers of register 10 that some whole frames have to the end.
const HELD: [u8; 8] = [0, 1, 2, 50, 223, 224, 225, 255];

pub fn rules() -> Vec<String> {
    let mut rules = names(RULES);
    rules.extend(HELD.map(held));
    rules
}

fn held(register_10: u8) -> String {
    format!("whole frame with {register_10} in register 10")
}

/// The registers of a frame's interrupts, each with whether it changed since line 0 began.
struct Running {
    registers: [u8; 3],
    changed: [bool; 3],
}

/// Register 0 bit 4, register 1 bit 5 and register 10.
fn asked(machine: &Machine) -> [u8; 3] {
    let registers = &machine.state.registers;
    [registers[0] & 0x10, registers[1] & 0x20, registers[10]]
}

/// What last happened to vertical, or to what a step back gave.
#[derive(Clone, Copy, Default, PartialEq, Eq)]
enum Last {
    #[default]
    Other,
    ShownByRead,
    Acknowledged,
    LevelGivenBack,
    LinesTakenBack,
}

/// The frames of one stream, followed from call to call.
#[derive(Default)]
pub struct Frames {
    running: Option<Running>,
    last: Last,
    /// Where the tape has the record of a line that began or of an acknowledge, with the command.
    steps: Vec<(u32, Command)>,
}

impl Frames {
    /// A frame whose line is set by hand is not whole, and records by hand say nothing about calls.
    pub fn set_up(&mut self, command: &Command) {
        let state = command.op == 33 || command.op == 32 && matches!(command.a, 0 | 13..=16);
        if state {
            self.running = None;
            self.last = Last::Other;
        }
        if matches!(command.op, 34 | 35 | 39) && command.b == TAPE {
            self.steps.clear();
        }
    }

    pub fn count(&mut self, tally: &mut Tally, before: &Before, after: &Machine, number: Answer) {
        if number != DONE {
            return;
        }
        match before.command.op {
            6 => self.read(tally, before),
            10 => self.back(tally, before, after),
            13 => self.begins(tally, after),
            14 => self.last = if before.command.a == 6 { Last::Acknowledged } else { Last::Other },
            16 => {
                let offered = level(&after.state) != 0;
                let given = offered && self.last == Last::LevelGivenBack;
                tally.meet_if(given, "level read shows a level that a step back gave back");
            }
            _ => (),
        }
        self.follow(before, after);
    }

    /// Registers that change inside a frame, and the records.
    pub fn follow(&mut self, before: &Before, after: &Machine) {
        if let Some(frame) = &mut self.running {
            for (place, now) in asked(after).iter().enumerate() {
                frame.changed[place] |= frame.registers[place] != *now;
            }
        }
        if before.taped() {
            self.steps.retain(|(place, _)| *place < before.machine.count);
            if matches!(before.command.op, 13 | 14) {
                self.steps.push((before.machine.count, before.command));
            }
        }
    }

    fn read(&mut self, tally: &mut Tally, before: &Before) {
        let shown = before.machine.state.vertical;
        let again = shown && self.last == Last::ShownByRead;
        tally.meet_if(again, "status read shows vertical that another has left");
        let gone = !shown && self.last == Last::Acknowledged;
        tally.meet_if(gone, "status read after an acknowledge of 6 does not show vertical");
        self.last = if shown { Last::ShownByRead } else { Last::Other };
    }

    fn begins(&mut self, tally: &mut Tally, after: &Machine) {
        let again = self.last == Last::LinesTakenBack;
        tally.meet_if(again, "line begins again after a step back");
        self.last = Last::Other;
        match after.state.line {
            0 => self.running = Some(Running { registers: asked(after), changed: [false; 3] }),
            261 => {
                if let Some(frame) = self.running.take() {
                    whole(tally, &frame);
                }
            }
            _ => (),
        }
    }

    fn back(&mut self, tally: &mut Tally, before: &Before, after: &Machine) {
        let (steps, count) = (before.command.c, before.machine.count);
        if steps == 0 {
            return;
        }
        self.running = None;
        let taken = self.steps.iter().filter(|(place, _)| (count - steps..count).contains(place));
        let taken: Vec<Command> = taken.map(|(_, command)| *command).collect();
        let lines = taken.iter().filter(|command| command.op == 13).count();
        let level_4 = taken.iter().any(|command| (command.op, command.a) == (14, 4));
        let level_6 = taken.iter().any(|command| (command.op, command.a) == (14, 6));
        tally.meet_if(lines > 0, "step back over a line that began");
        tally.meet_if(lines >= 10, "step back over 10 or more lines that began");
        tally.meet_if(level_4, "step back over an acknowledge of 4");
        tally.meet_if(level_6, "step back over an acknowledge of 6");
        let mixed = lines > 0 && (level_4 || level_6);
        tally.meet_if(mixed, "step back over lines and acknowledges");
        if lines > 0 {
            lines_back(tally, before, after);
        }
        let given = (level_4 || level_6) && level(&after.state) != 0;
        self.last = match (given, lines > 0) {
            (true, _) => Last::LevelGivenBack,
            (_, true) => Last::LinesTakenBack,
            _ => Last::Other,
        };
    }
}

/// A frame that began with line 0 and came to line 261.
fn whole(tally: &mut Tally, frame: &Running) {
    let [register_0, register_1, register_10] = frame.changed;
    tally.meet("whole frame of lines");
    tally.meet_if(register_0, "whole frame with register 0 bit 4 changed inside");
    tally.meet_if(register_1, "whole frame with register 1 bit 5 changed inside");
    tally.meet_if(register_10, "whole frame with register 10 changed inside");
    let number = frame.registers[2];
    tally.meet_if(!register_10 && HELD.contains(&number), &held(number));
}

/// What lines that are taken back leave.
fn lines_back(tally: &mut Tally, before: &Before, after: &Machine) {
    let (then, now) = (&before.machine.state, &after.state);
    let wrapped = then.line == 0 && now.line == 261;
    tally.meet_if(wrapped, "step back from line 0 to line 261");
    let cleared = then.line == 224 && then.vertical && !now.vertical;
    tally.meet_if(cleared, "step back from line 224: vertical clear again");
    let cleared = then.horizontal && !now.horizontal;
    tally.meet_if(cleared, "step back over an expiry: horizontal clear again");
    tally.meet_if(then.counter != now.counter, "step back to another line counter");
}

#[cfg(test)]
mod tests {
    use super::*;
    use crate::cover::script::tests::run_of;
    use crate::cover::tests::{met_by, met_of};
    use crate::script::Item;

    /// Which of this file's rules these commands meet: op, a, c.
    fn met(commands: &[(u8, u8, u32)]) -> Vec<String> {
        met_of(rules(), commands)
    }

    const BEGINS: (u8, u8, u32) = (13, 0, 0);
    const RECORD: (u8, u8, u32) = (38, 1, 0);
    const LINE_223: (u8, u8, u32) = (32, 13, 223);
    const READ: (u8, u8, u32) = (6, 0, 0);

    /// 262 lines from a fresh state, with register 10 at 0, are a frame; with a line set by hand, or
    /// with one line less, they are not.
    #[test]
    fn a_whole_frame() {
        let lines = [BEGINS; 262];
        assert_eq!(met(&lines), [names(&["whole frame of lines"]), vec![held(0)]].concat());
        assert_eq!(met(&lines[1..]), names(&[]));
        let by_hand = [&lines[..100], &[(32, 13, 99)], &lines[100..]].concat();
        assert_eq!(met(&by_hand), names(&[]));
    }

    /// A script may write a register inside a frame.
    #[test]
    fn a_frame_with_a_script_inside() {
        let lines = vec![Command { op: 13, a: 0, b: 0, c: 0 }; 131];
        let script = run_of(&[Item::ControlWrite(0x8A05)]);
        let expected = ["whole frame of lines", "whole frame with register 10 changed inside"];
        assert_eq!(met_by(rules(), &[&lines[..], &script, &lines].concat()), names(&expected));
    }

    #[test]
    fn vertical_shown_twice_and_acknowledged() {
        let shown = "status read shows vertical that another has left";
        let gone = "status read after an acknowledge of 6 does not show vertical";
        let to_224 = [(32, 0, 0), LINE_223, BEGINS];
        assert_eq!(met(&[&to_224[..], &[READ]].concat()), names(&[]));
        assert_eq!(met(&[&to_224[..], &[READ, READ]].concat()), names(&[shown]));
        // Level 6 is not offered with register 1 at 0, so this acknowledge is refused.
        assert_eq!(met(&[&to_224[..], &[(14, 6, 0), READ]].concat()), names(&[]));
        // A byte of A1h to the control port is A1h to register 1, which has bit 5.
        let asked = [&to_224[..], &[(2, 0xA1, 0), (14, 6, 0), READ]].concat();
        assert_eq!(met(&asked), names(&[gone]));
    }

    /// The record of line 224 is taken back, and one that is poked says nothing.
    #[test]
    fn a_step_back_over_line_224() {
        let begun = [RECORD, LINE_223, (32, 14, 9), BEGINS];
        let expected = [
            "step back over a line that began",
            "step back from line 224: vertical clear again",
            "step back to another line counter",
        ];
        assert_eq!(met(&[&begun[..], &[(10, 0, 1)]].concat()), names(&expected));
        assert_eq!(met(&[&begun[..], &[(10, 0, 0)]].concat()), names(&[]));
    }
}
