//! Counts of the rules of the sprite flags that more than one call shows: what a status read
//! clears stays clear, what a refused one leaves stays set, and a step back gives flags back.

use super::{names, Before, Tally};
use crate::answer::{Answer, BAD_BUFFER, BAD_STATE, BUSY, DONE, TAPE_FULL};
use crate::replay::{Command, Machine, TAPE};
use crate::state::State;

const RULES: &[&str] = &[
    "status read clears a flag that a line set",
    "status read after another finds the flags clear",
    "status read shows a flag that a step back gave back",
    "line sets a flag that a status read cleared",
    "step back over a status read that cleared a flag",
];

/// The numbers that a status read may be refused with.
const REFUSALS: [Answer; 4] = [BAD_STATE, BAD_BUFFER, BUSY, TAPE_FULL];

pub fn rules() -> Vec<String> {
    let mut rules = names(RULES);
    rules.extend(REFUSALS.map(after_refusal));
    rules
}

fn after_refusal(number: Answer) -> String {
    format!("status read shows a flag after one refused with {number}")
}

/// 1 for overflow and 2 for collision, as on the tape.
fn flags(state: &State) -> u8 {
    u8::from(state.overflow) + 2 * u8::from(state.collision)
}

/// What last happened to the flags.
#[derive(Clone, Copy, Default)]
enum Last {
    #[default]
    Other,
    SetByLine,
    ClearedByRead(u8),
    LeftByRefusedRead(Answer),
    GivenBack,
}

/// The flags of one stream, followed from call to call.
#[derive(Default)]
pub struct Flags {
    last: Last,
    /// Where the tape has the record of a status read that cleared a flag.
    reads: Vec<u32>,
}

impl Flags {
    /// Flags or records that are set by hand say nothing about calls.
    pub fn set_up(&mut self, command: &Command) {
        let flag = command.op == 32 && matches!(command.a, 10 | 11);
        if flag || command.op == 33 {
            self.last = Last::Other;
        }
        if matches!(command.op, 34 | 35 | 39) && command.b == TAPE {
            self.reads.clear();
        }
    }

    /// Calls that are not followed may have changed the flags.
    pub fn forget(&mut self) {
        self.last = Last::Other;
    }

    pub fn count(&mut self, tally: &mut Tally, before: &Before, after: &Machine, number: Answer) {
        let (then, now) = (flags(&before.machine.state), flags(&after.state));
        match (before.command.op, number) {
            (6, DONE) => self.read(tally, then),
            (6, _) if then != 0 => self.last = Last::LeftByRefusedRead(number),
            (8, DONE) => self.line(tally, now & !then),
            (9, DONE) => self.last = Last::Other,
            (10, DONE) => self.back(tally, before, now),
            _ => (),
        }
        if before.taped() && number == DONE {
            self.reads.retain(|place| *place < before.machine.count);
            if before.command.op == 6 && then != 0 {
                self.reads.push(before.machine.count);
            }
        }
    }

    fn read(&mut self, tally: &mut Tally, shown: u8) {
        match self.last {
            Last::Other => (),
            Last::SetByLine => tally.meet("status read clears a flag that a line set"),
            Last::ClearedByRead(_) => tally.meet("status read after another finds the flags clear"),
            Last::LeftByRefusedRead(number) => tally.meet(&after_refusal(number)),
            Last::GivenBack => tally.meet("status read shows a flag that a step back gave back"),
        }
        if shown != 0 {
            self.last = Last::ClearedByRead(shown);
        }
    }

    fn line(&mut self, tally: &mut Tally, set: u8) {
        match self.last {
            Last::ClearedByRead(cleared) => {
                tally.meet_if(set & cleared != 0, "line sets a flag that a status read cleared");
            }
            // The line may have met the flag itself, so it no longer shows what was left.
            Last::LeftByRefusedRead(_) | Last::GivenBack => self.last = Last::Other,
            _ => (),
        }
        if set != 0 {
            self.last = Last::SetByLine;
        }
    }

    fn back(&mut self, tally: &mut Tally, before: &Before, now: u8) {
        let (steps, count) = (before.command.c, before.machine.count);
        if steps == 0 {
            return;
        }
        let taken = count - steps..count;
        let over = self.reads.iter().any(|place| taken.contains(place));
        tally.meet_if(over, "step back over a status read that cleared a flag");
        self.last = if over && now != 0 { Last::GivenBack } else { Last::Other };
    }
}

#[cfg(test)]
mod tests {
    use super::*;
    use crate::cover::tests::met_of;

    /// Which of this file's rules these commands meet: op, a, c.
    fn met(commands: &[(u8, u8, u32)]) -> Vec<String> {
        met_of(rules(), commands)
    }

    const READ: (u8, u8, u32) = (6, 0, 0);
    const RECORD: (u8, u8, u32) = (38, 1, 0);
    const SET: (u8, u8, u32) = (32, 10, 1);

    #[test]
    fn a_read_after_another_and_a_step_back_over_both() {
        let again = "status read after another finds the flags clear";
        let over = "step back over a status read that cleared a flag";
        let given = "status read shows a flag that a step back gave back";
        assert_eq!(met(&[SET, READ]), names(&[]));
        assert_eq!(met(&[SET, READ, READ]), names(&[again]));
        // A script between them may have set the flags and cleared them.
        assert_eq!(met(&[SET, READ, (17, 0, 0), READ]), names(&[]));
        assert_eq!(met(&[RECORD, SET, READ, READ, (10, 0, 1)]), names(&[again]));
        assert_eq!(met(&[RECORD, SET, READ, (10, 0, 1)]), names(&[over]));
        assert_eq!(met(&[RECORD, SET, READ, (10, 0, 1), READ]), names(&[given, over]));
    }

    /// A code of 64 makes the state bad; a flag that is set by hand afterwards shows nothing.
    #[test]
    fn a_read_after_a_refused_one() {
        let (bad, good) = ((32, 4, 64), (32, 4, 0));
        assert_eq!(met(&[SET, bad, READ, good]), names(&[]));
        assert_eq!(met(&[SET, bad, READ, good, READ]), [after_refusal(BAD_STATE)]);
        assert_eq!(met(&[SET, bad, READ, good, SET, READ]), names(&[]));
    }
}
