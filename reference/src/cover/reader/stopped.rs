//! Counts of what stops a reader, of what comes to it then, and of its use once it is started anew.

use super::Walk;
use crate::answer::{
    Answer, BAD_BUFFER, BAD_SCRIPT, BAD_STATE, BUSY, DONE, MISSING_REGISTER, NOT_MODELLED,
    NO_SUCH_PLACE, SOURCE_NOT_LENT,
};
use crate::cover::{names, Tally};
use crate::replay::{Command, Machine};
use crate::script::reader::Reader;

const RULES: &[&str] = &[
    "reader: stopped, then bytes after the state was made anew",
    "reader: stopped, then another call",
    "reader: stopped, then bytes that begin a script",
];

/// What stops a reader.
#[derive(Clone, Copy, PartialEq, Eq)]
enum Cause {
    Refused(Answer),
    FaultyByte,
    MissingRegister,
    EndNotice(Answer),
}

const CAUSES: [Cause; 10] = [
    Cause::Refused(BAD_STATE),
    Cause::Refused(BAD_BUFFER),
    Cause::Refused(BUSY),
    Cause::Refused(NOT_MODELLED),
    Cause::Refused(NO_SUCH_PLACE),
    Cause::Refused(SOURCE_NOT_LENT),
    Cause::FaultyByte,
    Cause::MissingRegister,
    Cause::EndNotice(DONE),
    Cause::EndNotice(BAD_SCRIPT),
];

/// What comes to it then.
const THEN: [&str; 5] =
    ["bytes", "no bytes", "an end notice", "a start anew", "a start anew and a call"];

pub fn rules() -> Vec<String> {
    let mut rules = names(RULES);
    for cause in CAUSES {
        rules.extend(THEN.map(|what| then(cause, what)));
    }
    rules
}

fn then(cause: Cause, what: &str) -> String {
    let cause = match cause {
        Cause::Refused(number) => format!("a call refused with {number}"),
        Cause::FaultyByte => "a faulty byte".to_string(),
        Cause::MissingRegister => "a missing register".to_string(),
        Cause::EndNotice(number) => format!("an end notice that answers {number}"),
    };
    format!("reader: stopped by {cause}, then {what}")
}

/// Why the reader of a stream is stopped, followed from command to command.
#[derive(Default)]
pub struct Stopped {
    cause: Option<Cause>,
    /// The cause of the stop before it was started anew.
    earlier: Option<Cause>,
    /// The state was made anew since it stopped.
    new_state: bool,
}

impl Stopped {
    fn stop(&mut self, cause: Cause) {
        *self = Stopped { cause: Some(cause), ..Stopped::default() };
    }

    fn meet(&self, tally: &mut Tally, what: &str) {
        if let Some(cause) = self.cause {
            tally.meet(&then(cause, what));
        }
    }

    pub fn silent(&mut self, tally: &mut Tally, command: &Command) {
        match command.op {
            19 => {
                self.meet(tally, THEN[3]);
                let earlier = self.cause.or(self.earlier);
                *self = Stopped { earlier, ..Stopped::default() };
            }
            33 => self.new_state = true,
            _ => (),
        }
    }

    /// A call that is not the reader's.
    pub fn other(&self, tally: &mut Tally) {
        tally.meet_if(self.cause.is_some(), "reader: stopped, then another call");
    }

    pub fn count(&mut self, tally: &mut Tally, walk: &Walk) {
        if self.cause.is_some() {
            self.meet(tally, if walk.bytes.is_empty() { THEN[1] } else { THEN[0] });
            let fresh = self.new_state && !walk.bytes.is_empty();
            tally.meet_if(fresh, "reader: stopped, then bytes after the state was made anew");
            let begins = walk.bytes.starts_with(&[1, 0]);
            tally.meet_if(begins, "reader: stopped, then bytes that begin a script");
            return;
        }
        let called = walk.steps.iter().any(|step| step.made.is_some());
        if let Some(cause) = self.earlier.filter(|_| called) {
            tally.meet(&then(cause, THEN[4]));
            self.earlier = None;
        }
        if let Some((_, number, _)) = walk.stop() {
            self.stop(match number {
                BAD_SCRIPT => Cause::FaultyByte,
                MISSING_REGISTER => Cause::MissingRegister,
                _ => Cause::Refused(number),
            });
        }
    }

    pub fn end_notice(&mut self, tally: &mut Tally, machine: &Machine, number: Answer) {
        match machine.reader {
            Reader::Stopped(_) => self.meet(tally, THEN[2]),
            _ => self.stop(Cause::EndNotice(number)),
        }
    }
}

#[cfg(test)]
mod tests {
    use super::*;
    use crate::bench::command;
    use crate::cover::reader::tests::{assert_met, deliver, ANEW, END, SCRIPT, SPOIL_STATE};

    /// What comes to a reader that the first of these commands has stopped.
    fn assert_then(stop: &[Command], cause: &str, more: &[Command], expected: &[&str]) {
        let expected: Vec<_> = expected.iter().map(|what| format!("{cause}{what}")).collect();
        let expected: Vec<_> = expected.iter().map(String::as_str).collect();
        assert_met(rules(), &SCRIPT, &[stop, more].concat(), &expected);
    }

    #[test]
    fn each_cause() {
        let then = [", then bytes", ", then no bytes", ", then an end notice"];
        let told = [deliver(5, 1), deliver(0, 0), END];
        let causes: [(&[Command], &str); 4] = [
            (&[SPOIL_STATE, deliver(0, 4)], "stopped by a call refused with 1"),
            (&[deliver(3, 1)], "stopped by a faulty byte"),
            (&[END], "stopped by an end notice that answers 11"),
            (&[deliver(0, 1), END], "stopped by an end notice that answers 0"),
        ];
        for (stop, cause) in causes {
            assert_then(stop, cause, &told, &then);
            assert_then(stop, cause, &[ANEW], &[", then a start anew"]);
            let again = [", then a start anew", ", then a start anew and a call"];
            assert_then(stop, cause, &[ANEW, deliver(0, 4)], &again);
        }
    }

    #[test]
    fn a_new_state_starts_no_reader() {
        let bytes = "stopped by an end notice that answers 11, then bytes";
        let fresh = "stopped, then bytes after the state was made anew";
        let script = "stopped, then bytes that begin a script";
        let commands = [END, command(33, 0, 0, 0), deliver(0, 2)];
        assert_met(rules(), &SCRIPT, &commands, &[bytes, fresh, script]);
        let status = [END, command(6, 0, 0, 0)];
        assert_met(rules(), &SCRIPT, &status, &["stopped, then another call"]);
    }
}
