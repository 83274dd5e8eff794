//! Counts of captured lines: what judging them finds and where it is refused, batches that grow and
//! are joined, and the commands around them (definition, Captured lines). A capture is compared here
//! once more, with the line as it is drawn.

mod batches;
mod commands;
mod joins;
mod refused;
mod verdicts;

use super::{Before, Tally};
use crate::answer::{Answer, DONE, PAST_THE_LIMIT};
use crate::draw::{self, Picture};
use crate::planes::View;
use crate::replay::{Command, Machine};
use commands::Commands;

pub fn rules() -> Vec<String> {
    let of_lines = [verdicts::rules(), refused::rules()];
    let of_batches = [batches::rules(), joins::rules(), commands::rules()];
    [of_lines.concat(), of_batches.concat()].concat()
}

const JUDGE: u8 = 25;
const ADD: u8 = 26;
const JOIN: u8 = 27;

/// A rule of a line that is judged by itself or as one of a batch.
fn by(op: u8, rule: &str) -> String {
    let how = if op == ADD { "added" } else { "judged" };
    format!("capture {how}: {rule}")
}

/// Turns a list of names into rules for both ways.
fn both_ways(list: &[String]) -> Vec<String> {
    [JUDGE, ADD].iter().flat_map(|op| list.iter().map(|rule| by(*op, rule))).collect()
}

/// A capture that is not refused, its line, and the visible columns where the two differ.
struct Compared<'a> {
    view: View<'a>,
    capture: &'a [u8],
    picture: Picture,
    differing: Vec<usize>,
}

impl Compared<'_> {
    fn of(before: &Before) -> Option<Compared<'_>> {
        let view = before.view()?;
        let capture = before.machine.capture.lent();
        let picture = draw::picture(view.state, view.vram, before.command.c);
        let differing = differing(&picture, capture);
        Some(Compared { view, capture, picture, differing })
    }

    fn equal(&self) -> bool {
        self.differing.is_empty()
    }
}

fn differing(picture: &Picture, capture: &[u8]) -> Vec<usize> {
    let columns = 0..picture.pixels.len();
    columns.filter(|column| capture.get(*column) != picture.pixels.get(*column)).collect()
}

/// What is followed from command to command in a stream.
#[derive(Default)]
pub struct Judging {
    commands: Commands,
    /// The number that the last line was refused with, if none was added since.
    refused: Option<Answer>,
    /// The width of the line that was added last.
    width: Option<usize>,
}

impl Judging {
    /// A command that prints nothing.
    pub fn silent(&mut self, tally: &mut Tally, machine: &Machine, command: &Command) {
        self.commands.silent(tally, machine, command);
    }

    /// The batch or the digests are told.
    pub fn told(&mut self, tally: &mut Tally, machine: &Machine, command: &Command) {
        self.commands.told(tally, machine, command);
    }

    /// A call, of a captured line or not.
    pub fn count(&mut self, tally: &mut Tally, before: &Before, after: &Machine, number: Answer) {
        match (before.command.op, number) {
            (JUDGE | ADD, DONE) => self.line(tally, before, after),
            (JUDGE | ADD, _) => self.refused(tally, before, number),
            (JOIN, _) => joins::count(tally, &before.machine, number),
            _ => (),
        }
        self.commands.call(tally, before, number);
    }

    fn line(&mut self, tally: &mut Tally, before: &Before, after: &Machine) {
        let Some(compared) = Compared::of(before) else {
            return;
        };
        verdicts::count(tally, before, &compared);
        if before.command.op == ADD {
            batches::count(tally, &before.machine.batch.batch, &after.batch.batch, &compared);
            batches::count_behind(tally, self.refused.take(), &after.batch.batch);
            let width = self.width.replace(compared.view.width());
            let other = width.is_some_and(|width| width != compared.view.width());
            tally.meet_if(other, batches::OTHER_WIDTH);
        }
    }

    fn refused(&mut self, tally: &mut Tally, before: &Before, number: Answer) {
        refused::count(tally, before, number);
        if before.command.op == ADD {
            self.refused = Some(number);
        }
        if let (PAST_THE_LIMIT, Some(compared)) = (number, Compared::of(before)) {
            batches::count_past(tally, &before.machine.batch.batch, &compared);
        }
    }
}

#[cfg(test)]
mod tests {
    use crate::bench::command;
    use crate::cover::tests::met_by;
    use crate::replay::{Command, CAPTURE};

    /// Commands for lines of the backdrop 25h, at 320, and a capture of that byte.
    pub fn plain() -> Vec<Command> {
        let words = [0x8004, 0x8144, 0x8540, 0x8C81, 0x8725];
        let mut commands = words.map(|word| command(1, 0, word, 0)).to_vec();
        commands.push(command(39, 0x25, CAPTURE, 0));
        commands
    }

    pub fn spoil(column: u32, byte: u8) -> Command {
        command(34, byte, CAPTURE, column)
    }

    /// Of the rules of one file, these commands meet just these behind the plain ones. What the rules
    /// begin with is left out.
    pub fn assert_met(rules: Vec<String>, begin: &str, commands: &[Command], expected: &[&str]) {
        let met = met_by(rules, &[&plain(), commands].concat());
        let mut met: Vec<_> = met.iter().map(|rule| rule.trim_start_matches(begin)).collect();
        let mut expected = expected.to_vec();
        met.sort();
        expected.sort();
        assert_eq!(met, expected, "{commands:?}");
    }
}
