//! Counts of a batch that is joined with itself: which of its numbers are doubled, how far the place
//! of its worst line is moved, and 15 where one would pass the limit.

use super::batches::{totals, TOTALS};
use crate::answer::{Answer, DONE};
use crate::cover::{names, Tally};
use crate::replay::Machine;

const RULES: &[&str] = &[
    "join: empty batches",
    "join: batches with a worst line",
    "join: batches with lines and no worst one",
    "join: batches of captures",
    "join: the worst line's place is not below the lines",
    "join: the place comes to the limit",
    "join: no worst line, and the place that is kept for one would pass the limit",
    "join: 15 for the place alone",
    "join: 15 for the place, one past the limit",
    "join: 15 for more than one number",
    "join: while recorded is set",
];

/// The most that a total can have to be doubled.
const MOST: u32 = (1 << 31) - 1;

pub fn rules() -> Vec<String> {
    let mut rules = names(RULES);
    for total in TOTALS {
        rules.extend([most(total), alone_past(total), one_past(total)]);
    }
    rules
}

fn most(total: &str) -> String {
    format!("join: the most {total} that can be doubled")
}

fn alone_past(total: &str) -> String {
    format!("join: 15 for {total} alone")
}

fn one_past(total: &str) -> String {
    format!("join: 15 for {total}, one past the limit")
}

/// Where the second's worst line comes to, if there is one.
fn moved(machine: &Machine) -> Option<u64> {
    let batch = &machine.batch.batch;
    batch.worst.map(|worst| u64::from(batch.lines) + u64::from(worst.place))
}

pub fn count(tally: &mut Tally, machine: &Machine, number: Answer) {
    tally.meet_if(machine.recorded, "join: while recorded is set");
    if number == DONE {
        done(tally, machine);
    } else {
        past(tally, machine);
    }
}

fn done(tally: &mut Tally, machine: &Machine) {
    let batch = &machine.batch.batch;
    let (lines, worst) = (batch.lines > 0, batch.worst);
    let kept = u64::from(batch.lines) + u64::from(machine.batch.kept.place);
    let small = lines && batch.visible > 0 && batch.visible / 256 >= batch.lines;
    let facts = [
        (*batch == Default::default(), "join: empty batches"),
        (worst.is_some(), "join: batches with a worst line"),
        (lines && worst.is_none(), "join: batches with lines and no worst one"),
        (
            small && worst.is_some_and(|worst| worst.place < batch.lines),
            "join: batches of captures",
        ),
        (
            worst.is_some_and(|worst| worst.place >= batch.lines),
            "join: the worst line's place is not below the lines",
        ),
        (moved(machine) == Some(u64::from(u32::MAX)), "join: the place comes to the limit"),
        (
            worst.is_none() && kept > u64::from(u32::MAX),
            "join: no worst line, and the place that is kept for one would pass the limit",
        ),
    ];
    for (holds, rule) in facts {
        tally.meet_if(holds, rule);
    }
    for (total, name) in totals(batch).into_iter().zip(TOTALS) {
        tally.meet_if(total == MOST, &most(name));
    }
}

fn past(tally: &mut Tally, machine: &Machine) {
    let batch = &machine.batch.batch;
    let doubled = totals(batch).map(|total| total > MOST);
    let place = moved(machine).is_some_and(|place| place > u64::from(u32::MAX));
    let numbers = doubled.iter().chain([&place]).filter(|past| **past).count();
    let one = moved(machine) == Some(1 << 32);
    let facts = [
        (place && numbers == 1, "join: 15 for the place alone"),
        (one, "join: 15 for the place, one past the limit"),
        (numbers > 1, "join: 15 for more than one number"),
    ];
    for (holds, rule) in facts {
        tally.meet_if(holds, rule);
    }
    for (total, name) in totals(batch).into_iter().zip(TOTALS).filter(|(total, _)| *total > MOST) {
        tally.meet_if(numbers == 1, &alone_past(name));
        tally.meet_if(total == MOST + 1, &one_past(name));
    }
}

#[cfg(test)]
mod tests {
    use super::*;
    use crate::bench::command;
    use crate::cover::judge::tests::assert_met;
    use crate::replay::Command;

    /// A join with these fields set before it.
    fn assert_joined(fields: &[(u8, u32)], expected: &[&str]) {
        let set = |(field, value): &(u8, u32)| command(28, *field, 0, *value);
        let mut commands: Vec<Command> = fields.iter().map(set).collect();
        commands.push(command(27, 0, 0, 0));
        assert_met(rules(), "join: ", &commands, expected);
    }

    #[test]
    fn done_and_past() {
        assert_joined(&[], &["empty batches"]);
        assert_joined(&[(0, 3)], &["batches with lines and no worst one"]);
        let worst = "batches with a worst line";
        let captures = [(0, 3), (3, 960), (6, 1)];
        assert_joined(&captures, &[worst, "batches of captures"]);
        let most = "the most equal lines that can be doubled";
        assert_joined(&[(1, MOST)], &[most]);
        let past = ["15 for equal lines alone", "15 for equal lines, one past the limit"];
        assert_joined(&[(1, MOST + 1)], &past);
        let two = ["15 for more than one number", past[1]];
        assert_joined(&[(1, MOST + 1), (2, u32::MAX)], &two);
    }

    #[test]
    fn places() {
        let worst = ["batches with a worst line", "the worst line's place is not below the lines"];
        let limit = [&worst[..], &["the place comes to the limit"]].concat();
        assert_joined(&[(0, 3), (4, u32::MAX - 3), (6, 1)], &limit);
        let past = ["15 for the place alone", "15 for the place, one past the limit"];
        assert_joined(&[(0, 3), (4, u32::MAX - 2), (6, 1)], &past);
        let none = "no worst line, and the place that is kept for one would pass the limit";
        let lines = "batches with lines and no worst one";
        assert_joined(&[(0, 3), (4, u32::MAX - 2)], &[none, lines]);
    }
}
