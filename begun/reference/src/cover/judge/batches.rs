//! Counts of lines that are added to a batch: which is the worst line then, totals that come to the
//! limit, and 15 where they would pass it.

use super::{by, Compared, ADD};
use crate::answer::{Answer, BAD_BUFFER, BAD_STATE, NOT_MODELLED, NO_SUCH_PLACE, PAST_THE_LIMIT};
use crate::cover::{at_both_widths, at_width, names, Tally};
use crate::judge::{Batch, Worst};

const RULES: &[&str] = &[
    "batch: an equal line is the first",
    "batch: a line that differs is the first",
    "batch: the line is worse than the worst",
    "batch: the line is worse than an equal one",
    "batch: the line is tied with the worst, which stays",
    "batch: two equal lines are tied, and the first stays",
    "batch: the line is better than the worst, which stays",
    "batch: lines and no worst one, an equal line is the next",
    "batch: lines and no worst one, a line that differs is the next",
    "batch: a worst line and no lines",
    "batch: the worst line's place is not below the lines, and stays",
    "batch: the worst line's place is not below the lines, and goes",
    "batch: the worst line has more pixels than a line has",
    "batch: the line has the last place that there is",
    "batch: equal lines at the limit, and the line differs",
    "batch: differing pixels at the limit, and the line is equal",
    "batch: the line is the worst, behind a refused one",
];

pub const OTHER_WIDTH: &str = "batch: behind a line of the other width";

/// The totals, in the order of their fields.
pub const TOTALS: [&str; 4] = ["lines", "equal lines", "differing pixels", "visible pixels"];

/// The numbers that a line may be refused with.
const REFUSALS: [Answer; 5] = [BAD_STATE, BAD_BUFFER, NO_SUCH_PLACE, NOT_MODELLED, PAST_THE_LIMIT];

pub fn rules() -> Vec<String> {
    let mut rules = names(RULES);
    rules.push(OTHER_WIDTH.to_string());
    for total in TOTALS {
        rules.extend(at_both_widths(&[&comes_to(total), &alone_past(total)]));
        rules.push(one_past(total));
    }
    rules.push(past_and_worst());
    rules.extend(REFUSALS.map(behind));
    rules
}

fn comes_to(total: &str) -> String {
    format!("batch: {total} come to the limit")
}

fn alone_past(total: &str) -> String {
    by(ADD, &format!("15 for {total} alone"))
}

fn one_past(total: &str) -> String {
    by(ADD, &format!("15 for {total}, one past the limit"))
}

fn past_and_worst() -> String {
    by(ADD, "15, and it would be the worst line")
}

fn behind(number: Answer) -> String {
    format!("batch: a line behind one refused with {number}")
}

pub fn totals(batch: &Batch) -> [u32; 4] {
    [batch.lines, batch.equal, batch.differing, batch.visible]
}

/// What a line adds to each.
fn adds(compared: &Compared) -> [u32; 4] {
    let (differing, visible) = (compared.differing.len(), compared.view.width());
    [1, u32::from(compared.equal()), differing as u32, visible as u32]
}

/// A line that was added.
pub fn count(tally: &mut Tally, then: &Batch, now: &Batch, compared: &Compared) {
    let differing = compared.differing.len() as u32;
    let (equal, lines) = (compared.equal(), then.lines > 0);
    let last = now.worst.is_some_and(|worst| worst.place == u32::MAX - 1);
    let facts = [
        (*then == Batch::default() && equal, "batch: an equal line is the first"),
        (*then == Batch::default() && !equal, "batch: a line that differs is the first"),
        (
            lines && then.worst.is_none() && equal,
            "batch: lines and no worst one, an equal line is the next",
        ),
        (
            lines && then.worst.is_none() && !equal,
            "batch: lines and no worst one, a line that differs is the next",
        ),
        (then.lines == u32::MAX - 1 && last, "batch: the line has the last place that there is"),
        (then.equal == u32::MAX && !equal, "batch: equal lines at the limit, and the line differs"),
        (
            then.differing == u32::MAX && equal,
            "batch: differing pixels at the limit, and the line is equal",
        ),
    ];
    for (holds, rule) in facts {
        tally.meet_if(holds, rule);
    }
    if let Some(worst) = then.worst {
        beside_worst(tally, then.lines, worst, differing);
    }
    let reached = totals(now).into_iter().zip(adds(compared)).zip(TOTALS);
    for ((total, added), name) in reached {
        let rule = at_width(&comes_to(name), compared.view.width());
        tally.meet_if(total == u32::MAX && added > 0, &rule);
    }
}

fn beside_worst(tally: &mut Tally, lines: u32, worst: Worst, differing: u32) {
    let (worse, tied) = (differing > worst.differing, differing == worst.differing);
    let no_place = worst.place >= lines;
    let facts = [
        (worse, "batch: the line is worse than the worst"),
        (worse && worst.differing == 0, "batch: the line is worse than an equal one"),
        (tied, "batch: the line is tied with the worst, which stays"),
        (tied && differing == 0, "batch: two equal lines are tied, and the first stays"),
        (!worse && !tied, "batch: the line is better than the worst, which stays"),
        (lines == 0, "batch: a worst line and no lines"),
        (no_place && !worse, "batch: the worst line's place is not below the lines, and stays"),
        (no_place && worse, "batch: the worst line's place is not below the lines, and goes"),
        (worst.differing > 320, "batch: the worst line has more pixels than a line has"),
    ];
    for (holds, rule) in facts {
        tally.meet_if(holds, rule);
    }
}

/// A line that was added behind one that was refused, if the one before was.
pub fn count_behind(tally: &mut Tally, refused: Option<Answer>, now: &Batch) {
    let Some(number) = refused else {
        return;
    };
    tally.meet(&behind(number));
    let worst = now.worst.is_some_and(|worst| worst.place == now.lines - 1);
    tally.meet_if(worst, "batch: the line is the worst, behind a refused one");
}

/// A line that would bring a total past the limit.
pub fn count_past(tally: &mut Tally, then: &Batch, compared: &Compared) {
    let sums = totals(then).into_iter().zip(adds(compared));
    let sums: Vec<u64> = sums.map(|(total, more)| u64::from(total) + u64::from(more)).collect();
    let past = |sum: &&u64| **sum > u64::from(u32::MAX);
    let alone = sums.iter().filter(past).count() == 1;
    for (sum, name) in sums.iter().zip(TOTALS).filter(|(sum, _)| past(sum)) {
        tally.meet_if(alone, &at_width(&alone_past(name), compared.view.width()));
        tally.meet_if(*sum == 1 << 32, &one_past(name));
    }
    let differing = compared.differing.len() as u32;
    let worst = then.worst.is_none_or(|worst| differing > worst.differing);
    tally.meet_if(worst, &past_and_worst());
}

#[cfg(test)]
mod tests {
    use super::*;
    use crate::bench::command;
    use crate::cover::judge::tests::{assert_met, spoil};
    use crate::replay::Command;

    const ADD_LINE: Command = Command { op: 26, a: 0, b: 0, c: 9 };

    fn set(field: u8, value: u32) -> Command {
        command(28, field, 0, value)
    }

    fn assert_rules(commands: &[Command], expected: &[&str]) {
        assert_met(rules(), "batch: ", commands, expected);
    }

    #[test]
    fn lines_from_the_first_on() {
        let first = "an equal line is the first";
        assert_rules(&[ADD_LINE], &[first]);
        let tied = ["the line is tied with the worst, which stays"];
        let equal = "two equal lines are tied, and the first stays";
        assert_rules(&[ADD_LINE, ADD_LINE], &[&tied[..], &[first, equal]].concat());
        let worse = ["the line is worse than the worst", "the line is worse than an equal one"];
        assert_rules(&[ADD_LINE, spoil(3, 0), ADD_LINE], &[&worse[..], &[first]].concat());
        let other = "a line that differs is the first";
        let better = "the line is better than the worst, which stays";
        assert_rules(&[spoil(3, 0), ADD_LINE, spoil(3, 0x25), ADD_LINE], &[other, better]);
        let next = "lines and no worst one, an equal line is the next";
        assert_rules(&[set(0, 5), ADD_LINE], &[next]);
    }

    #[test]
    fn behind_refused_ones() {
        let first = "an equal line is the first";
        let worst = "the line is the worst, behind a refused one";
        let refused = command(26, 0, 0, 224);
        let behind = "a line behind one refused with 5";
        assert_rules(&[refused, ADD_LINE], &[first, behind, worst]);
        // A line that is judged alone is none of the batch.
        assert_rules(&[command(25, 0, 0, 224), ADD_LINE], &[first]);
    }

    #[test]
    fn any_numbers() {
        let stays = ["the line is better than the worst, which stays"];
        let place = "the worst line's place is not below the lines, and stays";
        let more = "the worst line has more pixels than a line has";
        let numbers = [set(0, 5), set(4, 5), set(5, 321), set(6, 1), ADD_LINE];
        assert_rules(&numbers, &[&stays[..], &[place, more]].concat());
    }

    #[test]
    fn totals_at_the_limit() {
        let next = "lines and no worst one, an equal line is the next";
        let last = "the line has the last place that there is";
        let full = "lines come to the limit, width 320";
        assert_rules(&[set(0, u32::MAX - 1), ADD_LINE], &[next, last, full]);
        let first = ["capture added: 15 for visible pixels alone, width 320"];
        let worst = "capture added: 15, and it would be the worst line";
        assert_rules(&[set(3, u32::MAX), ADD_LINE], &[&first[..], &[worst]].concat());
        let one = "capture added: 15 for visible pixels, one past the limit";
        assert_rules(&[set(3, u32::MAX - 319), ADD_LINE], &[&first[..], &[worst, one]].concat());
        let visible = "visible pixels come to the limit, width 320";
        assert_rules(&[set(3, u32::MAX - 320), ADD_LINE], &[visible]);
    }
}
