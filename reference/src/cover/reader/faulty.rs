//! Counts of the bytes that no script has where they come to a reader, with what stands before and
//! behind them, and with a bad state or a bad buffer, which they do not ask for.

use super::{Walk, STAGES};
use crate::answer::BAD_SCRIPT;
use crate::calls::{memories_good, vram_good, PIXELS};
use crate::cover::script::{changed, CHANGED};
use crate::cover::{names, Tally};
use crate::replay::Machine;

const RULES: &[&str] =
    &["reader: 11 while recorded is set", "reader: 11 behind a version in a delivery"];

/// Bytes that are faulty in each stage that has some.
const FAULTY: [(&str, &[u8]); 5] = [
    (STAGES[0], &[0, 2, 255]),
    (STAGES[1], &[1, 2, 3, 255]),
    (STAGES[2], &[0, 2, 4, 5, 255]),
    (STAGES[3], &[0, 1, 2, 5, 6, 8, 255]),
    (STAGES[4], &[0, 3, 4, 7, 8, 255]),
];

/// How a faulty byte comes.
const COMES: [&str; 7] = [
    "first in a delivery",
    "later in a delivery",
    "with bytes behind it",
    "last in a delivery",
    "with a bad state",
    "with a bad buffer",
    "while the chip is busy",
];

pub fn rules() -> Vec<String> {
    let mut rules = names(RULES);
    for (stage, bytes) in FAULTY {
        rules.extend(bytes.iter().map(|byte| for_byte(*byte, stage)));
        rules.extend(COMES.map(|how| comes(stage, how)));
    }
    // Where a version is awaited, no byte came before.
    rules.retain(|rule| *rule != comes(STAGES[0], COMES[1]));
    rules.extend(CHANGED.map(stands));
    rules
}

fn for_byte(byte: u8, stage: &str) -> String {
    format!("reader: 11 for {byte} {stage}")
}

fn comes(stage: &str, how: &str) -> String {
    format!("reader: 11 {stage}, {how}")
}

fn stands(what: &str) -> String {
    format!("reader: 11, and what calls of the same delivery did to {what} stands")
}

/// Has each buffer that some call of a script asks for a right length?
pub fn buffers_good(machine: &Machine) -> bool {
    vram_good(machine.vram.lent())
        && machine.pixels.length == PIXELS
        && memories_good(machine.memories())
}

pub fn count(tally: &mut Tally, walk: &Walk) {
    let Some((step, BAD_SCRIPT, behind)) = walk.stop() else {
        return;
    };
    let listed =
        FAULTY.iter().any(|(stage, bytes)| *stage == step.stage && bytes.contains(&step.byte));
    tally.meet_if(listed, &for_byte(step.byte, step.stage));
    let first = walk.steps.len() == 1;
    let facts = [
        first,
        !first,
        behind > 0,
        behind == 0,
        !step.state.good(),
        !buffers_good(walk.machine),
        step.state.good() && step.state.running(),
    ];
    for (how, holds) in COMES.iter().zip(facts) {
        tally.meet_if(holds, &comes(step.stage, how));
    }
    tally.meet_if(walk.machine.recorded, "reader: 11 while recorded is set");
    let version = walk.steps.iter().rev().skip(1).any(|step| step.stage == STAGES[0]);
    tally.meet_if(version, "reader: 11 behind a version in a delivery");
    for what in changed(walk.machine, walk.after) {
        tally.meet(&stands(what));
    }
}

#[cfg(test)]
mod tests {
    use super::*;
    use crate::bench::command;
    use crate::cover::reader::tests::{assert_met, deliver, SPOIL_STATE};

    #[test]
    fn alone() {
        let all = [deliver(0, 9)];
        let version = ["11 for 0 before the version", "11 before the version, first in a delivery"];
        let last = [&version[..], &["11 before the version, last in a delivery"]].concat();
        assert_met(rules(), &[0], &all, &last);
        let behind = [&version[..], &["11 before the version, with bytes behind it"]].concat();
        assert_met(rules(), &[0, 1], &all, &behind);
        assert_met(rules(), &[1, 0, 3, 1], &all, &[]);
    }

    #[test]
    fn behind_others() {
        let kind =
            ["11 for 5 behind a length of 1", "11 behind a length of 1, later in a delivery"];
        let last = "11 behind a length of 1, last in a delivery";
        let version = "11 behind a version in a delivery";
        let met = [&kind[..], &[last, version]].concat();
        assert_met(rules(), &[1, 0, 1, 5], &[deliver(0, 9)], &met);
        let bad = ["11 behind a length of 1, with a bad state", version];
        let met = [&kind[..], &bad, &[last]].concat();
        assert_met(rules(), &[1, 0, 1, 5], &[SPOIL_STATE, deliver(0, 9)], &met);
        let stage = "11 behind a length of 1";
        let first =
            [kind[0].to_string(), format!("{stage}, first in a delivery"), last.to_string()];
        let buffer = format!("{stage}, with a bad buffer");
        let met: Vec<_> = first.iter().chain([&buffer]).map(String::as_str).collect();
        let short = command(36, 0, 0, 9);
        assert_met(rules(), &[1, 0, 1, 5], &[short, deliver(0, 3), deliver(3, 1)], &met);
    }

    /// The call of the first item writes register 15.
    #[test]
    fn what_stands() {
        let script = [1, 0, 3, 1, 0x8F, 2, 1];
        let state = "11, and what calls of the same delivery did to the state stands";
        let byte = ["11 for 1 between items", "11 between items, later in a delivery"];
        let more = ["11 between items, last in a delivery", "11 behind a version in a delivery"];
        let met = [&byte[..], &more, &[state]].concat();
        assert_met(rules(), &script, &[deliver(0, 7)], &met);
    }
}
