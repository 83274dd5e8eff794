//! Counts of where a reader is when bytes, no bytes, an end notice or a start anew come, and of the
//! part of the lent script that a delivery brings.

use super::{inside_an_item, stage, Walk, STAGES};
use crate::cover::{names, Before, Tally};
use crate::replay::{Command, Machine};
use crate::script::reader::Reader;

const RULES: &[&str] = &[
    "reader: more bytes than a script of the stream holds",
    "reader: from the last byte of what is lent",
    "reader: from the end of what is lent",
    "reader: from past the end of what is lent",
    "reader: from past what is held",
    "reader: from a script of no bytes",
    "reader: fewer bytes than are left",
    "reader: just the bytes that are left",
    "reader: more bytes than are left",
    "reader: FFFFFFFFh bytes",
    "reader: one call in a delivery",
    "reader: two calls in a delivery",
    "reader: 20 or more calls in a delivery",
    "reader: a version, calls and half an item in a delivery",
    "reader: the rest of an item, calls and half an item in a delivery",
    "reader: op 21 as a command",
];

/// What comes to a reader.
const COMES: [&str; 5] =
    ["bytes", "no bytes", "an end notice", "a start anew", "a state that is made anew"];
const WITH_CONTENT: [u8; 4] = [1, 2, 5, 6];

pub fn rules() -> Vec<String> {
    let mut rules = names(RULES);
    for stage in STAGES {
        rules.extend(COMES.map(|what| comes(what, stage)));
    }
    rules.extend(STAGES[1..].iter().map(|stage| ends(stage)));
    for kind in WITH_CONTENT {
        rules.extend(STAGES[5..].iter().map(|stage| cut(kind, stage)));
    }
    rules
}

fn comes(what: &str, stage: &str) -> String {
    format!("reader: {what} {stage}")
}

fn ends(stage: &str) -> String {
    format!("reader: bytes end {stage}")
}

fn cut(kind: u8, stage: &str) -> String {
    format!("reader: kind {kind} cut {stage}")
}

fn meet_stage(tally: &mut Tally, what: &str, reader: &Reader) {
    if let Some(stage) = stage(reader) {
        tally.meet(&comes(what, stage));
    }
}

pub fn count_silent(tally: &mut Tally, machine: &Machine, command: &Command) {
    match command.op {
        19 => meet_stage(tally, COMES[3], &machine.reader),
        33 => meet_stage(tally, COMES[4], &machine.reader),
        21 => tally.meet("reader: op 21 as a command"),
        _ => (),
    }
}

pub fn count_end(tally: &mut Tally, machine: &Machine) {
    meet_stage(tally, COMES[2], &machine.reader);
}

pub fn count(tally: &mut Tally, before: &Before, walk: &Walk) {
    lent(tally, before);
    let what = if walk.bytes.is_empty() { COMES[1] } else { COMES[0] };
    meet_stage(tally, what, &walk.machine.reader);
    if walk.steps.is_empty() {
        return;
    }
    if let Some(stage) = stage(&walk.after.reader) {
        tally.meet(&ends(stage));
        if let Reader::InItems(kept) = &walk.after.reader {
            let kind = kept.get(2).filter(|_| STAGES[5..].contains(&stage));
            kind.into_iter().for_each(|kind| tally.meet(&cut(*kind, stage)));
        }
    }
    calls(tally, walk);
}

/// The part of the lent script.
fn lent(tally: &mut Tally, before: &Before) {
    let (script, command) = (&before.machine.script, &before.command);
    let (from, bytes) = (usize::from(command.b), command.c as usize);
    let left = script.length.saturating_sub(from);
    let facts = [
        (from + 1 == script.length, "from the last byte of what is lent"),
        (from == script.length && from > 0, "from the end of what is lent"),
        (from > script.length, "from past the end of what is lent"),
        (from > script.bytes.len(), "from past what is held"),
        (script.length == 0, "from a script of no bytes"),
        (bytes > 0 && bytes < left, "fewer bytes than are left"),
        (bytes > 0 && bytes == left, "just the bytes that are left"),
        (left > 0 && bytes > left, "more bytes than are left"),
        (left > 0 && command.c == u32::MAX, "FFFFFFFFh bytes"),
    ];
    for (holds, rule) in facts {
        tally.meet_if(holds, &format!("reader: {rule}"));
    }
}

fn calls(tally: &mut Tally, walk: &Walk) {
    let made = walk.steps.iter().filter(|step| step.made.is_some()).count();
    let half = made > 0 && inside_an_item(&walk.after.reader);
    let begun = walk.machine.reader == Reader::BeforeVersion;
    let rest = inside_an_item(&walk.machine.reader);
    let facts = [
        (made == 1, "one call in a delivery"),
        (made == 2, "two calls in a delivery"),
        (made >= 20, "20 or more calls in a delivery"),
        (begun && half, "a version, calls and half an item in a delivery"),
        (rest && half && made > 1, "the rest of an item, calls and half an item in a delivery"),
    ];
    for (holds, rule) in facts {
        tally.meet_if(holds, &format!("reader: {rule}"));
    }
}

#[cfg(test)]
mod tests {
    use super::*;
    use crate::bench::command;
    use crate::cover::reader::tests::{assert_met, deliver, ANEW, END, SCRIPT};

    fn assert_stages(commands: &[Command], expected: &[&str]) {
        assert_met(rules(), &SCRIPT, commands, expected);
    }

    #[test]
    fn cuts() {
        let (fewer, just) = ("fewer bytes than are left", "just the bytes that are left");
        let first = ["bytes before the version", fewer, "bytes end between items"];
        assert_stages(&[deliver(0, 1)], &first);
        let call = [&first[..2], &["one call in a delivery", "bytes end inside a length"]].concat();
        let half = "a version, calls and half an item in a delivery";
        assert_stages(&[deliver(0, 5)], &[&call[..], &[half]].concat());
        let cut = ["bytes before the version", fewer, "bytes end inside a content"];
        let rest = ["bytes inside a content", "bytes end between items", just];
        let kind = ["kind 1 cut inside a content", "one call in a delivery"];
        let last = "from the last byte of what is lent";
        let both = [&cut[..], &rest, &kind, &[half, last]].concat();
        assert_stages(&[deliver(0, 8), deliver(8, 1)], &both);
        let none = ["no bytes before the version"];
        assert_stages(&[deliver(0, 0)], &none);
    }

    #[test]
    fn ends_of_the_script() {
        let none = "no bytes before the version";
        assert_stages(&[deliver(9, 1)], &[none, "from the end of what is lent"]);
        assert_stages(&[deliver(10, 1)], &[none, "from past the end of what is lent"]);
        let far = ["from past the end of what is lent", "from past what is held"];
        assert_stages(&[deliver(16_389, u32::MAX)], &[&[none], &far[..]].concat());
        assert_met(rules(), &[], &[deliver(0, 1)], &[none, "from a script of no bytes"]);
        let all =
            ["bytes before the version", "bytes end between items", "two calls in a delivery"];
        let more = ["more bytes than are left", "FFFFFFFFh bytes"];
        assert_stages(&[deliver(0, 10)], &[&all[..], &more[..1]].concat());
        assert_stages(&[deliver(0, u32::MAX)], &[&all[..], &more].concat());
    }

    #[test]
    fn told() {
        assert_stages(&[END, END, ANEW], &["an end notice before the version"]);
        assert_stages(&[ANEW], &["a start anew before the version"]);
        let fresh = command(33, 0, 0, 0);
        assert_stages(&[fresh], &["a state that is made anew before the version"]);
        assert_stages(&[command(21, 0, 0, 9)], &["op 21 as a command"]);
    }
}
