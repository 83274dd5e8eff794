//! Counts of items that are written into a script, with room and without, and of what is set in
//! its buffer by hand (definition, Writing).

use crate::answer::{Answer, DONE};
use crate::cover::{names, Before, Tally};
use crate::replay::{Command, Machine, SCRIPT};
use crate::script::{read_item, Item, ITEMS_FROM};

const RULES: &[&str] = &[
    "item at the end of what is lent",
    "item at the byte after the end of what is lent",
    "item far out",
    "item at a byte whose end passes 32 bits",
    "item where nothing is lent",
    "item with room among the bytes held, but not among those lent",
    "item over the version",
    "item over another of its size",
    "item over another of another size",
    "item begun inside another",
    "item without a content, and b is not 0",
    "item of no kind, without room",
    "length of the script set",
    "length of the script set to more than is held",
];

const NO_KINDS: [u8; 3] = [0, 8, 255];
const SIZES: [usize; 2] = [3, 5];
/// The ops that set bytes of a buffer by hand.
const BY_HAND: [u8; 3] = [34, 35, 39];

pub fn rules() -> Vec<String> {
    let mut rules = names(RULES);
    rules.extend((1..=7).map(written));
    rules.extend((1..=7).map(without_room));
    rules.extend(NO_KINDS.map(of_no_kind));
    rules.extend(SIZES.map(just_enough));
    rules.extend(SIZES.map(one_short));
    rules.extend(BY_HAND.map(by_hand));
    rules
}

fn written(kind: u8) -> String {
    format!("item of kind {kind} written")
}

fn without_room(kind: u8) -> String {
    format!("item of kind {kind} without room")
}

fn of_no_kind(kind: u8) -> String {
    format!("item of no kind, {kind}")
}

fn just_enough(size: usize) -> String {
    format!("item of {size} bytes with just enough room")
}

fn one_short(size: usize) -> String {
    format!("item of {size} bytes with one byte less than enough")
}

fn by_hand(op: u8) -> String {
    format!("script set by op {op}")
}

/// Op 18 of a kind that there is.
pub fn count(tally: &mut Tally, before: &Before, number: Answer) {
    let Some(item) = before.command.item() else {
        return;
    };
    let any = item.content().is_none() && before.command.b != 0;
    tally.meet_if(any, "item without a content, and b is not 0");
    if number == DONE {
        done(tally, before, item);
    } else {
        refused(tally, before, item);
    }
}

fn done(tally: &mut Tally, before: &Before, item: Item) {
    let (at, size) = (before.command.c as usize, item.bytes().len());
    tally.meet(&written(item.kind()));
    tally.meet_if(at + size == before.machine.script.length, &just_enough(size));
    tally.meet_if(at == 0, "item over the version");
    if let Some((from, to)) = item_around(before.machine.script.lent(), at) {
        let (first, same) = (from == at, to - from == size);
        tally.meet_if(first && same, "item over another of its size");
        tally.meet_if(first && !same, "item over another of another size");
        tally.meet_if(!first, "item begun inside another");
    }
}

/// The item that a byte is in, if those up to it are not faulty: its first byte and that after it.
fn item_around(script: &[u8], byte: usize) -> Option<(usize, usize)> {
    let mut at = ITEMS_FROM;
    while at <= byte {
        let (_, next) = read_item(script, at)?;
        if byte < next {
            return Some((at, next));
        }
        at = next;
    }
    None
}

fn refused(tally: &mut Tally, before: &Before, item: Item) {
    let script = &before.machine.script;
    let (at, size) = (before.command.c as usize, item.bytes().len());
    let end = at + size;
    tally.meet(&without_room(item.kind()));
    tally.meet_if(end == script.length + 1, &one_short(size));
    let facts = [
        (at == script.length, "item at the end of what is lent"),
        (at == script.length + 1, "item at the byte after the end of what is lent"),
        (at > 65_535, "item far out"),
        (end > u32::MAX as usize, "item at a byte whose end passes 32 bits"),
        (script.length == 0, "item where nothing is lent"),
        (
            end <= script.bytes.len(),
            "item with room among the bytes held, but not among those lent",
        ),
    ];
    for (holds, rule) in facts {
        tally.meet_if(holds, rule);
    }
}

/// A command that prints nothing: op 18 of no kind, or what is set in the buffer.
pub fn count_silent(tally: &mut Tally, machine: &Machine, command: &Command) {
    match command.op {
        18 => {
            tally.meet_if(NO_KINDS.contains(&command.a), &of_no_kind(command.a));
            let full = command.c as usize >= machine.script.length;
            tally.meet_if(full, "item of no kind, without room");
        }
        34 | 35 | 39 if command.b == SCRIPT => tally.meet(&by_hand(command.op)),
        36 if command.b == SCRIPT => {
            let more = command.c as usize > machine.script.bytes.len();
            tally.meet("length of the script set");
            tally.meet_if(more, "length of the script set to more than is held");
        }
        _ => (),
    }
}

#[cfg(test)]
mod tests {
    use super::*;
    use crate::bench::{command, lend_script};
    use crate::cover::script::tests::assert_met_of;
    use crate::script::script_of;

    /// Op 18 with these meets just these rules, in a script of a register write and a status read.
    fn assert_met(kind: u8, content: u16, at: u32, expected: &[&str]) {
        let script = script_of(&[Item::ControlWrite(0x8F02), Item::StatusRead]);
        let commands = [lend_script(&script), vec![command(18, kind, content, at)]].concat();
        let by_lending = [by_hand(34), "length of the script set".to_string()];
        let mut rules = rules();
        rules.retain(|rule| !by_lending.contains(rule));
        assert_met_of(rules, &commands, expected);
    }

    #[test]
    fn with_room() {
        assert_met(1, 0, 1, &["item of kind 1 written", "item over another of its size"]);
        assert_met(4, 0, 1, &["item of kind 4 written", "item over another of another size"]);
        let enough = "item of 5 bytes with just enough room";
        assert_met(2, 0, 4, &["item of kind 2 written", "item begun inside another", enough]);
        assert_met(5, 0, 0, &["item of kind 5 written", "item over the version"]);
        let enough = "item of 3 bytes with just enough room";
        let (over, any) =
            ("item over another of its size", "item without a content, and b is not 0");
        assert_met(7, 9, 6, &["item of kind 7 written", over, enough, any]);
    }

    /// Nine bytes are lent, and all that are held are more.
    #[test]
    fn without() {
        let held = "item with room among the bytes held, but not among those lent";
        let short = "item of 5 bytes with one byte less than enough";
        assert_met(6, 0, 5, &["item of kind 6 without room", short, held]);
        let short = "item of 3 bytes with one byte less than enough";
        assert_met(3, 0, 7, &["item of kind 3 without room", short, held]);
        let end = "item at the end of what is lent";
        assert_met(1, 0, 9, &["item of kind 1 without room", end, held]);
        let past = "item at the byte after the end of what is lent";
        assert_met(1, 0, 10, &["item of kind 1 without room", past, held]);
        assert_met(1, 0, 65_536, &["item of kind 1 without room", "item far out"]);
        let passes = "item at a byte whose end passes 32 bits";
        assert_met(4, 0, u32::MAX, &["item of kind 4 without room", "item far out", passes]);
    }

    #[test]
    fn of_none_of_the_kinds() {
        assert_met(0, 0, 1, &["item of no kind, 0"]);
        assert_met(8, 0, 9, &["item of no kind, 8", "item of no kind, without room"]);
        assert_met(9, 0, 1, &[]);
    }
}
