//! Counts of the ways in which a script is not well formed (definition, The form), with a bad state
//! or a bad buffer beside it, which are not asked for then.

use super::place_name;
use crate::calls::vram_good;
use crate::cover::{names, Before, Tally};
use crate::script::{content_size, form, read_item, Item, ITEMS_FROM, VERSION};

const RULES: &[&str] = &[
    "script: empty",
    "script: empty, with a bad state",
    "script: wrong version alone",
    "script: wrong version, with a bad state",
    "script: wrong version, else well formed with items",
    "script: faulty after 20 or more items",
    "script: faulty, with more bytes after the item",
    "script: faulty, with VRAM of a wrong length",
    "script: faulty, with more than 16,384 bytes",
    "script: faulty while recorded is set",
    "script: zeros for an item after others",
];

const VERSIONS: [u8; 3] = [0, 2, 255];
const KINDS: [u8; 3] = [0, 8, 255];
/// Wrong lengths of items with a content of two bytes and of items without one. The last two of
/// each are the right bytes the other way round, and the right lower byte alone.
const LENGTHS: [(usize, [u16; 6]); 2] =
    [(2, [0, 1, 2, 4, 0x0300, 0x0103]), (0, [0, 2, 3, 4, 0x0100, 0x0101])];
/// Items with a content can be cut after so many bytes.
const CUTS: [usize; 4] = [1, 2, 3, 4];
const WITH_CONTENT: [u8; 4] = [1, 2, 5, 6];

pub fn rules() -> Vec<String> {
    let mut rules = names(RULES);
    rules.extend(VERSIONS.map(version));
    for place in [0, 1] {
        rules.extend(KINDS.map(|kind| wrong_kind(kind, place)));
        for (size, lengths) in LENGTHS {
            rules.extend(lengths.map(|length| wrong_length(size, length, place)));
        }
        rules.extend(CUTS.map(|bytes| cut(bytes, place)));
        rules.push(with_bad_state(place));
    }
    rules.extend((1..=7).map(wrong_length_of));
    for kind in WITH_CONTENT {
        rules.extend([3, 4].map(|bytes| cut_of(kind, bytes)));
    }
    rules
}

fn version(number: u8) -> String {
    format!("script: version {number}")
}

fn wrong_kind(kind: u8, place: usize) -> String {
    format!("script: kind {kind} {}", place_name(place))
}

fn wrong_length(content: usize, length: u16, place: usize) -> String {
    format!("script: length {length:04X}h with a content of {content} bytes {}", place_name(place))
}

fn wrong_length_of(kind: u8) -> String {
    format!("script: wrong length of kind {kind}")
}

fn cut(bytes: usize, place: usize) -> String {
    format!("script: item cut after {bytes} bytes {}", place_name(place))
}

fn cut_of(kind: u8, bytes: usize) -> String {
    format!("script: item of kind {kind} cut after {bytes} bytes")
}

fn with_bad_state(place: usize) -> String {
    format!("script: faulty item {} with a bad state", place_name(place))
}

/// A script that is not well formed.
pub fn count(tally: &mut Tally, before: &Before) {
    let (machine, script) = (&before.machine, before.machine.script.lent());
    let bad_state = !machine.state.good();
    let wrong = !vram_good(machine.vram.lent());
    tally.meet_if(wrong, "script: faulty, with VRAM of a wrong length");
    tally.meet_if(machine.recorded, "script: faulty while recorded is set");
    tally.meet_if(script.len() > 16_384, "script: faulty, with more than 16,384 bytes");
    match script {
        [] => {
            tally.meet("script: empty");
            tally.meet_if(bad_state, "script: empty, with a bad state");
        }
        [VERSION, ..] => {
            let (items, at) = whole_items(script);
            let (place, item) = (items.len(), script.get(at..).unwrap_or(&[]));
            tally.meet_if(bad_state, &with_bad_state(place));
            tally.meet_if(place >= 20, "script: faulty after 20 or more items");
            tally.meet_if(item.len() > 5, "script: faulty, with more bytes after the item");
            let zeros = place > 0 && item.starts_with(&[0, 0, 0]);
            tally.meet_if(zeros, "script: zeros for an item after others");
            faulty(tally, item, place);
        }
        [number, items @ ..] => {
            tally.meet_if(VERSIONS.contains(number), &version(*number));
            tally.meet_if(items.is_empty(), "script: wrong version alone");
            tally.meet_if(bad_state, "script: wrong version, with a bad state");
            let else_well = form::items(&[&[VERSION], items].concat()).is_ok();
            let rule = "script: wrong version, else well formed with items";
            tally.meet_if(else_well && !items.is_empty(), rule);
        }
    }
}

/// The items before the first faulty one, and the byte that it begins at.
pub fn whole_items(script: &[u8]) -> (Vec<Item>, usize) {
    let (mut items, mut at) = (Vec::new(), ITEMS_FROM);
    while let Some((item, next)) = read_item(script, at) {
        items.push(item);
        at = next;
    }
    (items, at)
}

/// What is wrong with an item, where one thing is.
fn faulty(tally: &mut Tally, item: &[u8], place: usize) {
    let [upper, lower, kind, ..] = item else {
        tally.meet(&cut(item.len(), place));
        return;
    };
    let length = u16::from_be_bytes([*upper, *lower]);
    let Some(size) = content_size(*kind) else {
        let alone = KINDS.contains(kind) && matches!(length, 1 | 3);
        tally.meet_if(alone, &wrong_kind(*kind, place));
        return;
    };
    if usize::from(length) == 1 + size {
        tally.meet(&cut(item.len(), place));
        tally.meet(&cut_of(*kind, item.len()));
        return;
    }
    tally.meet(&wrong_length_of(*kind));
    let told = LENGTHS.iter().any(|(of, lengths)| *of == size && lengths.contains(&length));
    tally.meet_if(told, &wrong_length(size, length, place));
}

#[cfg(test)]
mod tests {
    use super::*;
    use crate::bench::{lend_script, RUN_SCRIPT};
    use crate::cover::script::tests::{assert_met_of, SPOIL_STATE};
    use crate::cover::tests::met_by;

    /// A script of these bytes meets just these rules of this file.
    fn assert_met(script: &[u8], expected: &[&str]) {
        assert_met_of(rules(), &[lend_script(script), vec![RUN_SCRIPT]].concat(), expected);
    }

    #[test]
    fn versions() {
        assert_met(&[], &["empty"]);
        assert_met(&[1], &[]);
        assert_met(&[1, 0, 1, 4], &[]);
        assert_met(&[0], &["version 0", "wrong version alone"]);
        let well = "wrong version, else well formed with items";
        assert_met(&[2, 0, 1, 4], &["version 2", well]);
        assert_met(&[255, 0, 1], &["version 255"]);
        assert_met(&[3, 0, 1, 4], &[well]);
    }

    #[test]
    fn kinds() {
        assert_met(&[1, 0, 1, 0], &["kind 0 at place 0"]);
        assert_met(&[1, 0, 1, 4, 0, 3, 8, 9, 9], &["kind 8 at a later place"]);
        assert_met(&[1, 0, 1, 4, 0, 1, 9], &[]);
        let more = "faulty, with more bytes after the item";
        assert_met(&[1, 0, 1, 255, 0, 1, 4], &["kind 255 at place 0", more]);
    }

    #[test]
    fn lengths() {
        let wrong = ["length 0001h with a content of 2 bytes at place 0", "wrong length of kind 1"];
        assert_met(&[1, 0, 1, 1, 2, 3], &wrong);
        let wrong = ["length 0300h with a content of 2 bytes at place 0", "wrong length of kind 6"];
        assert_met(&[1, 3, 0, 6, 0, 0], &wrong);
        let wrong = ["length 0101h with a content of 0 bytes at a later place"];
        let wrong = [&wrong[..], &["wrong length of kind 7"]].concat();
        assert_met(&[1, 0, 1, 4, 1, 1, 7], &wrong);
        assert_met(&[1, 0, 9, 7], &["wrong length of kind 7"]);
    }

    #[test]
    fn cuts() {
        assert_met(&[1, 0], &["item cut after 1 bytes at place 0"]);
        assert_met(&[1, 0, 1, 4, 0, 3], &["item cut after 2 bytes at a later place"]);
        let three = ["item cut after 3 bytes at place 0", "item of kind 5 cut after 3 bytes"];
        assert_met(&[1, 0, 3, 5], &three);
        let four = ["item cut after 4 bytes at place 0", "item of kind 2 cut after 4 bytes"];
        assert_met(&[1, 0, 3, 2, 9], &four);
    }

    /// A bad state beside a faulty item, zeros after 20 items.
    #[test]
    fn with_a_bad_state_and_after_many() {
        let commands = [lend_script(&[1, 0, 1, 4, 0]), vec![SPOIL_STATE, RUN_SCRIPT]].concat();
        assert_eq!(met_by(rules(), &commands), [cut(1, 1), with_bad_state(1)]);
        let many = [&[1][..], &[0, 1, 4].repeat(20), &[0; 3]].concat();
        assert_met(&many, &["faulty after 20 or more items", "zeros for an item after others"]);
    }
}
