//! Counts of words for missing registers in scripts: which are turned down, by which flag, and which
//! are second halves (definition, Missing registers).

use super::form::whole_items;
use super::turned_down::{self, pending_as_called};
use super::{call_name, number_where, position, WHERE};
use crate::answer::MISSING_REGISTER;
use crate::cover::{names, Before, Tally};
use crate::ports::Taken;
use crate::script::judge::{first_missing, flags, judged, names_missing};
use crate::script::{read_item, Item, VERSION};

/// The numbers of the missing registers.
pub const MISSING: [u16; 8] = [24, 25, 26, 27, 28, 29, 30, 31];

const RULES: &[&str] = &[
    "script: 12 after 20 or more items",
    "script: 12 at the first of two missing registers",
    "script: 12 after a second half with the bits of a missing register",
    "script: second half with the bits of a missing register at place 0",
    "script: no 12, as a first half that would be refused counts as done",
    "script: 11, with a missing register before the faulty item",
    "script: 11, with a missing register behind the faulty item",
    "script: 11 for the version, with a missing register",
];

/// What a script answers with the flag that it has, and with the other one.
const BY_FLAG: [[&str; 2]; 4] =
    [["12", "none"], ["12", "at another place"], ["12", "at the same place"], ["no 12", "one"]];

/// The items that a missing register may stand behind, with the flags that they may find.
const CLEAR_AFTER: [(&str, &[bool]); 8] = [
    ("register write", &[false]),
    ("second half", &[true]),
    ("data write", &[false, true]),
    ("data read", &[false, true]),
    ("status read", &[false, true]),
    ("run", &[false]),
    ("line", &[false]),
    ("new frame", &[false]),
];

/// The items after which such a word may be a second half.
const SET_AFTER: [&str; 4] = ["first half", "run", "line", "new frame"];

pub fn rules() -> Vec<String> {
    let mut rules = names(RULES);
    rules.extend(WHERE.map(|position| number_where(MISSING_REGISTER, position)));
    for number in MISSING {
        rules.extend([0x8000, 0xA000].map(|word| for_register(word | number << 8)));
    }
    for pending in [false, true] {
        rules.extend(BY_FLAG.map(|answers| by_flag(pending, answers)));
    }
    for (what, flags) in CLEAR_AFTER {
        rules.extend(flags.iter().map(|pending| just_after(what, *pending)));
    }
    rules.extend(SET_AFTER.map(second_half_after));
    rules
}

pub fn bit_13(word: u16) -> String {
    format!("bit 13 {}", flag_name(word & 0x2000 != 0))
}

fn flag_name(set: bool) -> &'static str {
    if set {
        "set"
    } else {
        "clear"
    }
}

fn for_register(word: u16) -> String {
    format!("script: 12 for register {}, {}", word / 256 % 32, bit_13(word))
}

fn by_flag(pending: bool, [now, other]: [&str; 2]) -> String {
    let (is, were) = (flag_name(pending), flag_name(!pending));
    format!("script: {now} with pending {is}, {other} if it were {were}")
}

fn just_after(what: &str, pending: bool) -> String {
    format!("script: 12 just after a {what} that finds pending {}", flag_name(pending))
}

fn second_half_after(what: &str) -> String {
    format!("script: second half with the bits of a missing register just after a {what}")
}

/// A well formed script.
pub fn count(tally: &mut Tally, before: &Before, items: &[Item]) {
    let pending = before.machine.state.pending;
    let place = first_missing(items, pending);
    let answers = match (place, first_missing(items, !pending)) {
        (Some(_), None) => Some(BY_FLAG[0]),
        (Some(place), Some(other)) if place != other => Some(BY_FLAG[1]),
        (Some(_), Some(_)) => Some(BY_FLAG[2]),
        (None, Some(_)) => Some(BY_FLAG[3]),
        (None, None) => None,
    };
    if let Some(answers) = answers {
        tally.meet(&by_flag(pending, answers));
    }
    match place {
        Some(place) => {
            named(tally, items, &flags(items, pending), place);
            turned_down::count(tally, before, items, place);
        }
        None => passed(tally, before, items, &flags(items, pending)),
    }
}

/// The item at this place is the first that names a missing register.
fn named(tally: &mut Tally, items: &[Item], flags: &[bool], place: usize) {
    tally.meet(&for_register(items[place].content().unwrap_or(0)));
    tally.meet(&number_where(MISSING_REGISTER, position(place, items.len())));
    tally.meet_if(place >= 20, "script: 12 after 20 or more items");
    let another = first_missing(&items[place + 1..], false).is_some();
    tally.meet_if(another, "script: 12 at the first of two missing registers");
    let bits = items[..place].iter().any(|item| has_bits(*item));
    tally.meet_if(bits, "script: 12 after a second half with the bits of a missing register");
    if place > 0 {
        let (item, pending) = (items[place - 1], flags[place - 1]);
        tally.meet(&just_after(what(item, pending), pending));
    }
}

/// Would its word name a missing register if it were no second half?
fn has_bits(item: Item) -> bool {
    names_missing(item, false)
}

/// What an item is called, with what its word is taken for.
fn what(item: Item, pending: bool) -> &'static str {
    match item {
        Item::ControlWrite(word) => match Taken::of(word, pending) {
            Taken::FirstHalf => "first half",
            Taken::SecondHalf => "second half",
            _ => "register write",
        },
        _ => call_name(item),
    }
}

/// No item names a missing register, so words with the bits of one are second halves.
fn passed(tally: &mut Tally, before: &Before, items: &[Item], flags: &[bool]) {
    for (place, _) in items.iter().enumerate().filter(|(_, item)| has_bits(**item)) {
        let clear = !pending_as_called(&before.machine, &items[..place]);
        tally.meet_if(clear, "script: no 12, as a first half that would be refused counts as done");
        tally.meet(&match place {
            0 => "script: second half with the bits of a missing register at place 0".to_string(),
            _ => second_half_after(what(items[place - 1], flags[place - 1])),
        });
    }
}

/// A script that is not well formed: 11 comes before 12.
pub fn count_faulty(tally: &mut Tally, before: &Before) {
    let (script, pending) = (before.machine.script.lent(), before.machine.state.pending);
    if script.first() != Some(&VERSION) {
        let items = script.get(1..).unwrap_or(&[]);
        let (number, _) = judged(&[&[VERSION], items].concat(), pending);
        let rule = "script: 11 for the version, with a missing register";
        tally.meet_if(number == MISSING_REGISTER, rule);
        return;
    }
    let (items, at) = whole_items(script);
    let named = first_missing(&items, pending).is_some();
    tally.meet_if(named, "script: 11, with a missing register before the faulty item");
    let mut behind = [3, 5].iter().filter_map(|size| read_item(script, at + size));
    let named = behind.any(|(item, _)| has_bits(item));
    tally.meet_if(named, "script: 11, with a missing register behind the faulty item");
}

#[cfg(test)]
mod tests {
    use super::*;
    use crate::bench::{lend_script, RUN_SCRIPT};
    use crate::cover::script::tests::{assert_met_of, run_of, IN_A_COPY, SET_PENDING};
    use crate::replay::Command;
    use crate::script::tests::{with_words, FIRST, MISSING as WORD};

    /// A script of these items meets just these rules of this file after these commands.
    fn assert_met(before: &[Command], items: &[Item], expected: &[&str]) {
        assert_met_of(rules(), &[before, &run_of(items)].concat(), expected);
    }

    const REGISTER_24: &str = "12 for register 24, bit 13 clear";

    #[test]
    fn the_first_word() {
        let by_flag = "12 with pending clear, none if it were set";
        assert_met(&[], &[WORD], &[REGISTER_24, by_flag, "12 in a script of one item"]);
        let more = [by_flag, "12 at the first of more items", "12 for register 31, bit 13 set"];
        assert_met(&[], &[Item::ControlWrite(0xBF00), Item::NewFrame], &more);
        let half = "second half with the bits of a missing register at place 0";
        let by_flag = "no 12 with pending set, one if it were clear";
        assert_met(&[SET_PENDING], &[WORD], &[half, by_flag]);
        assert_met(&[], &with_words(&[0x9700, 0x1800], &[]), &[]);
    }

    #[test]
    fn after_others() {
        let last = [REGISTER_24, "12 at the last of more items"];
        let same = "12 with pending clear, at the same place if it were set";
        let read = "12 just after a status read that finds pending clear";
        assert_met(&[], &[Item::StatusRead, WORD], &[&last[..], &[same, read]].concat());
        let read = "12 just after a data read that finds pending set";
        assert_met(&[], &[FIRST, Item::DataRead, WORD], &[&last[..], &[same, read]].concat());
        let register = "12 just after a register write that finds pending clear";
        let words = with_words(&[0x8F02, 0x9800], &[]);
        assert_met(&[], &words, &[&last[..], &[same, register]].concat());
        let (run, set) = (
            "12 just after a run that finds pending clear",
            "12 with pending clear, none if it were set",
        );
        assert_met(&[], &[Item::Run(0), WORD], &[&last[..], &[set, run]].concat());
    }

    #[test]
    fn after_a_first_half() {
        let one = "no 12 with pending clear, one if it were set";
        let after = |what: &str| {
            format!("second half with the bits of a missing register just after a {what}")
        };
        assert_met(&[], &[FIRST, WORD], &[one, &after("first half")]);
        assert_met(&[], &[FIRST, Item::NewFrame, WORD], &[one, &after("new frame")]);
        let two = [
            REGISTER_24,
            "12 at the last of more items",
            "12 just after a second half that finds pending set",
            "12 after a second half with the bits of a missing register",
            "12 with pending clear, at another place if it were set",
        ];
        assert_met(&[], &[FIRST, WORD, WORD], &two);
    }

    #[test]
    fn two_of_them_and_many_before() {
        let frames = [Item::NewFrame; 20];
        let many = [
            REGISTER_24,
            "12 after 20 or more items",
            "12 at a middle item",
            "12 at the first of two missing registers",
            "12 just after a new frame that finds pending clear",
            "12 with pending clear, at another place if it were set",
        ];
        assert_met(&[], &[&frames[..], &[WORD, WORD]].concat(), &many);
        let fewer = [many[0], many[2], many[4], "12 with pending clear, none if it were set"];
        assert_met(&[], &[&frames[1..], &[WORD, Item::NewFrame]].concat(), &fewer);
    }

    /// In a copy the first half is refused.
    #[test]
    fn a_first_half_that_would_be_refused() {
        let half = "second half with the bits of a missing register just after a first half";
        let one = "no 12 with pending clear, one if it were set";
        let counts = "no 12, as a first half that would be refused counts as done";
        assert_met(&IN_A_COPY, &[FIRST, WORD], &[half, one, counts]);
    }

    #[test]
    fn beside_faults() {
        let assert_met = |bytes: &[&[u8]], expected: &[&str]| {
            let commands = [lend_script(&bytes.concat()), vec![RUN_SCRIPT]].concat();
            assert_met_of(rules(), &commands, expected);
        };
        let word = WORD.bytes();
        let before = "11, with a missing register before the faulty item";
        assert_met(&[&[1], &word, &[0, 1, 8]], &[before]);
        assert_met(&[&[1], &word, &[0]], &[before]);
        assert_met(&[&[1], &FIRST.bytes(), &word, &[0]], &[]);
        let behind = "11, with a missing register behind the faulty item";
        assert_met(&[&[1, 0, 1, 8], &word], &[behind]);
        assert_met(&[&[1, 0, 3, 8, 0, 0], &word], &[behind]);
        assert_met(&[&[2], &word], &["11 for the version, with a missing register"]);
        assert_met(&[&[2], &FIRST.bytes()], &[]);
        assert_met(&[&[1], &word[..4]], &[]);
    }
}
