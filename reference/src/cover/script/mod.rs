//! Counts of the calls that scripts make: which are done and what they do, which are refused and at
//! which place, and what a refused one leaves standing (definition, Running).

mod effects;
mod form;
pub mod items;
pub mod missing;
mod turned_down;

use super::refused::{count_over, free};
use super::runs::kind_name;
use super::{names, Before, Tally};
use crate::answer::{
    Answer, BAD_BUFFER, BAD_STATE, BUSY, DONE, MISSING_REGISTER, NOT_MODELLED, NO_SUCH_PLACE,
    SOURCE_NOT_LENT,
};
use crate::calls::{vram_good, WORK_RAM_BYTES};
use crate::replay::Machine;
use crate::script::form::items as items_of;
use crate::script::Item;
use crate::state::{State, COPY, FILL, TRANSFER};
use effects::Effects;

const RULES: &[&str] = &[
    "script: no items",
    "script: no items, with a bad state",
    "script: no items, with VRAM of a wrong length",
    "script: one item, done",
    "script: 20 or more items, all done",
    "script: done while recorded is set",
    "script: done while recorded is set, on a full tape",
    "script: done while recorded is set, the count above the capacity",
    "script: refused while recorded is set",
    "script: 2 for VRAM",
    "script: 2 for pixels",
    "script: 2 for work RAM",
    "script: 2 for the cartridge",
    "script: refused, and what the calls before did to the state stands",
    "script: refused, and what the calls before did to VRAM stands",
    "script: refused, and what the calls before did to the pixels stands",
    "script: half left awaited at the end",
    "script: DMA left under way at the end",
    "script: DMA from before the script goes on at place 0",
];

/// The calls by their kinds, from 1 on, with the numbers that each may be refused with.
pub const CALLS: [(&str, &[Answer]); 7] = [
    ("control write", &[BAD_STATE, BUSY]),
    ("data write", &[BAD_STATE, BAD_BUFFER, BUSY]),
    ("data read", &[BAD_STATE, BAD_BUFFER, BUSY]),
    ("status read", &[BAD_STATE, BUSY]),
    ("run", &[BAD_STATE, BAD_BUFFER, SOURCE_NOT_LENT]),
    ("line", &[BAD_STATE, BAD_BUFFER, NO_SUCH_PLACE, NOT_MODELLED]),
    ("new frame", &[BAD_STATE]),
];

/// Where a refused call or a missing register stands. A good state stays good, so 1 comes at place 0
/// alone.
const WHERE: [&str; 4] = [
    "in a script of one item",
    "at the first of more items",
    "at a middle item",
    "at the last of more items",
];

pub fn rules() -> Vec<String> {
    let of_calls = [of_calls(), effects::rules()];
    let of_judging = [form::rules(), missing::rules(), turned_down::rules()];
    [of_calls.concat(), of_judging.concat(), items::rules()].concat()
}

fn of_calls() -> Vec<String> {
    let mut rules = names(RULES);
    for (call, numbers) in CALLS {
        rules.extend([0, 1].map(|place| done_at(call, place)));
        for number in numbers {
            let places: &[usize] = if *number == BAD_STATE { &[0] } else { &[0, 1] };
            rules.extend(places.iter().map(|place| refused_at(call, *number, *place)));
        }
    }
    for number in [BAD_BUFFER, BUSY, NOT_MODELLED, NO_SUCH_PLACE, SOURCE_NOT_LENT] {
        rules.extend(WHERE.map(|position| number_where(number, position)));
    }
    rules.extend(WHERE[..2].iter().map(|position| number_where(BAD_STATE, position)));
    rules.extend([TRANSFER, FILL, COPY].map(begun_and_ended));
    rules
}

/// Places but the first are all one.
pub fn place_name(place: usize) -> &'static str {
    if place == 0 {
        "at place 0"
    } else {
        "at a later place"
    }
}

fn done_at(call: &str, place: usize) -> String {
    format!("script: {call} done {}", place_name(place))
}

fn refused_at(call: &str, number: Answer, place: usize) -> String {
    format!("script: {call} refused with {number} {}", place_name(place))
}

fn number_where(number: Answer, position: &str) -> String {
    format!("script: {number} {position}")
}

fn begun_and_ended(kind: u8) -> String {
    format!("script: {} begun and ended by one script", kind_name(kind))
}

pub fn call_name(item: Item) -> &'static str {
    CALLS[usize::from(item.kind()) - 1].0
}

/// A script is judged, and if that is done its calls are made.
pub fn count(tally: &mut Tally, before: &Before, after: &Machine, number: Answer) {
    let Ok(items) = items_of(before.machine.script.lent()) else {
        form::count(tally, before);
        missing::count_faulty(tally, before);
        return;
    };
    missing::count(tally, before, &items);
    if number != MISSING_REGISTER {
        as_a_whole(tally, before, items.len(), number);
        calls(tally, before, after, &items);
    }
}

/// Walks through the calls on a copy of the machine.
fn calls(tally: &mut Tally, before: &Before, after: &Machine, items: &[Item]) {
    let mut machine = before.machine.clone();
    let mut effects = Effects::default();
    let mut begun = false;
    for (place, item) in items.iter().enumerate() {
        let then = machine.state.clone();
        match machine.lent().0.call(*item) {
            Ok(result) => {
                tally.meet(&done_at(call_name(*item), place));
                effects.count(tally, place, *item, [&then, &machine.state], result);
                dma(tally, &mut begun, place, [&then, &machine.state]);
            }
            Err(number) => {
                refused(tally, &machine, *item, [place, items.len()], number);
                stands(tally, before, after);
                return;
            }
        }
    }
    tally.meet_if(machine.state.pending, "script: half left awaited at the end");
    tally.meet_if(machine.state.running(), "script: DMA left under way at the end");
}

/// What the script is run with, before any of its calls.
fn as_a_whole(tally: &mut Tally, before: &Before, items: usize, number: Answer) {
    let machine = &before.machine;
    let (none, done) = (items == 0, items > 0 && number == DONE);
    tally.meet_if(none, "script: no items");
    tally.meet_if(none && !machine.state.good(), "script: no items, with a bad state");
    let wrong = !vram_good(machine.vram.lent());
    tally.meet_if(none && wrong, "script: no items, with VRAM of a wrong length");
    tally.meet_if(done && items == 1, "script: one item, done");
    tally.meet_if(done && items >= 20, "script: 20 or more items, all done");
    if machine.recorded {
        let (over, full) = (count_over(machine), free(machine) == 0);
        tally.meet_if(done, "script: done while recorded is set");
        let rule = "script: done while recorded is set, on a full tape";
        tally.meet_if(done && full && !over, rule);
        let rule = "script: done while recorded is set, the count above the capacity";
        tally.meet_if(done && over, rule);
        tally.meet_if(number != DONE, "script: refused while recorded is set");
    }
}

/// DMA that a script begins, goes on with and ends; the two states are those around a call.
fn dma(tally: &mut Tally, begun: &mut bool, place: usize, [then, now]: [&State; 2]) {
    let units = then.remaining > now.remaining;
    let goes_on = place == 0 && then.running() && units;
    tally.meet_if(goes_on, "script: DMA from before the script goes on at place 0");
    let ends = then.running() && !now.running();
    tally.meet_if(ends && *begun, &begun_and_ended(then.kind));
    *begun = now.running() && (*begun || !then.running());
}

fn refused(
    tally: &mut Tally,
    machine: &Machine,
    item: Item,
    [place, items]: [usize; 2],
    number: Answer,
) {
    tally.meet(&refused_at(call_name(item), number, place));
    tally.meet(&number_where(number, position(place, items)));
    if number == BAD_BUFFER {
        bad_buffer(tally, machine, item);
    }
}

fn position(place: usize, items: usize) -> &'static str {
    match place {
        0 if items == 1 => WHERE[0],
        0 => WHERE[1],
        _ if place + 1 < items => WHERE[2],
        _ => WHERE[3],
    }
}

/// The buffer that is to blame, where only one is.
fn bad_buffer(tally: &mut Tally, machine: &Machine, item: Item) {
    let vram = !vram_good(machine.vram.lent());
    tally.meet_if(vram, "script: 2 for VRAM");
    tally.meet_if(!vram && matches!(item, Item::Line(_)), "script: 2 for pixels");
    let run = !vram && matches!(item, Item::Run(_));
    let work_ram = machine.work_ram.length != WORK_RAM_BYTES;
    tally.meet_if(run && work_ram, "script: 2 for work RAM");
    tally.meet_if(run && !work_ram, "script: 2 for the cartridge");
}

fn stands(tally: &mut Tally, before: &Before, after: &Machine) {
    for what in changed(&before.machine, after) {
        tally.meet(&format!("script: refused, and what the calls before did to {what} stands"));
    }
}

/// What calls can change.
pub const CHANGED: [&str; 3] = ["the state", "VRAM", "the pixels"];

pub fn changed(then: &Machine, now: &Machine) -> Vec<&'static str> {
    let differ = [
        then.state != now.state,
        then.vram.bytes != now.vram.bytes,
        then.pixels.bytes != now.pixels.bytes,
    ];
    CHANGED.into_iter().zip(differ).filter(|(_, differs)| *differs).map(|(what, _)| what).collect()
}

#[cfg(test)]
pub mod tests {
    use super::*;
    use crate::bench::{command, lend_script, RUN_SCRIPT};
    use crate::cover::tests::met_by;
    use crate::replay::{Command, VRAM};
    use crate::script::script_of;
    use crate::script::tests::with_words;

    pub const SPOIL_STATE: Command = Command { op: 32, a: 4, b: 0, c: 64 };
    pub const SET_PENDING: Command = Command { op: 32, a: 5, b: 0, c: 1 };
    /// A copy of one byte is under way.
    pub const IN_A_COPY: [Command; 2] =
        [Command { op: 32, a: 6, b: 0, c: 4 }, Command { op: 32, a: 7, b: 0, c: 1 }];

    /// Of the rules, these are met, in any order; their first word is left out.
    pub fn assert_met_of(rules: Vec<String>, commands: &[Command], expected: &[&str]) {
        let met = met_by(rules, commands);
        let mut met: Vec<_> = met.iter().map(|rule| rule.trim_start_matches("script: ")).collect();
        let mut expected = expected.to_vec();
        met.sort();
        expected.sort();
        assert_eq!(met, expected);
    }

    /// Commands that run a script of these items.
    pub fn run_of(items: &[Item]) -> Vec<Command> {
        [lend_script(&script_of(items)), vec![RUN_SCRIPT]].concat()
    }

    fn assert_met(before: &[Command], items: &[Item], expected: &[&str]) {
        assert_met_of(of_calls(), &[before, &run_of(items)].concat(), expected);
    }

    const REGISTER_15: Item = Item::ControlWrite(0x8F02);

    #[test]
    fn calls_that_are_done() {
        assert_met(&[], &[], &["no items"]);
        assert_met(&[SPOIL_STATE], &[], &["no items", "no items, with a bad state"]);
        assert_met(&[], &[Item::NewFrame], &["one item, done", "new frame done at place 0"]);
        let two = ["control write done at place 0", "status read done at a later place"];
        assert_met(&[], &[REGISTER_15, Item::StatusRead], &two);
        let half =
            ["one item, done", "control write done at place 0", "half left awaited at the end"];
        assert_met(&[], &[Item::ControlWrite(0x4000)], &half);
    }

    #[test]
    fn calls_that_are_refused() {
        let frame = ["new frame refused with 1 at place 0", "1 in a script of one item"];
        assert_met(&[SPOIL_STATE], &[Item::NewFrame], &frame);
        let read =
            ["data read refused with 2 at place 0", "2 at the first of more items", "2 for VRAM"];
        let short = command(36, 0, VRAM, 9);
        assert_met(&[short], &[Item::DataRead, Item::StatusRead], &read);
        let stands = "refused, and what the calls before did to the state stands";
        let line =
            ["control write done at place 0", "line refused with 5 at a later place", stands];
        let last = [&line[..], &["5 at the last of more items"]].concat();
        assert_met(&[], &[REGISTER_15, Item::Line(224)], &last);
        let middle = [&line[..], &["5 at a middle item"]].concat();
        assert_met(&[], &[REGISTER_15, Item::Line(224), Item::NewFrame], &middle);
    }

    /// A fill of one byte, begun before the script and ended by it, and one that it begins itself.
    #[test]
    fn dma_of_a_script() {
        let fill = [command(32, 6, 0, 3), command(32, 7, 0, 1)];
        let goes_on = "DMA from before the script goes on at place 0";
        assert_met(&fill, &[Item::Run(1)], &["one item, done", "run done at place 0", goes_on]);
        let left = "DMA left under way at the end";
        assert_met(&fill, &[Item::Run(0)], &["one item, done", "run done at place 0", left]);
        let words = [0x8110, 0x9301, 0x9780, 0x4000, 0x0080];
        let items = with_words(&words, &[Item::DataWrite(0), Item::Run(1)]);
        let begun = begun_and_ended(FILL);
        assert!(met_by(of_calls(), &run_of(&items)).contains(&begun));
        assert!(!met_by(of_calls(), &run_of(&items[..6])).contains(&begun));
    }

    #[test]
    fn recorded_is_set() {
        let recorded = command(38, 1, 0, 0);
        let done = ["one item, done", "new frame done at place 0", "done while recorded is set"];
        assert_met(&[recorded], &[Item::NewFrame], &done);
        let full = [&done[..], &["done while recorded is set, on a full tape"]].concat();
        assert_met(&[recorded, command(37, 0, 0, 4_096)], &[Item::NewFrame], &full);
        let over = "done while recorded is set, the count above the capacity";
        let over = [&done[..], &[over]].concat();
        assert_met(&[recorded, command(37, 0, 0, 4_097)], &[Item::NewFrame], &over);
    }
}
