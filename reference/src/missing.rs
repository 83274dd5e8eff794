//! Tests of words for missing registers in scripts (definition, Missing registers): how they are
//! judged, what they come before and after, and that the port goes on taking them.

use crate::bench::Bench;
use crate::replay::Machine;
use crate::script::judge::{self, flags, Report};
use crate::script::run::tests::run_on;
use crate::script::run::{self, script};
use crate::script::tests::{with_words, FIRST, MISSING};
use crate::script::{script_of, write_item, Item};
use crate::state::{State, COPY, FILL, FILL_WAITING, TRANSFER};
use crate::streams::script::items::{any_item, done, phrase};
use crate::streams::script::missing::missing;
use crate::streams::{Kind, Maker};

/// A second half.
const SECOND: Item = Item::ControlWrite(0x0000);

/// The items that clear pending, and those that leave it.
const CLEAR: [Item; 3] = [Item::DataWrite(0x9800), Item::DataRead, Item::StatusRead];
const LEAVE: [Item; 3] = [Item::Run(0x9800), Item::Line(0x9800), Item::NewFrame];

/// What a script of these items is judged with while pending is clear, and while it is set.
fn assert_judged(items: &[Item], clear: Report, set: Report) {
    let script = script_of(items);
    assert_eq!(judge::judged(&script, false), clear, "{items:04X?}, pending clear");
    assert_eq!(judge::judged(&script, true), set, "{items:04X?}, pending set");
}

#[test]
fn the_first_word() {
    assert_judged(&[MISSING], (12, 0), (0, 1));
    assert_judged(&[MISSING, Item::StatusRead], (12, 0), (0, 2));
    assert_judged(&[], (0, 0), (0, 0));
}

/// With pending set the first half is a second one.
#[test]
fn after_a_first_half() {
    assert_judged(&[FIRST, MISSING], (0, 2), (12, 1));
    assert_judged(&[FIRST, MISSING, MISSING], (12, 2), (12, 1));
}

#[test]
fn after_a_first_half_and_another_item() {
    for item in CLEAR {
        assert_judged(&[FIRST, item, MISSING], (12, 2), (12, 2));
    }
    for item in LEAVE {
        assert_judged(&[FIRST, item, MISSING], (0, 3), (12, 2));
        assert_judged(&[FIRST, item, item, MISSING], (0, 4), (12, 3));
        assert_judged(&[FIRST, item, MISSING, MISSING], (12, 3), (12, 2));
    }
}

#[test]
fn after_another_item_alone() {
    for item in CLEAR {
        assert_judged(&[item, MISSING], (12, 1), (12, 1));
    }
    for item in LEAVE {
        assert_judged(&[item, MISSING], (12, 1), (0, 2));
    }
    assert_judged(&[Item::ControlWrite(0x8F02), MISSING], (12, 1), (12, 1));
}

/// With pending set the second half is a first one, and the word its second half.
#[test]
fn after_a_whole_command() {
    assert_judged(&[FIRST, SECOND, MISSING], (12, 2), (0, 3));
    assert_judged(&[FIRST, SECOND, FIRST, SECOND, MISSING], (12, 4), (0, 5));
}

/// Each register with bit 13 clear and set, as the first word and as a second half. After either
/// of the two pending is clear.
#[test]
fn each_register() {
    for (number, bit_13) in (0..32).flat_map(|number| [(number, 0), (number, 0x2000)]) {
        let word = Item::ControlWrite(0x8000 | bit_13 | number << 8 | 0x5A);
        let there = number < 24;
        assert_judged(&[word], if there { (0, 1) } else { (12, 0) }, (0, 1));
        assert_judged(&[word, MISSING], (12, if there { 1 } else { 0 }), (12, 1));
        assert_judged(&[FIRST, word], (0, 2), if there { (0, 2) } else { (12, 1) });
        assert_judged(&[FIRST, word, MISSING], (12, 2), (12, if there { 2 } else { 1 }));
    }
}

/// "B800h to BFFFh name missing registers just as 9800h to 9FFFh do." Every word that is no
/// register write is a first half, so that the one after it names nothing.
#[test]
fn every_word() {
    for word in 0..=0xFFFF {
        let missing = matches!(word, 0x9800..=0x9FFF | 0xB800..=0xBFFF);
        let register = matches!(word, 0x8000..=0xBFFF);
        let item = Item::ControlWrite(word);
        let clear = match (missing, register) {
            (true, _) => (12, 0),
            (false, true) => (12, 1),
            (false, false) => (0, 2),
        };
        assert_judged(&[item, MISSING], clear, (12, 1));
    }
}

/// 11 wins, whether the fault stands before the word or behind it.
#[test]
fn beside_faulty_items() {
    let word = MISSING.bytes();
    for fault in [&[0, 1, 8][..], &[0, 1, 0], &[0, 3, 3], &[0, 0, 0], &[3, 0, 1, 0x98, 0]] {
        for pending in [false, true] {
            let judged = |parts: &[&[u8]]| judge::judged(&parts.concat(), pending);
            assert_eq!(judged(&[&[1], fault, &word]), (11, 0));
            assert_eq!(judged(&[&[1], &word, fault]), (11, 1));
            assert_eq!(judged(&[&[1], &word, &word, fault, &word]), (11, 2));
        }
    }
    for cut in 1..word.len() {
        assert_eq!(judge::judged(&[&[1], &word[..cut]].concat(), false), (11, 0));
        assert_eq!(judge::judged(&[&[1], &word[..], &word[..cut]].concat(), false), (11, 1));
    }
    for version in [0, 2, 255] {
        assert_eq!(judge::judged(&[&[version], &word[..]].concat(), false), (11, 0));
    }
}

#[test]
fn the_first_of_two_counts() {
    let words = with_words(&[0x8F02, 0x9F00, 0xB800], &[Item::NewFrame]);
    assert_judged(&words, (12, 1), (12, 1));
    assert_judged(&[MISSING, Item::NewFrame, MISSING], (12, 0), (12, 2));
}

/// Beside what the calls would be refused for.
fn spoilt() -> Vec<Machine> {
    let busy = |kind: u8, remaining: u32| {
        move |machine: &mut Machine| {
            (machine.state.kind, machine.state.remaining) = (kind, remaining)
        }
    };
    let spoil = |spoil: &dyn Fn(&mut Machine)| {
        let mut machine = Machine::new();
        spoil(&mut machine);
        machine
    };
    vec![
        spoil(&|_| ()),
        spoil(&|machine| machine.state.code = 64),
        spoil(&|machine| machine.state.line = 262),
        spoil(&|machine| machine.state.scrolls[39] = 0x400),
        spoil(&busy(5, 0)),
        spoil(&busy(FILL_WAITING, 0)),
        spoil(&busy(TRANSFER, 1)),
        spoil(&busy(FILL, 65_536)),
        spoil(&busy(COPY, 1)),
        spoil(&|machine| machine.vram.length = 65_535),
        spoil(&|machine| machine.vram.length = 0),
        spoil(&|machine| machine.pixels.length = 321),
        spoil(&|machine| machine.work_ram.length = 65_537),
        spoil(&|machine| machine.cartridge.length = 3),
    ]
}

/// The script is turned down at this place, and nothing changes.
fn assert_turned_down(machine: &Machine, items: &[Item], place: u32) {
    let (report, after) = run_on(machine, items);
    assert_eq!(report, (12, place), "{items:04X?}");
    assert_eq!(after.state, machine.state);
    assert!(after.vram.bytes == machine.vram.bytes, "VRAM differs");
    assert_eq!(after.pixels.bytes, machine.pixels.bytes);
    assert!(after.tape.bytes == machine.tape.bytes && after.count == machine.count);
}

/// "Only the flag is asked for this, and nothing else of the state"; nor is any buffer.
#[test]
fn before_what_the_calls_answer() {
    for mut machine in spoilt() {
        assert_turned_down(&machine, &[MISSING], 0);
        assert_turned_down(&machine, &[MISSING, Item::DataRead], 0);
        for item in CLEAR.into_iter().chain(LEAVE) {
            assert_turned_down(&machine, &[item, MISSING, item], 1);
            assert_turned_down(&machine, &[FIRST, SECOND, item, MISSING], 3);
        }
        machine.state.pending = true;
        for item in CLEAR {
            assert_turned_down(&machine, &[item, MISSING], 1);
        }
        assert_turned_down(&machine, &[SECOND, MISSING], 1);
    }
}

/// Without the word each of these is refused: a line that there is not, one that is not modelled, a
/// run whose source is not lent, and an access in a transfer.
#[test]
fn after_a_call_that_would_be_refused() {
    let lines = Item::ControlWrite(0x8144);
    let transfer = with_words(&[0x8110, 0x9301, 0x9760, 0x4000, 0x0080], &[]);
    let with = |items: &[Item], last: Item| [items, &[last]].concat();
    for (items, report) in [
        (vec![lines, Item::Line(224)], (5, 1)),
        (vec![Item::Line(223)], (4, 0)),
        (with(&transfer, Item::Run(1)), (7, 5)),
        (with(&transfer, Item::DataRead), (3, 5)),
    ] {
        let machine = Machine::new();
        assert_eq!(run_on(&machine, &items).0, report);
        assert_turned_down(&machine, &with(&items, MISSING), items.len() as u32);
        assert_turned_down(&machine, &[&[MISSING], &items[..]].concat(), 0);
    }
}

/// In a copy every access but a status read is refused and leaves pending, yet it counts as done.
#[test]
fn a_call_that_would_be_refused_counts_as_done() {
    let mut machine = Machine::new();
    (machine.state.kind, machine.state.remaining) = (COPY, 9);
    assert_eq!(run_on(&machine, &[FIRST, MISSING]).0, (3, 0));
    assert_eq!(run_on(&machine, &[Item::StatusRead, FIRST, MISSING]).0, (3, 1));
    machine.state.pending = true;
    for item in [SECOND, Item::DataWrite(0), Item::DataRead] {
        assert_eq!(run_on(&machine, &[item]).0, (3, 0));
        assert_turned_down(&machine, &[item, MISSING], 1);
    }
    machine.state.code = 64;
    assert_turned_down(&machine, &[SECOND, MISSING], 1);
    assert_eq!(run_on(&machine, &[MISSING]).0, (1, 0));
}

/// A register, a word of VRAM and a line with backdrop 5: all that the calls would change.
#[test]
fn nothing_changes() {
    let calls = [Item::DataWrite(0x1234), Item::Line(0), MISSING];
    let items = with_words(&[0x8144, 0x8705, 0x8F02, 0x4000, 0x0000], &calls);
    for recorded in [false, true] {
        let mut machine = Machine::new();
        machine.recorded = recorded;
        assert_turned_down(&machine, &items, 7);
        let (report, after) = run_on(&machine, &items[..7]);
        assert_eq!((report, after.state.registers[15]), ((0, 7), 2));
        assert_eq!((&after.vram.bytes[..2], after.pixels.bytes[0]), (&[0x12, 0x34][..], 5));
    }
}

/// As a second half 98F3h gives CD5-CD2 and A15-A14 and nothing else.
#[test]
fn the_flag_of_the_state_decides() {
    let mut machine = Machine::new();
    (machine.state.code, machine.state.address) = (1, 0x0123);
    let second = [Item::ControlWrite(0x98F3), Item::NewFrame];
    let both = [FIRST, second[0]];
    assert_turned_down(&machine, &second, 0);
    let (report, after) = run_on(&machine, &both);
    assert_eq!((report, after.state.code, after.state.address), ((0, 2), 0x3D, 0xC000));
    machine.state.pending = true;
    assert_turned_down(&machine, &both, 1);
    let (report, after) = run_on(&machine, &second);
    assert_eq!((report, after.state.code, after.state.address), ((0, 2), 0x3D, 0xC123));
    assert_eq!(after.state.registers, State::fresh(false).registers);
    // What the first run left is turned down now: pending is clear again.
    assert!(!after.state.pending);
    assert_turned_down(&after, &second, 0);
}

/// The one item of a script, at the byte that it was written at.
#[test]
fn a_script_item_alone() {
    let (mut machine, mut bytes) = (Machine::new(), [1; 6]);
    assert_eq!(write_item(&mut bytes, 1, MISSING), Ok(6));
    assert_eq!(script(&mut machine.lent().0, &bytes), (12, 0));
    assert_eq!(run::item(&mut machine.lent().0, &bytes, 1), (Ok(0), 6));
    assert_eq!(machine.state, State::fresh(false));
}

/// The item is the plain call, which takes the word and changes nothing.
#[test]
fn a_script_item_is_never_turned_down() {
    let mut machine = Machine::new();
    machine.state.code = 5;
    let state = machine.state.clone();
    let bytes = script_of(&[Item::StatusRead, MISSING, Item::ControlWrite(0x8F02)]);
    assert_eq!(script(&mut machine.lent().0, &bytes), (12, 1));
    let mut called = |at| run::item(&mut machine.lent().0, &bytes, at);
    assert_eq!([called(1), called(4)], [(Ok(0x3600), 4), (Ok(0), 9)]);
    assert_eq!(called(9), (Ok(0), 14));
    let mut after = state.clone();
    (after.registers[15], after.code) = (2, 0);
    assert_eq!(machine.state, after);
    machine.state = State { code: 64, ..state };
    assert_eq!(run::item(&mut machine.lent().0, &bytes, 4), (Err(1), 4));
}

/// By words and by bytes, plain and recorded, with bit 13 clear and set. A record has no cell.
#[test]
fn the_port_goes_on_taking_them() {
    for upper in (0x98..=0x9F).chain(0xB8..=0xBF) {
        let mut bench = Bench::new();
        (bench.state().code, bench.state().kind) = (0x21, FILL_WAITING);
        let state = bench.state().clone();
        for recorded in [false, true] {
            bench.0.recorded = recorded;
            assert_eq!(bench.call(1, 0, u16::from(upper) << 8 | 0x77, 0), Ok(0));
            assert_eq!(bench.call(2, upper, 0, 0), Ok(0));
            assert_eq!(*bench.state(), state);
        }
        assert_eq!((bench.0.count, bench.0.tape.bytes[3], bench.0.tape.bytes[35]), (2, 0, 0));
    }
}

/// The place of the first control write that the port ignores. Each call is made on a chip that takes
/// it, with the flag that the call before left; what it takes otherwise changes pending or the code.
pub fn first_ignored(items: &[Item], mut pending: bool) -> Option<usize> {
    let mut machine = Machine::new();
    for (place, item) in items.iter().enumerate() {
        let mut state = State { pending, code: 1, ..State::fresh(false) };
        state.registers[1] = 0x04;
        machine.state = state.clone();
        let item = if matches!(item, Item::Line(_)) { Item::Line(0) } else { *item };
        assert!(machine.lent().0.call(item).is_ok());
        if matches!(item, Item::ControlWrite(_)) && machine.state == state {
            return Some(place);
        }
        pending = machine.state.pending;
    }
    None
}

/// Any items, with more words for missing registers and more first halves than by chance alone.
fn items_by_chance(maker: &mut Maker) -> Vec<Item> {
    let many = maker.below(12);
    let item = |maker: &mut Maker| match maker.below(8) {
        0 => missing(maker),
        1 => Item::ControlWrite(maker.first_half()),
        _ => any_item(maker),
    };
    (0..many).map(|_| item(maker)).collect()
}

#[test]
fn judged_as_the_port_takes_them() {
    let mut maker = Maker::new(3, Kind::Script, usize::MAX);
    let mut turned_down = 0;
    for _ in 0..600 {
        let items = items_by_chance(&mut maker);
        for pending in [false, true] {
            let ignored = first_ignored(&items, pending);
            assert_eq!(judge::first_missing(&items, pending), ignored, "{items:04X?}");
            turned_down += u32::from(ignored.is_some());
        }
    }
    assert!((300..900).contains(&turned_down), "{turned_down} of 1,200");
}

/// `PendingAsCalled`: while the calls are done, the flag that is judged is that of the state. The
/// items are any, or calls that are done as they were rehearsed.
#[test]
fn the_flag_is_that_of_the_state() {
    let mut maker = Maker::new(4, Kind::Script, usize::MAX);
    let mut times = [0, 0];
    for round in 0..400 {
        maker.machine.state.pending = maker.once_in(2);
        let rehearsed = done(maker.rehearse(phrase));
        let items = if round % 2 == 0 { rehearsed } else { items_by_chance(&mut maker) };
        let mut machine = maker.machine.clone();
        let flags = flags(&items, machine.state.pending);
        for (item, flag) in items.iter().zip(&flags) {
            assert_eq!(machine.state.pending, *flag);
            times[usize::from(*flag)] += 1;
            if machine.lent().0.call(*item).is_err() {
                break;
            }
        }
    }
    assert!(times.iter().all(|times| *times > 300), "{times:?}");
}
