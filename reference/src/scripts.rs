//! Tests of scripts in the replay (docs/STREAM.md): ops 17 and 18 and their buffer, a script beside
//! the same plain calls, beside its items one by one, and beside the tape and the book.

use crate::answer::{numbers, DONE};
use crate::bench::{command, script_length as length, RUN_SCRIPT as RUN};
use crate::check::Checker;
use crate::missing::first_ignored;
use crate::replay::{Command, Machine, SCRIPT};
use crate::script::judge::{judged, Report};
use crate::script::{form, run, Item};
use crate::streams::{stream, Kind, Maker, CODE};

const VERSION_1: Command = Command { op: 34, a: 1, b: SCRIPT, c: 0 };
const RECORD: Command = Command { op: 38, a: 1, b: 0, c: 0 };
const FRAME: Command = Command { op: 9, a: 0, b: 0, c: 0 };

/// The lines that these commands print.
pub fn lines(machine: &mut Machine, commands: &[Command]) -> Vec<String> {
    commands.iter().flat_map(|command| machine.apply(command)).collect()
}

/// Register 15 is written and the status read, as items at bytes 1 and 6.
fn two_items() -> [Command; 4] {
    [VERSION_1, length(9), command(18, 1, 0x8F02, 1), command(18, 4, 0xFFFF, 6)]
}

#[test]
fn a_script_is_written_and_run() {
    let mut machine = Machine::new();
    let commands = [&two_items()[..], &[RUN]].concat();
    assert_eq!(lines(&mut machine, &commands), ["18 0 6 0", "18 0 9 0", "17 0 2 0"]);
    assert_eq!(machine.script.lent(), [1, 0, 3, 1, 0x8F, 2, 0, 1, 4]);
    assert_eq!(machine.state.registers[15], 2);
}

/// Nothing is lent at the start. Of 9 bytes the last five begin at 4, and the bytes held past them
/// are not written.
#[test]
fn an_item_is_written_into_what_is_lent() {
    let mut machine = Machine::new();
    assert_eq!(lines(&mut machine, &[command(18, 4, 0, 0)]), ["18 2 0 0"]);
    machine.apply(&length(9));
    for (at, line) in [(4, "18 0 9 0"), (5, "18 2 0 0"), (9, "18 2 0 0"), (u32::MAX, "18 2 0 0")] {
        assert_eq!(lines(&mut machine, &[command(18, 5, 0xABCD, at)]), [line]);
    }
    assert_eq!(machine.script.bytes[..10], [0, 0, 0, 0, 0, 3, 5, 0xAB, 0xCD, 0]);
    assert_eq!(machine.script.length, 9);
}

#[test]
fn an_item_of_no_kind_does_nothing() {
    let mut machine = Machine::new();
    for (kind, bytes) in [(0, 16_388), (8, 16_388), (255, 16_388), (0, 0), (8, 0), (255, 0)] {
        let commands = [command(39, 0xAA, SCRIPT, 0), length(bytes), command(18, kind, 1, 1)];
        assert!(lines(&mut machine, &commands).is_empty());
        assert_eq!(machine.script.bytes, [0xAA; 16_388]);
    }
}

/// Only a script that is run is turned down.
#[test]
fn an_item_for_a_missing_register_is_written() {
    let mut machine = Machine::new();
    let written = [VERSION_1, length(9), command(18, 4, 0, 1), command(18, 1, 0x9800, 4)];
    assert_eq!(lines(&mut machine, &written), ["18 0 4 0", "18 0 9 0"]);
    let pending = |set| command(32, 5, 0, set);
    assert_eq!(lines(&mut machine, &[RUN, pending(1), RUN]), ["17 12 1 0", "17 12 1 0"]);
    assert!(machine.state.pending);
    let first = [command(18, 1, 0x9800, 1), length(6)];
    assert_eq!(lines(&mut machine, &first), ["18 0 6 0"]);
    assert_eq!(
        lines(&mut machine, &[RUN, RUN, pending(1), RUN]),
        ["17 0 1 0", "17 12 0 0", "17 0 1 0"]
    );
}

/// Byte 16,390 is byte 2, lengths go up to 16,388, and there is no buffer 7.
#[test]
fn the_buffer_of_the_script() {
    let mut machine = Machine::new();
    let commands = [command(34, 7, SCRIPT, 16_390), length(16_389), command(39, 9, 7, 0)];
    assert!(lines(&mut machine, &commands).is_empty());
    assert_eq!((machine.script.length, &machine.script.bytes[..4]), (16_388, &[0, 0, 7, 0][..]));
    machine.apply(&command(35, 0, SCRIPT, 0));
    // 1,013,904,223 is 3C6EF35Fh.
    assert_eq!(machine.script.bytes[0], 0x3C);
}

/// A refused script prints a place: of the call, or of the faulty item.
#[test]
fn places_are_printed() {
    let mut machine = Machine::new();
    assert_eq!(lines(&mut machine, &[RUN]), ["17 11 0 0"]);
    lines(&mut machine, &two_items());
    assert_eq!(lines(&mut machine, &[length(8), RUN]), ["17 11 1 0"]);
    assert_eq!(machine.state.registers[15], 0);
    let bad_state = command(32, 4, 0, 64);
    assert_eq!(lines(&mut machine, &[bad_state, RUN]), ["17 11 1 0"]);
    assert_eq!(lines(&mut machine, &[length(9), RUN]), ["17 1 0 0"]);
    assert_eq!(lines(&mut machine, &[length(1), RUN]), ["17 0 0 0"]);
    let transfer = [command(33, 0, 0, 0), command(32, 6, 0, 2), command(32, 7, 0, 1)];
    assert_eq!(lines(&mut machine, &[&transfer[..], &[length(9), RUN]].concat()), ["17 3 0 0"]);
    let copy = command(32, 6, 0, 4);
    machine.apply(&command(18, 4, 0, 1));
    machine.apply(&command(18, 3, 0, 4));
    assert_eq!(lines(&mut machine, &[copy, length(7), RUN]), ["17 3 1 0"]);
}

/// The tape is full, or the count is above its capacity; both do not matter to a script.
#[test]
fn a_script_is_never_recorded() {
    for count in [0, 1, 4_096, 4_097] {
        let mut machine = Machine::new();
        lines(&mut machine, &[&[RECORD][..], &two_items()].concat());
        machine.count = count;
        let tape = machine.tape.bytes.clone();
        assert_eq!(lines(&mut machine, &[RUN]), [format!("17 0 2 {count}")]);
        assert_eq!(machine.state.registers[15], 2);
        assert!(machine.count == count && machine.tape.bytes == tape);
    }
}

/// The digests are of what the script's calls left, and not of the script.
#[test]
fn the_script_has_no_digest() {
    let digests = command(48, 0, 0, 0);
    let mut machine = Machine::new();
    let before = lines(&mut machine, &[digests]);
    assert_eq!(lines(&mut machine, &[command(35, 0, SCRIPT, 9), length(99), digests]), before);
    lines(&mut machine, &two_items());
    assert_ne!(lines(&mut machine, &[RUN, digests])[1..], before);
}

/// The op of an item's plain call.
fn plain(item: Item) -> Command {
    let content = item.content().unwrap_or(0);
    match item {
        Item::ControlWrite(_) => command(1, 0, content, 0),
        Item::DataWrite(_) => command(3, 0, content, 0),
        Item::DataRead => command(5, 0, 0, 0),
        Item::StatusRead => command(6, 0, 0, 0),
        Item::Run(_) => command(7, 0, 0, content.into()),
        Item::Line(_) => command(8, 0, 0, content.into()),
        Item::NewFrame => command(9, 0, 0, 0),
    }
}

/// The script's plain calls by ops 1 to 9, up to a refused one, if the port would ignore none of
/// them.
fn by_plain_ops(machine: &mut Machine) -> Report {
    machine.recorded = false;
    let items = match form::items(machine.script.lent()) {
        Ok(items) => items,
        Err(place) => return (11, place),
    };
    if let Some(place) = first_ignored(&items, machine.state.pending) {
        return (12, place as u32);
    }
    for (place, item) in (0..).zip(&items) {
        let (number, _) = numbers(machine.call(&plain(*item)));
        if number != DONE {
            return (number, place);
        }
    }
    (DONE, items.len() as u32)
}

/// The script's items one by one, from byte 1 on to its end, if it is judged with 0.
fn by_items(machine: &mut Machine) -> Report {
    let (mut lent, script) = machine.lent();
    let (number, place) = judged(script, lent.state.pending);
    if number != DONE {
        return (number, place);
    }
    let (mut place, mut at) = (0, 1);
    while at < script.len() {
        let (reply, next) = run::item(&mut lent, script, at);
        if let Err(number) = reply {
            assert_eq!(next, at);
            return (number, place);
        }
        (place, at) = (place + 1, next);
    }
    assert_eq!(run::item(&mut lent, script, at), (Err(11), at));
    (DONE, place)
}

/// In streams by chance, scripts that are done, refused at later places, faulty and turned down.
#[test]
fn a_script_is_its_plain_calls() {
    let (mut done, mut later, mut faulty, mut missing) = (0, 0, 0, 0);
    for seed in 50..58 {
        let mut machine = Machine::new();
        for command in stream(seed, Kind::Script, 600) {
            let before = machine.clone();
            machine.apply(&command);
            if command.op != 17 {
                continue;
            }
            let report = before.clone().run_script();
            for make in [by_plain_ops, by_items] {
                let mut other = before.clone();
                assert_eq!(make(&mut other), report, "seed {seed}");
                assert!(other.state == machine.state && other.vram.bytes == machine.vram.bytes);
                assert_eq!(other.pixels.bytes, machine.pixels.bytes);
            }
            assert!(before.tape.bytes == machine.tape.bytes && before.count == machine.count);
            done += u32::from(report.0 == DONE);
            later += u32::from((1..11).contains(&report.0) && report.1 > 0);
            faulty += u32::from(report.0 == 11);
            missing += u32::from(report.0 == 12);
        }
    }
    let counts = [done, later, faulty, missing];
    assert!(counts.iter().zip([50, 20, 50, 30]).all(|(count, few)| *count > few), "{counts:?}");
}

/// How many of the commands were held against a book; none may differ from it.
fn checked(commands: &[Command]) -> u64 {
    let mut checker = Checker::new();
    for command in commands {
        assert_eq!(checker.apply(command).1, None, "{command:?}");
    }
    checker.checked
}

/// A script is plain calls: if it leaves state and VRAM as they are the book goes on, and if not it
/// ends. The count is not 0 then, so no other begins.
#[test]
fn a_book_goes_on_over_a_script_that_changes_nothing() {
    let begun = [&two_items()[..], &[RECORD, FRAME]].concat();
    let with = |between: &[Command]| checked(&[&begun, between, &[FRAME]].concat());
    assert_eq!(with(&[]), 2);
    // A version alone, a faulty script, an item written: nothing changes.
    assert_eq!(with(&[length(1), RUN]), 2);
    assert_eq!(with(&[length(8), RUN, command(18, 4, 0, 1)]), 2);
    // Register 15 would be written, but the word after it is for register 24.
    assert_eq!(with(&[length(11), command(18, 1, 0x9800, 6), RUN]), 2);
    // A status read alone leaves a fresh state as it is.
    assert_eq!(with(&[command(18, 4, 0, 1), length(4), RUN]), 2);
    assert_eq!(with(&[RUN]), 1);
    assert_eq!(with(&[RUN, command(37, 0, 0, 0)]), 2);
}

#[test]
fn streams_of_scripts_agree_with_the_book() {
    let mut total = 0;
    for seed in 100..112 {
        total += checked(&stream(seed, Kind::Script, 600));
    }
    assert!(total > 20, "only {total} calls had a book");
}

/// A rehearsal leaves the machine and the stream as they were.
#[test]
fn a_rehearsal_leaves_no_trace() {
    let mut maker = Maker::new(9, Kind::Script, usize::MAX);
    maker.register(15, 2);
    let before = maker.machine.clone();
    let calls = maker.rehearse(|maker| {
        maker.field(CODE, 0, 64);
        maker.control(0x8F04);
        maker.run(0x1_0000);
        maker.line(0);
        maker.back(1);
    });
    let expected =
        [(Item::ControlWrite(0x8F04), Ok(0)), (Item::Run(0xFFFF), Ok(0)), (Item::Line(0), Err(4))];
    assert_eq!(calls, expected);
    assert!(maker.machine.state == before.state && !maker.machine.recorded);
}
