//! Tests of the reader in the replay (docs/STREAM.md): ops 19, 20 and 22 and the lines they print, the
//! part of the lent script that comes, and the reader beside the state, the tape and the book.

use crate::bench::{command, lend_script, script_length as length, RUN_SCRIPT};
use crate::check::Checker;
use crate::replay::{Command, Machine};
use crate::script::reader::Reader;
use crate::scripts::lines;
use crate::streams::{stream, Kind};

const ANEW: Command = Command { op: 19, a: 0, b: 0, c: 0 };
const END: Command = Command { op: 22, a: 0, b: 0, c: 0 };
/// Register 15 is written and the status read, in bytes 1 to 5 and 6 to 8.
const SCRIPT: [u8; 9] = [1, 0, 3, 1, 0x8F, 2, 0, 1, 4];

fn deliver(from: u16, bytes: u32) -> Command {
    command(20, 0, from, bytes)
}

/// What these commands print with a script lent.
fn printed(script: &[u8], commands: &[Command]) -> Vec<String> {
    let mut machine = Machine::new();
    lines(&mut machine, &lend_script(script));
    lines(&mut machine, commands)
}

/// 13,824 is 3600h, the status of a fresh chip.
#[test]
fn a_line_for_each_call_and_one_for_the_delivery() {
    let all = ["21 0 0 0", "21 0 13824 0", "20 0 2 0", "22 0 0 0"];
    assert_eq!(printed(&SCRIPT, &[deliver(0, 9), END]), all);
    let cut = [deliver(0, 5), deliver(5, 0), deliver(5, 2), deliver(7, 2), END];
    let expected =
        ["20 0 0 0", "20 0 0 0", "21 0 0 0", "20 0 1 0", "21 0 13824 0", "20 0 1 0", "22 0 0 0"];
    assert_eq!(printed(&SCRIPT, &cut), expected);
}

/// A refused call has a line, an item that answers 12 and a faulty byte have none.
#[test]
fn lines_of_a_delivery_that_is_refused() {
    let refused = [&SCRIPT[..], &[0, 3, 6, 0, 0, 0, 1, 7]].concat();
    let expected = ["21 0 0 0", "21 0 13824 0", "21 4 0 0", "20 4 3 0", "20 4 0 0", "22 4 0 0"];
    assert_eq!(printed(&refused, &[deliver(0, 99), deliver(0, 99), END]), expected);
    let missing = [1, 0, 1, 7, 0, 3, 1, 0xBF, 0];
    let expected = ["21 0 0 0", "20 12 1 0", "22 12 0 0"];
    assert_eq!(printed(&missing, &[deliver(0, 99), END]), expected);
    let faulty = [1, 0, 1, 7, 0, 1, 5];
    let expected = ["21 0 0 0", "20 11 1 0", "20 11 0 0"];
    assert_eq!(printed(&faulty, &[deliver(0, 99), deliver(0, 1)]), expected);
}

/// Nine bytes are lent: from byte 9 on there are none, and more than are left do not come. Bytes that
/// are held behind them stay away too.
#[test]
fn the_bytes_that_come() {
    let rest = ["21 0 0 0", "21 0 13824 0", "20 0 2 0"];
    for bytes in [9, 10, 65_536, u32::MAX] {
        assert_eq!(printed(&SCRIPT, &[deliver(0, bytes)]), rest);
    }
    for from in [9, 10, 16_388, 65_535] {
        assert_eq!(printed(&SCRIPT, &[deliver(from, u32::MAX), END]), ["20 0 0 0", "22 11 0 0"]);
    }
    assert_eq!(printed(&SCRIPT, &[length(0), deliver(0, 1), END]), ["20 0 0 0", "22 11 0 0"]);
    let short = [length(8), deliver(0, 99), END];
    assert_eq!(printed(&SCRIPT, &short), ["21 0 0 0", "20 0 1 0", "22 11 0 0"]);
    // 65,537 is not cut to 1.
    assert_eq!(printed(&SCRIPT, &[deliver(0, 65_537)]), rest);
}

/// The reader keeps bytes of its own, and the script may change behind them.
#[test]
fn what_came_stays_if_the_script_changes() {
    let over = command(39, 0xFF, 6, 0);
    let last = command(34, 4, 6, 8);
    let commands = [deliver(0, 8), over, last, deliver(8, 1)];
    assert_eq!(printed(&SCRIPT, &commands), ["21 0 0 0", "20 0 1 0", "21 0 13824 0", "20 0 1 0"]);
}

/// Ops 19 and 21 print nothing, 21 and 23 do nothing, and 33 leaves the reader inside its item.
#[test]
fn what_starts_a_reader_anew() {
    let nothing = [command(21, 1, 0, 9), command(23, 0, 0, 9), command(33, 1, 0, 0)];
    let commands = [&[deliver(0, 3)], &nothing[..], &[deliver(3, 3), END]].concat();
    assert_eq!(printed(&SCRIPT, &commands), ["20 0 0 0", "21 0 0 0", "20 0 1 0", "22 0 0 0"]);
    let commands = [deliver(0, 3), ANEW, END, ANEW, deliver(0, 1), END];
    assert_eq!(printed(&SCRIPT, &commands), ["20 0 0 0", "22 11 0 0", "20 0 0 0", "22 0 0 0"]);
    let stopped = [&[END], &nothing[..], &[deliver(0, 9), END]].concat();
    assert_eq!(printed(&SCRIPT, &stopped), ["22 11 0 0", "20 11 0 0", "22 11 0 0"]);
}

/// The script that is run by op 17 and the reader do not know of each other.
#[test]
fn beside_a_script_that_is_run() {
    let commands = [deliver(0, 7), RUN_SCRIPT, deliver(7, 2), END, RUN_SCRIPT];
    let expected = ["21 0 0 0", "20 0 1 0", "17 0 2 0", "21 0 13824 0", "20 0 1 0", "22 0 0 0"];
    assert_eq!(printed(&SCRIPT, &commands), [&expected[..], &["17 0 2 0"]].concat());
}

/// The tape has room, is full, or has a count above its capacity; it stays, and the count is printed.
#[test]
fn a_reader_is_never_recorded() {
    for count in [0, 1, 4_096, 4_097] {
        let mut machine = Machine::new();
        lines(&mut machine, &lend_script(&SCRIPT));
        lines(&mut machine, &[command(38, 1, 0, 0), command(37, 0, 0, count)]);
        let tape = machine.tape.bytes.clone();
        let expected = ["21 0 0", "21 0 13824", "20 0 2", "22 0 0"];
        let expected = expected.map(|line| format!("{line} {count}"));
        assert_eq!(lines(&mut machine, &[deliver(0, 9), END]), expected);
        assert_eq!((machine.state.registers[15], machine.count), (2, count));
        assert!(machine.tape.bytes == tape && machine.recorded);
    }
}

/// Digests do not tell readers apart.
#[test]
fn the_reader_has_no_digest() {
    let digests = command(48, 0, 0, 0);
    let told = printed(&SCRIPT, &[digests, deliver(0, 4), digests, END, digests]);
    assert!(told[0] == told[2] && told[2] == told[4]);
}

/// In streams by chance a delivery is its bytes one by one, and changes neither tape nor count.
#[test]
fn deliveries_of_streams_byte_by_byte() {
    let (mut cut, mut called) = (0, 0);
    for seed in 60..68 {
        let mut machine = Machine::new();
        for command in stream(seed, Kind::Reader, 600) {
            if command.op != 20 {
                machine.apply(&command);
                continue;
            }
            let mut other = machine.clone();
            let bytes = command.delivered(machine.script.lent()).to_vec();
            cut += u32::from(matches!(&machine.reader, Reader::InItems(kept) if !kept.is_empty()));
            let delivery = machine.deliver(&bytes);
            let calls: Vec<_> =
                bytes.iter().flat_map(|byte| other.deliver(&[*byte]).calls).collect();
            called += calls.len();
            assert_eq!((delivery.number, delivery.calls), (other.deliver(&[]).number, calls));
            assert!(other.reader == machine.reader && other.state == machine.state);
            assert!(other.vram.bytes == machine.vram.bytes && other.count == machine.count);
            assert!(other.pixels.bytes == machine.pixels.bytes);
        }
    }
    assert!(cut > 100 && called > 300, "{cut} deliveries inside items, {called} calls");
}

/// A delivery is plain calls: the book ends where they change the state.
#[test]
fn streams_of_a_reader_agree_with_the_book() {
    let mut total = 0;
    for seed in 100..112 {
        let mut checker = Checker::new();
        for command in stream(seed, Kind::Reader, 600) {
            assert_eq!(checker.apply(&command).1, None, "seed {seed}: {command:?}");
        }
        total += checker.checked;
    }
    assert!(total > 20, "only {total} calls had a book");
}
