//! Tests of frame timing, worked out by hand: the lines on which the counter expires, the levels,
//! the V counter, what the status word shows, and the records (definition, Frame timing).

use crate::answer::{BAD_BUFFER, BAD_RECORD, BAD_STATE, NOTHING_THERE, NOT_MODELLED, TAPE_FULL};
use crate::bench::{back_over, Bench};
use crate::flags::{flagged, on_bench};
use crate::replay::{state_bytes, Command};
use crate::state::{State, COPY, FILL, FILL_WAITING, IDLE, TRANSFER};

const KINDS: [u8; 5] = [IDLE, FILL_WAITING, TRANSFER, FILL, COPY];

/// A fresh chip with register 0 bit 4 set, which asks for level 4, and this number in register 10.
fn asking(lines: u16) -> Bench {
    let mut bench = Bench::new();
    bench.control(&[0x8010, 0x8A00 + lines]);
    bench
}

/// A chip on this line, with this counter.
fn on_line(line: u16, counter: u8) -> Bench {
    on_bench(&State { line, counter, ..State::fresh(false) })
}

/// The lines of a frame after which level 4 is offered; it is acknowledged each time.
fn expiries(bench: &mut Bench) -> Vec<u16> {
    let mut lines = Vec::new();
    for line in 0..262 {
        assert_eq!(bench.begins(), Ok(0));
        assert_eq!(bench.state().line, line);
        if bench.level() == Ok(4) {
            assert_eq!(bench.acknowledge(4), Ok(0));
            lines.push(line);
        }
    }
    lines
}

/// Line 0 is the first to begin. A frame with the same register 10 is like the one before it.
fn assert_expiries(register_10: u16, lines: &[u16]) {
    let mut bench = asking(register_10);
    for _ in 0..2 {
        assert_eq!(expiries(&mut bench), lines, "register 10 = {register_10}");
    }
}

/// The counter is 0 whenever a line begins, so it expires "on each line from 0 to 224".
#[test]
fn with_0_in_register_10_the_counter_expires_on_lines_0_to_224() {
    assert_expiries(0, &(0..=224).collect::<Vec<_>>());
}

/// Line 0 loads 1 and makes it 0, line 1 finds 0 and loads 1, line 2 makes it 0, and so on: the odd
/// lines, 223 the last of them.
#[test]
fn with_1_in_register_10_the_counter_expires_on_the_odd_lines() {
    assert_expiries(1, &(0..112).map(|k| 2 * k + 1).collect::<Vec<_>>());
}

/// Line 0 leaves 222 of 223, line 222 leaves 0, line 223 expires, and line 224 makes the new 223 a
/// 222, which line 225 takes no notice of.
#[test]
fn with_223_in_register_10_the_counter_expires_on_line_223() {
    assert_expiries(223, &[223]);
}

/// Line n first, then each that is n + 1 after the last: 2 + 3 x 74 = 224, and 203 + 51 is too late.
#[test]
fn the_counter_expires_on_no_line_above_224() {
    assert_expiries(2, &(0..75).map(|k| 2 + 3 * k).collect::<Vec<_>>());
    assert_expiries(50, &[50, 101, 152, 203]);
    assert_expiries(224, &[224]);
    assert_expiries(225, &[]);
    assert_expiries(255, &[]);
}

#[test]
fn the_counter_after_a_line() {
    for (register_10, line, counter) in [
        (0, 0, 0),
        (0, 224, 0),
        (0, 225, 0),
        (1, 0, 0),
        (1, 1, 1),
        (1, 2, 0),
        (1, 223, 1),
        (1, 224, 0),
        (1, 225, 1),
        (1, 261, 1),
        (223, 0, 222),
        (223, 222, 0),
        (223, 223, 223),
        (223, 224, 222),
        (223, 225, 223),
        (224, 223, 0),
        (224, 224, 224),
        (255, 224, 30),
        (255, 225, 255),
    ] {
        let mut bench = asking(register_10);
        bench.begins_to(line);
        let what = format!("register 10 = {register_10}, line {line}");
        assert_eq!(bench.state().counter, counter, "{what}");
    }
}

/// The line and the counter before, register 10, the counter after, and whether it expired. A load
/// on line 0 comes before the counting, so a 0 that is there before it does not expire.
#[test]
fn what_one_line_makes_of_the_counter() {
    for (line, then, register_10, now, expired) in [
        (261, 77, 5, 4, false),
        (261, 0, 5, 4, false),
        (261, 77, 0, 0, true),
        (0, 77, 5, 76, false),
        (0, 0, 5, 5, true),
        (223, 77, 5, 76, false),
        (223, 1, 5, 0, false),
        (223, 0, 5, 5, true),
        (224, 77, 5, 5, false),
        (224, 0, 0, 0, false),
        (225, 77, 5, 5, false),
        (260, 0, 5, 5, false),
        (260, 77, 0, 0, false),
    ] {
        let mut bench = on_line(line, then);
        bench.state().registers[0] = 0x10;
        bench.state().registers[10] = register_10;
        assert_eq!(bench.begins(), Ok(0));
        let state = bench.state();
        let found = (state.counter, state.horizontal);
        assert_eq!(found, (now, expired), "after line {line} with {then} and {register_10}");
    }
}

/// Of 2 the lines 0 and 1 leave 0. A 5 that is written then is loaded on line 2 only, so that it is
/// 0 after line 7.
#[test]
fn a_write_to_register_10_does_not_load_the_counter() {
    let mut bench = asking(2);
    bench.begins_to(1);
    bench.control(&[0x8A05]);
    assert_eq!(bench.state().counter, 0);
    for line in 2..10 {
        assert_eq!(bench.begins(), Ok(0));
        let expired = line == 2 || line == 8;
        assert_eq!(bench.level(), Ok(if expired { 4 } else { 0 }), "line {line}");
        assert_eq!(bench.acknowledge(4).is_ok(), expired);
    }
}

#[test]
fn an_expiry_sets_horizontal_only_if_register_0_bit_4_is_set() {
    for (register_0, then, now) in
        [(0x10, false, true), (0x10, true, true), (0xEF, false, false), (0xEF, true, true)]
    {
        let mut bench = on_line(99, 0);
        bench.state().registers[0] = register_0;
        bench.state().horizontal = then;
        bench.state().registers[10] = 8;
        assert_eq!(bench.begins(), Ok(0));
        assert_eq!((bench.state().horizontal, bench.state().counter), (now, 8));
    }
}

/// Vertical is 80h and the blanking is 8 of the status word; level 6 is offered while register 1 bit
/// 5 is set, also where it was clear when line 224 began.
#[test]
fn vertical_on_line_224_whatever_register_1_holds() {
    for (word, level) in [(0x8120, 6), (0x81DF, 0)] {
        let mut bench = on_line(222, 200);
        bench.control(&[word]);
        bench.begins_to(223);
        assert_eq!((bench.status(), bench.level()), (Ok(0x3600), Ok(0)));
        bench.begins_to(224);
        assert_eq!((bench.status(), bench.status()), (Ok(0x3688), Ok(0x3688)));
        assert_eq!(bench.level(), Ok(level));
        bench.control(&[0x8100]);
        assert_eq!((bench.level(), bench.acknowledge(6)), (Ok(0), Err(NOTHING_THERE)));
        bench.control(&[0x8120]);
        assert_eq!((bench.level(), bench.acknowledge(6)), (Ok(6), Ok(0)));
        assert_eq!((bench.status(), bench.level()), (Ok(0x3608), Ok(0)));
    }
}

/// Nothing but an acknowledge clears it, not the next frame either.
#[test]
fn vertical_stays_for_a_whole_frame() {
    let mut bench = on_line(223, 0);
    for (line, word) in
        [(224, 0x3688), (260, 0x3688), (261, 0x3680), (0, 0x3680), (223, 0x3680), (224, 0x3688)]
    {
        bench.begins_to(line);
        assert_eq!((bench.frame(), bench.status()), (Ok(0), Ok(word)), "line {line}");
    }
}

/// The counter expires on line 101 and then, with 255 in register 10, on none of the next frame.
#[test]
fn horizontal_stays_for_a_whole_frame() {
    let mut bench = on_line(100, 0);
    bench.control(&[0x8010, 0x8AFF]);
    for line in [101, 102, 224, 225, 261, 0, 1, 101] {
        bench.begins_to(line);
        assert_eq!((bench.frame(), bench.level()), (Ok(0), Ok(4)), "line {line}");
    }
    assert_eq!(bench.acknowledge(4), Ok(0));
    bench.begins_to(101);
    assert_eq!(bench.level(), Ok(0));
}

/// With 224 in register 10 both come on line 224. Each acknowledge is refused with 10 unless its
/// level is offered.
#[test]
fn level_4_before_level_6() {
    let mut bench = asking(224);
    bench.control(&[0x8120]);
    bench.begins_to(224);
    for (level, word) in [(4, 0x3688), (6, 0x3688), (0, 0x3608)] {
        assert_eq!((bench.level(), bench.status()), (Ok(u32::from(level)), Ok(word)));
        let before = bench.state().clone();
        for other in (0..=255).filter(|other| *other == 0 || *other != level) {
            assert_eq!(bench.acknowledge(other), Err(NOTHING_THERE));
        }
        assert_eq!(*bench.state(), before);
        if level != 0 {
            assert_eq!(bench.acknowledge(level), Ok(0));
        }
    }
}

/// The counter expires on each line; register 0 is asked when it does and not after that.
#[test]
fn level_4_stays_offered_when_register_0_bit_4_is_cleared() {
    let mut bench = asking(0);
    assert_eq!((bench.begins(), bench.level()), (Ok(0), Ok(4)));
    bench.control(&[0x8000]);
    assert_eq!((bench.level(), bench.begins(), bench.level()), (Ok(4), Ok(0), Ok(4)));
    assert_eq!((bench.acknowledge(4), bench.level()), (Ok(0), Ok(0)));
    assert_eq!((bench.begins(), bench.level()), (Ok(0), Ok(0)));
}

#[test]
fn the_v_counter_on_lines() {
    for (line, counter) in [
        (0, 0),
        (1, 1),
        (128, 0x80),
        (224, 0xE0),
        (229, 0xE5),
        (234, 0xEA),
        (235, 0xE5),
        (240, 0xEA),
        (260, 0xFE),
        (261, 0xFF),
    ] {
        assert_eq!(on_line(line, 0).v_counter(), Ok(counter), "line {line}");
    }
}

/// "It goes from EAh back to E5h and ends at FFh."
#[test]
fn the_v_counter_through_a_frame() {
    let mut bench = Bench::new();
    assert_eq!(bench.v_counter(), Ok(0xFF));
    for counter in (0..=0xEA).chain(0xE5..=0xFF) {
        assert_eq!((bench.begins(), bench.v_counter()), (Ok(0), Ok(counter)));
    }
    assert_eq!((bench.begins(), bench.v_counter()), (Ok(0), Ok(0)));
}

#[test]
fn status_bit_3_on_lines() {
    for (line, word) in [(0, 0x3600), (223, 0x3600), (224, 0x3608), (260, 0x3608), (261, 0x3600)] {
        assert_eq!(on_line(line, 0).status(), Ok(word), "line {line}");
    }
}

/// Register 10 is A5h like all registers of this state, and line 231 loads the counter from it.
#[test]
fn a_line_that_begins_changes_the_timing_alone_and_is_never_busy() {
    for kind in KINDS {
        let before = flagged(kind, false);
        let mut bench = on_bench(&before);
        assert_eq!(bench.begins(), Ok(0));
        assert_eq!(*bench.state(), State { line: 231, counter: 0xA5, ..before });
    }
}

/// Register 1 is A5h, so its bit 5 is set, and level 6 is offered after 4.
#[test]
fn acknowledges_and_reads_are_never_busy_and_take_pal() {
    for (kind, pal) in KINDS.into_iter().flat_map(|kind| [(kind, false), (kind, true)]) {
        let before = flagged(kind, pal);
        let mut bench = on_bench(&before);
        assert_eq!((bench.v_counter(), bench.level()), (Ok(230), Ok(4)));
        assert_eq!(*bench.state(), before);
        assert_eq!((bench.acknowledge(4), bench.level()), (Ok(0), Ok(6)));
        assert_eq!(*bench.state(), State { horizontal: false, ..before });
        assert_eq!((bench.acknowledge(6), bench.level()), (Ok(0), Ok(0)));
        assert_eq!(*bench.state(), State { horizontal: false, vertical: false, ..before });
    }
}

#[test]
fn with_pal_no_line_begins() {
    let before = flagged(IDLE, true);
    let mut bench = on_bench(&before);
    assert_eq!(bench.begins(), Err(NOT_MODELLED));
    assert_eq!(*bench.state(), before);
}

/// A drawn line takes its number from the caller.
#[test]
fn a_drawn_line_leaves_the_timing() {
    let mut bench = Bench::screen();
    let timed = State { line: 200, counter: 3, vertical: true, horizontal: true, ..bench.0.state };
    bench.0.state = timed.clone();
    assert_eq!((bench.line(7), bench.line(223)), (Ok(1), Ok(1)));
    assert_eq!(*bench.state(), timed);
}

/// A line above 261 makes the state bad for every call that is given one.
#[test]
fn line_261_is_good_and_262_is_not() {
    assert_eq!(State::fresh(true), State { pal: true, ..State::fresh(false) });
    assert_eq!(on_line(261, 0).0.state, State::fresh(false));
    assert_eq!(on_line(261, 255).v_counter(), Ok(255));
    for line in [262, 263, 511, 65_535] {
        let mut bench = on_line(line, 0);
        bench.state().horizontal = true;
        let before = bench.state().clone();
        for op in (1..=10).chain(13..=16) {
            assert_eq!(bench.call(op, 4, 0, 0), Err(BAD_STATE), "op {op} on line {line}");
        }
        assert_eq!(*bench.state(), before);
    }
}

/// The tape holds 131,072 / 32 = 4,096 records.
#[test]
fn refusals_of_a_recorded_line_that_begins_come_in_their_order() {
    let mut bench = Bench::new();
    bench.0.recorded = true;
    bench.0.count = 4_097;
    bench.state().pal = true;
    bench.state().line = 262;
    assert_eq!(bench.begins(), Err(BAD_STATE));
    bench.state().line = 261;
    assert_eq!(bench.begins(), Err(BAD_BUFFER));
    bench.0.count = 4_096;
    assert_eq!(bench.begins(), Err(NOT_MODELLED));
    bench.state().pal = false;
    assert_eq!(bench.begins(), Err(TAPE_FULL));
    assert_eq!(*bench.state(), State::fresh(false));
    bench.0.count = 4_095;
    assert_eq!((bench.begins(), bench.0.count), (Ok(0), 4_096));
}

#[test]
fn refusals_of_a_recorded_acknowledge_come_in_their_order() {
    let mut bench = on_line(262, 0);
    bench.0.recorded = true;
    bench.0.count = 4_097;
    assert_eq!(bench.acknowledge(4), Err(BAD_STATE));
    bench.state().line = 0;
    assert_eq!(bench.acknowledge(4), Err(BAD_BUFFER));
    bench.0.count = 4_096;
    assert_eq!(bench.acknowledge(4), Err(NOTHING_THERE));
    bench.state().horizontal = true;
    assert_eq!(bench.acknowledge(4), Err(TAPE_FULL));
    assert!(bench.state().horizontal);
    bench.0.count = 4_095;
    assert_eq!((bench.acknowledge(4), bench.0.count), (Ok(0), 4_096));
}

/// Plain calls and the two reads have nothing to do with the tape.
#[test]
fn without_a_tape_the_count_is_not_asked() {
    for (recorded, op, reply) in
        [(false, 13, Ok(0)), (false, 14, Ok(0)), (true, 15, Ok(229)), (true, 16, Ok(4))]
    {
        for count in [0, 4_096, 4_097] {
            let mut bench = on_line(235, 0);
            bench.state().horizontal = true;
            bench.0.recorded = recorded;
            bench.0.count = count;
            assert_eq!((bench.call(op, 4, 0, 0), bench.0.count), (reply, count));
        }
    }
}

/// Bytes 21 and 22 are line 223 = DFh, 23 the counter, and 24 has 2 for horizontal alone.
#[test]
fn the_record_of_a_line_that_begins() {
    let before = State { line: 223, counter: 5, vertical: false, ..flagged(FILL, false) };
    let mut bench = on_bench(&before);
    bench.0.recorded = true;
    bench.0.tape.bytes.fill(0x55);
    assert_eq!((bench.begins(), bench.0.count), (Ok(0), 1));
    let head = [3, 0, 32, 0, 0, 0, 0, 0];
    let state = [0x12, 0x34, 0x21, 1, 3, 0, 0, 7, 0, 0, 0, 0x99, 7, 0, 0xDF, 5, 2];
    assert_eq!(bench.0.tape.bytes[..32], [head.as_slice(), &state, &[0; 7]].concat());
    assert_eq!(bench.0.tape.bytes[32], 0x55);
    let after = State { line: 224, counter: 4, vertical: true, ..before };
    assert_eq!(*bench.state(), after);
    assert_eq!((bench.back(1), bench.0.count), (Ok(0), 0));
    assert_eq!(*bench.state(), before);
}

/// Byte 24 has 3 before the first acknowledge and 1 before the second; line 230 is E6h.
#[test]
fn the_records_of_two_acknowledges() {
    let before = flagged(COPY, true);
    let mut bench = on_bench(&before);
    bench.0.recorded = true;
    assert_eq!((bench.acknowledge(4), bench.acknowledge(6)), (Ok(0), Ok(0)));
    for (record, waits) in [(0, 3), (1, 1)] {
        let head = [3, 0, 32, 0, 0, 0, 0, 0];
        let state = [0x12, 0x34, 0x21, 1, 4, 0, 0, 7, 0, 0, 0x42, 0, 7, 0, 0xE6, 9, waits];
        let bytes = &bench.0.tape.bytes[32 * record..32 * record + 32];
        assert_eq!(*bytes, [head.as_slice(), &state, &[0; 7]].concat());
    }
    assert_eq!((bench.level(), bench.back(1), bench.level()), (Ok(0), Ok(0), Ok(6)));
    assert_eq!((bench.back(1), bench.level()), (Ok(0), Ok(4)));
    assert_eq!(*bench.state(), before);
}

/// Record n is that of line n. With 1 in register 10 the counter is 1 after odd lines and 0 after
/// even ones up to 224, and horizontal is set from line 1 on.
#[test]
fn a_whole_recorded_frame_and_back() {
    let mut bench = asking(1);
    let start = bench.state().clone();
    bench.0.recorded = true;
    bench.begins_to(261);
    assert_eq!((bench.0.count, bench.status()), (262, Ok(0x3680)));
    for (count, line, counter, vertical, horizontal) in [
        (262, 261, 1, true, true),
        (225, 224, 0, true, true),
        (224, 223, 1, false, true),
        (2, 1, 1, false, true),
        (1, 0, 0, false, false),
        (0, 261, 0, false, false),
    ] {
        assert_eq!((bench.back(bench.0.count - count), bench.0.count), (Ok(0), count));
        assert_eq!(*bench.state(), State { line, counter, vertical, horizontal, ..start });
    }
}

/// Line 0 begins; its record goes back to line 261.
const BEGINS: u8 = 13;

#[test]
fn good_timing_in_a_record() {
    let fresh = State::fresh(false);
    for (changes, expected) in [
        ([].as_slice(), fresh.clone()),
        (&[(22, 4)], State { line: 260, ..fresh }),
        (&[(21, 0), (22, 0xFF)], State { line: 255, ..fresh }),
        (&[(23, 255)], State { counter: 255, ..fresh }),
        (&[(24, 1)], State { vertical: true, ..fresh }),
        (&[(24, 2)], State { horizontal: true, ..fresh }),
        (&[(24, 3)], State { vertical: true, horizontal: true, ..fresh }),
    ] {
        assert_eq!(back_over(BEGINS, changes), (Ok(0), expected), "{changes:?}");
    }
}

/// 01 06 is line 262. A record of version 1 is bad with and without what it had for the timing,
/// which was 0 in all bytes from 21 on.
#[test]
fn bad_records_of_timing_and_of_version_1() {
    let after = State { line: 0, ..State::fresh(false) };
    let mut cases: Vec<Vec<(usize, u8)>> = [
        [(0, 1)].as_slice(),
        &[(0, 1), (21, 0), (22, 0)],
        &[(0, 0)],
        &[(0, 4)],
        &[(22, 6)],
        &[(21, 2), (22, 0)],
        &[(21, 0xFF), (22, 0xFF)],
        &[(24, 4)],
        &[(24, 0x80)],
    ]
    .map(|changes| changes.to_vec())
    .to_vec();
    cases.extend((25..32).map(|at| vec![(at, 1)]));
    for changes in cases {
        assert_eq!(back_over(BEGINS, &changes), (Err(BAD_RECORD), after.clone()), "{changes:?}");
    }
}

/// Op 32 cuts to a word, to a byte and to a bit; the digest's bytes end with what it set, used up
/// last. There is no field 18.
#[test]
fn fields_13_to_17_of_the_stream_and_the_end_of_the_digest() {
    let mut bench = Bench::new();
    for (a, c) in [(12, 1), (13, 0x1_2345), (14, 0x1FE), (15, 3), (16, 2), (17, 5), (18, 1)] {
        assert!(bench.0.apply(&Command { op: 32, a, b: 0, c }).is_empty());
    }
    let timed = State { line: 0x2345, counter: 0xFE, vertical: true, ..State::fresh(true) };
    let expected = State { used_up: true, ..timed };
    assert_eq!(*bench.state(), expected);
    let bytes = state_bytes(bench.state());
    assert_eq!(bytes.len(), 24 + 2 * 64 + 2 * 40 + 2 + 3 + 4 + 4 + 4 + 5 + 1);
    assert_eq!(bytes[246..], [0, 0, 1, 0x23, 0x45, 0xFE, 1, 0, 1]);
    for (a, c) in [(15, 2), (16, 0x8000_0001), (17, 0x8000_0000)] {
        assert!(bench.0.apply(&Command { op: 32, a, b: 0, c }).is_empty());
    }
    assert_eq!(state_bytes(bench.state())[252..], [0, 1, 0]);
}

#[test]
fn the_lines_that_ops_13_to_16_print() {
    let mut bench = Bench::new();
    for (op, a, lines) in [
        (15, 0, &["15 0 255 0"][..]),
        (13, 0, &["13 0 0 0"]),
        (14, 4, &["14 10 0 0"]),
        (15, 0, &["15 0 0 0"]),
        (16, 0, &["16 0 0 0"]),
        (38, 1, &[]),
        (13, 0, &["13 0 0 1"]),
        (16, 0, &["16 0 0 1"]),
        (19, 0, &[]),
    ] {
        assert_eq!(bench.0.apply(&Command { op, a, b: 0, c: 0 }), lines);
    }
}
