//! Tests of the sprite flags: a line sets them, a status read shows and clears them, a new frame
//! clears them (definition, Ports). No status word shows used up; its tests are in masking.rs.

use crate::answer::{BAD_BUFFER, BAD_STATE, BUSY, TAPE_FULL};
use crate::bench::Bench;
use crate::state::{
    State, COLOURS, COPY, FILL, FILL_WAITING, IDLE, REGISTERS, SCROLLS, SCROLL_MOST, TRANSFER,
};

/// DMA kind, PAL, and the status words with both flags set and with both clear. Each has 80h for
/// vertical and 8 for line 230.
const WORDS: [(u8, bool, u32, u32); 5] = [
    (IDLE, false, 0x36E8, 0x3688),
    (IDLE, true, 0x36E9, 0x3689),
    (FILL_WAITING, false, 0x36E8, 0x3688),
    (FILL, false, 0x36EA, 0x368A),
    (COPY, false, 0x36EA, 0x368A),
];

/// A GOOD state with both flags and used up set, pending, and something in every field that may
/// hold it.
pub fn flagged(kind: u8, pal: bool) -> State {
    let (remaining, source, fill) = match kind {
        TRANSFER | COPY => (7, 0x42, 0),
        FILL => (7, 0, 0x99),
        _ => (0, 0, 0),
    };
    State {
        registers: [0xA5; REGISTERS],
        colours: [0x0E42; COLOURS],
        scrolls: [SCROLL_MOST; SCROLLS],
        address: 0x1234,
        code: 0x21,
        pending: true,
        kind,
        remaining,
        source,
        fill,
        overflow: true,
        collision: true,
        used_up: true,
        line: 230,
        counter: 9,
        vertical: true,
        horizontal: true,
        pal,
    }
}

pub fn on_bench(state: &State) -> Bench {
    let mut bench = Bench::new();
    *bench.state() = state.clone();
    bench
}

#[test]
fn a_status_read_clears_pending_and_both_flags_and_nothing_else() {
    for (kind, pal, set, clear) in WORDS {
        let before = flagged(kind, pal);
        let mut bench = on_bench(&before);
        let after = State { pending: false, overflow: false, collision: false, ..before };
        for word in [set, clear] {
            assert_eq!(bench.status(), Ok(word));
            assert_eq!(*bench.state(), after);
        }
    }
}

#[test]
fn a_status_read_shows_and_clears_each_flag_alone() {
    for (overflow, collision, word) in [(true, false, 0x3640), (false, true, 0x3620)] {
        let mut bench = on_bench(&State { overflow, collision, ..State::fresh(false) });
        assert_eq!(bench.status(), Ok(word));
        assert_eq!(*bench.state(), State::fresh(false));
        assert_eq!(bench.status(), Ok(0x3600));
    }
}

#[test]
fn a_new_frame_clears_both_flags_and_used_up_and_nothing_else() {
    for (kind, pal, _, clear) in WORDS {
        let before = flagged(kind, pal);
        let mut bench = on_bench(&before);
        assert_eq!(bench.frame(), Ok(0));
        let after = State { overflow: false, collision: false, used_up: false, ..before };
        assert_eq!(*bench.state(), after);
        assert_eq!(bench.status(), Ok(clear));
    }
}

/// Each case says whether the form is recorded; the tape holds 131,072 / 32 = 4,096 records.
#[test]
fn a_refused_status_read_clears_nothing() {
    let [idle, transfer, copy] = [IDLE, TRANSFER, COPY].map(|kind| flagged(kind, false));
    let bad = State { code: 64, ..idle.clone() };
    for (before, recorded, count, number) in [
        (&bad, false, 5, BAD_STATE),
        (&transfer, false, 5, BUSY),
        (&bad, true, 5, BAD_STATE),
        (&transfer, true, 5, BUSY),
        (&idle, true, 4_097, BAD_BUFFER),
        (&idle, true, 4_096, TAPE_FULL),
        (&copy, true, 4_096, TAPE_FULL),
    ] {
        let mut bench = on_bench(before);
        bench.0.recorded = recorded;
        bench.0.count = count;
        bench.0.tape.bytes.fill(0x55);
        assert_eq!(bench.status(), Err(number));
        assert_eq!((&bench.0.state, bench.0.count), (before, count));
        assert!(bench.0.tape.bytes.iter().all(|byte| *byte == 0x55));
    }
}

/// A read stores to no cell; byte 11 of its record is pending, byte 20 the flags, with 4 for used
/// up, which no read clears (definition, The tape).
#[test]
fn a_step_back_over_a_status_read_gives_the_flags_back() {
    for (kind, pal, set, clear) in WORDS {
        let before = flagged(kind, pal);
        let mut bench = on_bench(&before);
        bench.0.recorded = true;
        assert_eq!((bench.status(), bench.status()), (Ok(set), Ok(clear)));
        for (record, pending, flags) in [(0, 1, 7), (1, 0, 4)] {
            let bytes = &bench.0.tape.bytes[32 * record..];
            assert_eq!(bytes[3..8], [0; 5]);
            assert_eq!((bytes[11], bytes[20]), (pending, flags));
        }
        assert_eq!((bench.back(1), bench.0.count), (Ok(0), 1));
        assert_eq!((bench.status(), bench.0.count), (Ok(clear), 2));
        assert_eq!((bench.back(2), bench.0.count), (Ok(0), 0));
        assert_eq!(*bench.state(), before);
        assert_eq!(bench.status(), Ok(set));
    }
}

/// No pixel is solid, so the 21st sprite's overflow is set alone.
#[test]
fn two_recorded_status_reads_after_a_line_of_21_sprites() {
    let mut bench = Bench::row_of_sprites(21);
    bench.0.recorded = true;
    assert_eq!(bench.line(0), Ok(21));
    assert_eq!((bench.status(), bench.status()), (Ok(0x3640), Ok(0x3600)));
    assert_eq!((bench.back(1), bench.status()), (Ok(0), Ok(0x3600)));
    assert_eq!((bench.back(2), bench.status()), (Ok(0), Ok(0x3640)));
}

/// With solid pixels the 21 sprites set both flags on line 0. None of them is on line 8, which
/// visits them all the same, and leaves the flags as they are.
#[test]
fn a_line_sets_the_flags_anew_after_a_status_read_and_never_clears_them() {
    let mut bench = Bench::row_of_sprites(21);
    bench.pattern(1, 7);
    for _ in 0..2 {
        assert_eq!((bench.line(0), bench.line(8)), (Ok(21), Ok(21)));
        assert_eq!(bench.status(), Ok(0x3660));
        assert_eq!((bench.line(8), bench.status()), (Ok(21), Ok(0x3600)));
    }
}
