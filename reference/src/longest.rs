//! Tests of the greatest length: registers 19 and 20 zero make 65,536 units (definition, DMA). The
//! set-ups are such that a unit less or a unit more shows in VRAM.

use crate::answer::{BAD_RECORD, BAD_STATE, BUSY, NOTHING_THERE, SOURCE_NOT_LENT, TAPE_FULL};
use crate::bench::Bench;
use crate::state::{COPY, FILL, FILL_WAITING, IDLE, TRANSFER};

/// Control words for DMA on, a step of 1, and registers 19 and 20 zero.
const READY: [u16; 4] = [0x8110, 0x8F01, 0x9300, 0x9400];

type Begun = fn() -> Bench;
const EACH_BEGUN: [Begun; 3] = [transfer_begun, fill_begun, copy_begun];

fn begin(mut bench: Bench, words: &[u16], kind: u8) -> Bench {
    bench.control(&READY);
    bench.control(words);
    if kind == FILL {
        bench.write(0x1234);
    }
    assert_eq!((bench.state().kind, bench.state().remaining), (kind, 65_536));
    bench
}

/// From FFFFFEh to VRAM at 0. Unit 0 takes the word at FFFEh of work RAM, and a later unit k the
/// word at 2 x (k - 1) mod 65,536.
fn transfer_begun() -> Bench {
    let mut bench = Bench::new();
    let work_ram = &mut bench.0.work_ram.bytes;
    work_ram[..2].copy_from_slice(&[0x12, 0x34]);
    work_ram[0xFFFA..=0xFFFF].copy_from_slice(&[0x9A, 0xBC, 0xDE, 0xF0, 0x56, 0x78]);
    begin(bench, &[0x95FF, 0x96FF, 0x977F, 0x4000, 0x0080], TRANSFER)
}

/// Its word 1234h goes to 0 and 1. So its units are at the addresses 1 to FFFFh and then 0.
fn fill_begun() -> Bench {
    begin(Bench::new(), &[0x9780, 0x4000, 0x0080], FILL)
}

/// From 1 to 0: unit k stores the byte at k + 1 at k.
fn copy_begun() -> Bench {
    let mut bench = Bench::new();
    bench.vram()[..4].copy_from_slice(&[0xA0, 0xA1, 0xA2, 0xA3]);
    bench.vram()[0xFFFE..=0xFFFF].copy_from_slice(&[0xAE, 0xAF]);
    begin(bench, &[0x9501, 0x9600, 0x97C0, 0x0000, 0x00C0], COPY)
}

/// Holds VRAM against the bytes that are named; every other byte is as given.
fn assert_vram(bench: &mut Bench, others: u8, named: &[(usize, &[u8])]) {
    let mut expected = vec![others; 65_536];
    for (at, bytes) in named {
        expected[*at..*at + bytes.len()].copy_from_slice(bytes);
    }
    let wrong = (0..65_536).find(|at| bench.vram()[*at] != expected[*at]);
    assert_eq!(wrong, None, "the first byte of VRAM that is wrong");
}

/// Two units write each word of VRAM, and what stays is unit 2j + 1, at the odd address, its bytes
/// exchanged: the word at 4j mod 65,536 of work RAM, whose end is passed twice. The last is unit
/// 65,535 at FFFFh; without it 9A BC would stay there, and one more would leave 56 78 at 0.
#[test]
fn a_transfer_of_65_536_words() {
    let mut bench = transfer_begun();
    assert_eq!(bench.run(70_000), Ok(65_536));
    let (low, high) = ([0x34, 0x12], [0xF0, 0xDE]);
    assert_vram(&mut bench, 0, &[(0, &low), (0x7FFE, &high), (0x8000, &low), (0xFFFE, &high)]);
    assert_eq!((bench.state().kind, bench.state().source), (IDLE, 0));
    assert_eq!(bench.state().address, 0);
}

/// The last unit is at address 0 and stores over the 34h at 1. One more would store 12h again, so a
/// word is written after it: at 1, with its bytes exchanged. A unit more would have it at 2.
#[test]
fn a_fill_of_65_536_bytes() {
    let mut bench = fill_begun();
    assert_eq!(bench.run(70_000), Ok(65_536));
    assert_vram(&mut bench, 0x12, &[]);
    assert_eq!((bench.state().kind, bench.state().fill), (IDLE, 0));
    bench.write(0xABCD);
    assert_vram(&mut bench, 0x12, &[(0, &[0xCD, 0xAB])]);
}

/// The last unit stores the byte at 0, which is A1h by then, at FFFFh. Without it AFh would stay
/// there, and one more would leave A2h at 0.
#[test]
fn a_copy_of_65_536_bytes() {
    let mut bench = copy_begun();
    assert_eq!(bench.run(70_000), Ok(65_536));
    assert_vram(&mut bench, 0, &[(0, &[0xA1, 0xA2, 0xA3]), (0xFFFD, &[0xAE, 0xAF, 0xA1])]);
    assert_eq!((bench.state().kind, bench.state().source), (IDLE, 0));
    assert_eq!(bench.state().address, 0);
}

/// In two runs the last unit is still to come after the first, and the ports are busy.
#[test]
fn the_last_of_65_536_units_alone() {
    let cases: [(Begun, usize, [u8; 2], [u8; 2]); 3] = [
        (transfer_begun, 0xFFFE, [0x9A, 0xBC], [0xF0, 0xDE]),
        (fill_begun, 0, [0x12, 0x34], [0x12, 0x12]),
        (copy_begun, 0xFFFE, [0xAF, 0xAF], [0xAF, 0xA1]),
    ];
    for (begun, at, before, after) in cases {
        let mut bench = begun();
        assert_eq!(bench.run(65_535), Ok(65_535));
        assert_eq!(bench.state().remaining, 1);
        assert_eq!(bench.vram()[at..at + 2], before);
        assert_eq!(bench.call(3, 0, 0, 0), Err(BUSY));
        assert_eq!(bench.run(70_000), Ok(1));
        assert_eq!(bench.vram()[at..at + 2], after);
        assert_eq!(bench.state().kind, IDLE);
    }
}

/// Registers 20:19 are one number, and it is zero only if both are.
#[test]
fn only_a_length_of_zero_is_65_536() {
    for (low, high, units) in [(0, 0, 65_536), (0xFF, 0xFF, 65_535), (1, 0, 1), (0, 1, 256)] {
        let mut bench = Bench::new();
        bench.control(&[0x8110, 0x9300 + low, 0x9400 + high, 0x97C0, 0x0000, 0x00C0]);
        assert_eq!(bench.state().remaining, units);
    }
}

/// A cartridge of 131,072 bytes has 65,536 words, and the last of them is not lent if it has two
/// bytes less.
#[test]
fn a_transfer_of_65_536_words_needs_131_072_bytes() {
    let mut bench = Bench::new();
    bench.0.cartridge.bytes.fill(0x77);
    let mut bench = begin(bench, &[0x9500, 0x9600, 0x9700, 0x4000, 0x0080], TRANSFER);
    bench.0.cartridge.length = 131_070;
    assert_eq!(bench.run(65_536), Err(SOURCE_NOT_LENT));
    assert_vram(&mut bench, 0, &[]);
    bench.0.cartridge.length = 131_072;
    assert_eq!(bench.run(u32::MAX), Ok(65_536));
    assert_vram(&mut bench, 0x77, &[]);
}

/// Lends a tape of so many bytes and records from here on.
fn with_tape(mut bench: Bench, bytes: usize) -> Bench {
    bench.0.tape.bytes = vec![0x55; bytes];
    bench.0.tape.length = bytes;
    bench.0.recorded = true;
    bench
}

#[test]
fn a_tape_one_record_too_short_for_65_536_units() {
    for begun in EACH_BEGUN {
        let mut bench = with_tape(begun(), 32 * 65_536 - 1);
        let before = bench.0.clone();
        assert_eq!(bench.run(u32::MAX), Err(TAPE_FULL));
        assert_eq!((bench.state().clone(), bench.0.count), (before.state, 0));
        assert!(bench.0.vram.bytes == before.vram.bytes);
        assert!(bench.0.tape.bytes == before.tape.bytes);
        assert_eq!(bench.run(65_535), Ok(65_535));
        assert_eq!((bench.0.count, bench.run(1)), (65_535, Err(TAPE_FULL)));
    }
}

#[test]
fn a_tape_of_65_536_records_and_all_of_it_back() {
    for begun in EACH_BEGUN {
        let mut plain = begun();
        let mut bench = with_tape(begun(), 32 * 65_536);
        assert_eq!((plain.run(u32::MAX), bench.run(u32::MAX)), (Ok(65_536), Ok(65_536)));
        assert_eq!((bench.0.count, bench.state()), (65_536, plain.state()));
        assert!(bench.vram() == plain.vram());
        assert_eq!(bench.back(65_537), Err(NOTHING_THERE));
        let tape = bench.0.tape.bytes.clone();
        assert_eq!(bench.back(65_536), Ok(0));
        assert_eq!((bench.0.count, bench.state()), (0, begun().state()));
        assert!(bench.vram() == begun().vram());
        assert!(bench.0.tape.bytes == tape);
    }
}

/// A copy, recorded whole.
fn copy_on_tape() -> Bench {
    let mut bench = with_tape(copy_begun(), 32 * 65_536);
    assert_eq!(bench.run(65_536), Ok(65_536));
    bench
}

/// Before the last unit the address is FFFFh, the source is 0, and AFh is at FFFEh and at FFFFh.
#[test]
fn the_first_and_the_last_of_65_536_records() {
    let tape = copy_on_tape().0.tape.bytes;
    let line_261 = [1, 5, 0, 0, 0, 0, 0, 0, 0, 0, 0];
    let first = [3, 0, 32, 1, 0, 0, 0xA0, 0xA1, 0, 0, 0x30, 0, 4, 1, 0, 0, 0, 0, 1, 0, 0];
    assert_eq!(tape[..32], [first.as_slice(), &line_261].concat());
    let last = [3, 0, 32, 1, 0xFF, 0xFE, 0xAF, 0xAF, 0xFF, 0xFF, 0x30, 0, 4, 0, 0, 1];
    assert_eq!(tape[32 * 65_535..], [last.as_slice(), &[0; 5], &line_261].concat());
}

/// Without the last three units, at FFFDh to FFFFh, these hold 0, AEh and AFh as at the start.
#[test]
fn the_last_three_of_65_536_steps_back() {
    let mut bench = copy_on_tape();
    assert_eq!(bench.back(3), Ok(0));
    let state = bench.state();
    assert_eq!((state.remaining, state.address, state.source), (3, 0xFFFD, 0xFFFE));
    let down = [0xA1, 0xA2, 0xA3];
    assert_vram(&mut bench, 0, &[(0, &down), (0xFFFE, &[0xAE, 0xAF])]);
    assert_eq!((bench.run(70_000), bench.0.count), (Ok(3), 65_536));
    assert_vram(&mut bench, 0, &[(0, &down), (0xFFFD, &[0xAE, 0xAF, 0xA1])]);
}

#[test]
fn all_but_the_first_of_65_536_steps_back() {
    let mut bench = copy_on_tape();
    assert_eq!((bench.back(65_535), bench.0.count), (Ok(0), 1));
    let state = bench.state();
    assert_eq!((state.remaining, state.address, state.source), (65_535, 1, 2));
    let end = [0xAE, 0xAF];
    assert_vram(&mut bench, 0, &[(0, &[0xA1, 0xA1, 0xA2, 0xA3]), (0xFFFE, &end)]);
    assert_eq!((bench.back(1), bench.0.count), (Ok(0), 0));
    assert_eq!(bench.state().remaining, 65_536);
    assert_vram(&mut bench, 0, &[(0, &[0xA0, 0xA1, 0xA2, 0xA3]), (0xFFFE, &end)]);
}

/// GOOD asks for no more than 65,536, and for 0 in kinds 0 and 1 (definition, The state).
#[test]
fn a_state_with_65_536_units_is_good_and_with_65_537_is_not() {
    let mut bench = Bench::new();
    for kind in [TRANSFER, FILL, COPY] {
        bench.state().kind = kind;
        bench.state().remaining = 65_536;
        for op in [7, 9, 10, 13, 16] {
            assert_eq!(bench.call(op, 0, 0, 0), Ok(0));
        }
        bench.state().remaining = 65_537;
        for op in (1..=10).chain(13..=16) {
            assert_eq!(bench.call(op, 0, 0, 0), Err(BAD_STATE));
        }
    }
    for kind in [IDLE, FILL_WAITING] {
        bench.state().kind = kind;
        bench.state().remaining = 65_536;
        assert_eq!(bench.run(0), Err(BAD_STATE));
    }
}

/// A record with no cell and nothing but DMA in it; its units remaining are bytes 13 to 15.
#[test]
fn a_record_with_65_536_units_is_good_and_with_65_537_is_not() {
    for (kind, units, reply) in [
        (TRANSFER, [1, 0, 0], Ok(0)),
        (FILL, [1, 0, 0], Ok(0)),
        (COPY, [1, 0, 0], Ok(0)),
        (TRANSFER, [1, 0, 1], Err(BAD_RECORD)),
        (FILL, [1, 0, 1], Err(BAD_RECORD)),
        (COPY, [1, 0, 1], Err(BAD_RECORD)),
        (IDLE, [1, 0, 0], Err(BAD_RECORD)),
        (FILL_WAITING, [1, 0, 0], Err(BAD_RECORD)),
    ] {
        let mut bench = Bench::new();
        bench.0.count = 1;
        bench.0.tape.bytes[..3].copy_from_slice(&[3, 0, 32]);
        bench.0.tape.bytes[12] = kind;
        bench.0.tape.bytes[13..16].copy_from_slice(&units);
        assert_eq!(bench.back(1), reply);
        let expected = if reply.is_ok() { (kind, 65_536, 0) } else { (IDLE, 0, 1) };
        assert_eq!((bench.state().kind, bench.0.state.remaining, bench.0.count), expected);
    }
}
