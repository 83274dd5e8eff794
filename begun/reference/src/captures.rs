//! Tests of captures that are judged, worked out by hand: equal, the first column that differs, what
//! is not looked at, refusals in their order, and that nothing changes (definition, Judging a line).

use crate::answer::{BAD_BUFFER, BAD_STATE, NOT_MODELLED, NO_SUCH_PLACE};
use crate::bench::{command, Bench};
use crate::calls;
use crate::flags::flagged;
use crate::judge::{judge, Batch, Verdict};
use crate::replay::{Machine, CAPTURE, EQUAL};
use crate::state::{State, COPY, FILL, FILL_WAITING, IDLE, TRANSFER};
use crate::streams::{stream, Kind, Maker};
use Verdict::{Differs, Equal};

/// Register 12 at the two widths, and the widths.
pub const WIDTHS: [(u8, usize); 2] = [(0x81, 320), (0x00, 256)];

/// A screen of the backdrop alone, 25h, with no sprite on a line.
pub fn plain(register_12: u8) -> Bench {
    let mut bench = Bench::screen();
    bench.state().registers[7] = 0x25;
    bench.state().registers[12] = register_12;
    bench
}

/// What judging these bytes against a line says. It leaves state, VRAM and capture.
fn judged(bench: &Bench, line: u32, capture: &[u8]) -> Result<Verdict, u8> {
    judge(&bench.0.state, bench.0.vram.lent(), line, capture)
}

/// The same with a capture of one byte but for these columns, which have another.
fn judged_but(bench: &Bench, byte: u8, columns: &[(usize, u8)]) -> Result<Verdict, u8> {
    let mut capture = [byte; 320];
    for (column, other) in columns {
        capture[*column] = *other;
    }
    judged(bench, 0, &capture)
}

#[test]
fn a_capture_of_the_same_bytes_is_equal() {
    for (register_12, _) in WIDTHS {
        let bench = plain(register_12);
        for line in [0, 1, 100, 223] {
            assert_eq!(judged(&bench, line, &[0x25; 320]), Ok(Equal));
        }
    }
}

#[test]
fn the_first_of_several_columns_is_told() {
    for (register_12, width) in WIDTHS {
        let bench = plain(register_12);
        let last = width - 1;
        for (columns, first) in [
            (&[(0, 1)][..], 0),
            (&[(0, 1), (1, 1), (last, 1)], 0),
            (&[(200, 9), (7, 9), (last, 9)], 7),
            (&[(200, 9), (199, 8)], 199),
            (&[(last, 0)], last),
            (&[(last, 0), (last - 1, 0)], last - 1),
        ] {
            assert_eq!(judged_but(&bench, 0x25, columns), Ok(Differs(first as u32)), "{columns:?}");
        }
        assert_eq!(judged(&bench, 0, &[0; 320]), Ok(Differs(0)));
    }
}

/// At 256 the last visible column is 255, and none of the 64 bytes behind it is looked at.
#[test]
fn bytes_past_the_width_are_not_looked_at() {
    let [wide, narrow] = WIDTHS.map(|(register_12, _)| plain(register_12));
    for column in 256..320 {
        for byte in [0, 0x65, 0xFF] {
            assert_eq!(judged_but(&narrow, 0x25, &[(column, byte)]), Ok(Equal));
            let differs = Differs(column as u32);
            assert_eq!(judged_but(&wide, 0x25, &[(column, byte)]), Ok(differs));
        }
    }
    let capture = [vec![0x25; 256], vec![0xFF; 64]].concat();
    assert_eq!(judged(&narrow, 0, &capture), Ok(Equal));
    assert_eq!(judged(&wide, 0, &capture), Ok(Differs(256)));
    let capture = [vec![0x25; 255], vec![0xFF; 65]].concat();
    assert_eq!(judged(&narrow, 0, &capture), Ok(Differs(255)));
}

/// With register 12 bit 3 and low cells the backdrop is at half intensity, 25h + 40h. Of the 256
/// bytes that a column may have one agrees.
#[test]
fn the_whole_byte_is_compared() {
    for (register_12, width) in WIDTHS {
        for (bit_3, byte) in [(0x00, 0x25), (0x08, 0x65)] {
            let bench = plain(register_12 | bit_3);
            for column in [0, 1, width - 1] {
                for other in 0..=255 {
                    let verdict = if other == byte { Equal } else { Differs(column as u32) };
                    assert_eq!(judged_but(&bench, byte, &[(column, other)]), Ok(verdict));
                }
            }
        }
    }
}

/// A sprite on columns 8 to 15, of index 12h, low: half on the backdrop, and normal if it is high.
#[test]
fn an_intensity_alone_differs() {
    let mut bench = plain(0x89);
    bench.pattern(1, 2);
    let line = |shown: u8| [vec![0x65; 8], vec![shown; 8], vec![0x65; 304]].concat();
    for (cell, shown) in [(0x2001, 0x52), (0xA001, 0x12)] {
        bench.sprite(0, 128, 0, 0, cell, 136);
        for byte in [0x12, 0x52, 0x92, 0xD2] {
            let verdict = if byte == shown { Equal } else { Differs(8) };
            assert_eq!(judged(&bench, 0, &line(byte)), Ok(verdict));
        }
        // On line 8 there is no sprite.
        assert_eq!(judged(&bench, 8, &line(shown)), Ok(Differs(8)));
        assert_eq!(judged(&bench, 8, &[0x65; 320]), Ok(Equal));
    }
}

/// A blanked line has the backdrop at normal intensity, whatever else there is.
#[test]
fn a_blanked_line() {
    for (register_12, width) in WIDTHS {
        let mut bench = plain(register_12 | 0x08);
        bench.pattern(1, 2);
        bench.sprite(0, 128, 0, 0, 0x2001, 136);
        assert_eq!(judged(&bench, 0, &[0x25; 320]), Ok(Differs(0)));
        bench.state().registers[1] = 0x04;
        assert_eq!(judged(&bench, 0, &[0x25; 320]), Ok(Equal));
        let last = width - 1;
        assert_eq!(judged_but(&bench, 0x25, &[(last, 0x65)]), Ok(Differs(last as u32)));
    }
}

/// What is wrong with a call: the code of the state, the lengths of VRAM and capture, the line, and
/// register 1; and the number that is answered, the first of 1, 2, 5, 4.
const REFUSALS: [(u8, usize, usize, u32, u8, u8); 16] = [
    (64, 65_536, 320, 0, 0x44, BAD_STATE),
    (64, 65_535, 319, 224, 0x40, BAD_STATE),
    (64, 65_536, 321, 0, 0x44, BAD_STATE),
    (64, 65_536, 320, 224, 0x44, BAD_STATE),
    (64, 65_536, 320, 0, 0x40, BAD_STATE),
    (0, 65_535, 320, 0, 0x44, BAD_BUFFER),
    (0, 65_537, 320, 0, 0x44, BAD_BUFFER),
    (0, 65_536, 319, 0, 0x44, BAD_BUFFER),
    (0, 65_536, 321, 0, 0x44, BAD_BUFFER),
    (0, 65_536, 0, 0, 0x44, BAD_BUFFER),
    (0, 65_536, 256, 0, 0x44, BAD_BUFFER),
    (0, 65_536, 319, 224, 0x40, BAD_BUFFER),
    (0, 65_536, 320, 224, 0x44, NO_SUCH_PLACE),
    (0, 65_536, 320, u32::MAX, 0x40, NO_SUCH_PLACE),
    (0, 65_536, 320, 223, 0x40, NOT_MODELLED),
    (0, 65_536, 320, 0, 0x00, NOT_MODELLED),
];

/// At 256 the capture has to have 320 bytes too. A refused capture is not looked at.
#[test]
fn refusals_in_their_order() {
    for (register_12, _) in WIDTHS {
        for (code, vram, capture, line, register_1, number) in REFUSALS {
            let mut bench = plain(register_12);
            bench.state().code = code;
            bench.state().registers[1] = register_1;
            bench.0.vram.length = vram;
            for byte in [0x25, 0x00] {
                let capture = vec![byte; capture];
                assert_eq!(judged(&bench, line, &capture), Err(number));
                let mut batch = Batch { lines: 7, ..Batch::default() };
                let before = batch;
                let added = batch.add(&bench.0.state, bench.0.vram.lent(), line, &capture);
                assert_eq!((added, batch), (Err(number), before));
            }
        }
    }
}

/// Heights of 224 and 240; the registers that ask for what is not modelled.
#[test]
fn each_line_that_is_drawn_is_judged() {
    for (register_1, height) in [(0x44, 224), (0x4C, 240)] {
        let mut bench = plain(0x81);
        bench.state().registers[1] = register_1;
        for line in [0, 223, 224, 239, 240, 256, 0x1_0000, u32::MAX] {
            let expected = if line < height { Ok(Equal) } else { Err(NO_SUCH_PLACE) };
            assert_eq!(judged(&bench, line, &[0x25; 320]), expected, "{line}");
        }
    }
    for (register, value) in
        [(0, 0x01), (0, 0x08), (1, 0xC4), (1, 0x45), (1, 0x40), (12, 0x80), (12, 0x01)]
            .into_iter()
            .chain([(12, 0x83), (12, 0x85), (16, 0x02), (16, 0x20), (16, 0x31), (16, 0x13)])
    {
        let mut bench = plain(0x81);
        bench.state().registers[register] = value;
        assert_eq!(judged(&bench, 0, &[0x25; 320]), Err(NOT_MODELLED), "{register} {value:02X}");
    }
}

/// "Like a line, it is never busy", and pending, PAL and the flags refuse nothing either.
#[test]
fn a_busy_chip_is_judged_all_the_same() {
    for kind in [IDLE, FILL_WAITING, TRANSFER, FILL, COPY] {
        for pal in [false, true] {
            let mut bench = plain(0x81);
            let registers = bench.state().registers;
            *bench.state() = State { registers, ..flagged(kind, pal) };
            assert!(bench.state().good() && bench.state().pending);
            assert_eq!(judged(&bench, 0, &[0x25; 320]), Ok(Equal));
            assert_eq!(judged_but(&bench, 0x25, &[(9, 0)]), Ok(Differs(9)));
        }
    }
}

/// A screen with a sprite of X 0 and one on columns 40 to 47 after it, on lines 0 to 7.
fn masked_if_used_up(register_12: u8) -> Bench {
    let mut bench = plain(register_12);
    bench.pattern(1, 2);
    bench.sprite(0, 128, 0, 1, 0x0001, 0);
    bench.sprite(1, 128, 0, 0, 0x0001, 168);
    bench
}

/// With used up set the second sprite is masked. Judging leaves the flag, so it says the same again,
/// though a line of 16 pixels that is drawn would clear it.
#[test]
fn used_up_as_it_stands_decides() {
    for (register_12, _) in WIDTHS {
        let mut bench = masked_if_used_up(register_12);
        let shown = [vec![0x25; 40], vec![2; 8], vec![0x25; 272]].concat();
        for (used_up, of_shown, of_masked) in
            [(false, Equal, Differs(40)), (true, Differs(40), Equal)]
        {
            bench.state().used_up = used_up;
            for _ in 0..2 {
                assert_eq!(judged(&bench, 0, &shown), Ok(of_shown));
                assert_eq!(judged(&bench, 0, &[0x25; 320]), Ok(of_masked));
            }
            assert_eq!(bench.state().used_up, used_up);
        }
        assert!(bench.line(0).is_ok() && !bench.state().used_up);
    }
}

/// Twenty-one sprites of 32 pixels, all solid: drawn, the line would set all three flags. Ops 25 and
/// 26 change no flag and no buffer, recorded or not, and count nothing on the tape.
#[test]
fn judging_changes_nothing() {
    for (recorded, count) in [(false, 0), (true, 5), (true, 4_096), (true, 4_097)] {
        let mut bench = plain(0x81);
        (1..5).for_each(|name| bench.pattern(name, 7));
        for number in 0..21 {
            bench.sprite(number, 128, 0x0C, number as u8 + 1, 1, 200);
        }
        bench.0.recorded = recorded;
        bench.0.count = count;
        bench.0.pixels.bytes.fill(0x55);
        bench.0.pixels.length = 9;
        let line = [vec![0x25; 72], vec![7; 32], vec![0x25; 220]].concat();
        bench.0.capture.bytes = line.clone();
        let before = bench.0.clone();
        assert_eq!(bench.call(25, 0, 0, 0), Ok(EQUAL));
        assert_eq!(bench.call(25, 0, 0, 8), Ok(72));
        assert_eq!((bench.call(26, 0, 0, 0), bench.call(26, 0, 0, 8)), (Ok(1), Ok(2)));
        assert_eq!(bench.call(25, 0, 0, 224), Err(NO_SUCH_PLACE));
        assert_eq!((&bench.0.state, bench.0.count), (&before.state, count));
        assert!(bench.0.vram.bytes == before.vram.bytes && bench.0.tape.bytes == before.tape.bytes);
        assert!(bench.0.pixels.bytes == before.pixels.bytes && bench.0.capture.bytes == line);
        bench.0.recorded = false;
        bench.0.pixels.length = 320;
        assert_eq!(bench.line(0), Ok(21));
        let state = bench.state();
        assert!(state.overflow && state.collision && state.used_up);
    }
}

/// A line that is drawn and copied is equal with used up as it was before, at either width, whatever
/// the pixel buffer has past it; and each of its bytes that is spoilt is found.
#[test]
fn what_is_drawn_and_copied_is_equal() {
    for seed in 0..12 {
        let mut machine = Machine::new();
        stream(seed, Kind::Drawing, 400).iter().for_each(|command| {
            machine.apply(command);
        });
        mend(&mut machine);
        let mut maker = Maker::new(seed, Kind::Drawing, 0);
        for _ in 0..6 {
            let line = maker.below(224);
            drawn_and_spoilt(&mut machine, &mut maker, line);
        }
    }
}

/// Lines are drawn, with the other registers as they are.
fn mend(machine: &mut Machine) {
    let registers = machine.state.registers;
    machine.state = State { registers, ..State::fresh(false) };
    for (register, value) in [(0, 0x04), (1, 0x44), (16, 0x01)] {
        machine.state.registers[register] = value;
    }
    machine.state.registers[12] &= 0x08;
    machine.state.registers[12] |= if registers[12] & 1 != 0 { 0x81 } else { 0 };
    machine.vram.length = 65_536;
    machine.pixels.length = 320;
}

fn drawn_and_spoilt(machine: &mut Machine, maker: &mut Maker, line: u32) {
    let before = machine.state.clone();
    machine.apply(&command(8, 0, 0, line));
    machine.apply(&command(40, 0, 0, 0));
    machine.state.used_up = before.used_up;
    assert_eq!(machine.call(&command(25, 0, 0, line)), Ok(EQUAL));
    let width = if before.registers[12] & 1 != 0 { 320 } else { 256 };
    let mut spoilt: Vec<u32> = (0..maker.below(5)).map(|_| maker.below(320)).collect();
    for column in &spoilt {
        let byte = maker.byte().max(1);
        let wrong = machine.pixels.bytes[*column as usize] ^ byte;
        machine.apply(&command(34, wrong, CAPTURE, *column));
    }
    spoilt.retain(|column| *column < width);
    let first = spoilt.iter().min().copied().unwrap_or(EQUAL);
    assert_eq!(machine.call(&command(25, 0, 0, line)), Ok(first));
}

/// "refused exactly as drawing the line would be with the capture as its pixel buffer": on machines
/// that streams of refusals lead to, with captures of any length.
#[test]
fn judging_is_refused_as_drawing_is() {
    let mut numbers = Vec::new();
    for (seed, kind) in (0..6).flat_map(|seed| [(seed, Kind::Refusals), (seed, Kind::Judge)]) {
        let mut machine = Machine::new();
        let mut maker = Maker::new(seed, kind, 0);
        for command in stream(seed, kind, 500) {
            machine.apply(&command);
            let (length, line) = (maker.pick(&[319, 320, 320, 321]), maker.pick(&[0, 223, 240]));
            let mut pixels = vec![0; length];
            let (mut state, vram) = (machine.state.clone(), machine.vram.lent());
            let number = calls::draw_line(&mut state, vram, &mut pixels, None, line).err();
            assert_eq!(judge(&machine.state, vram, line, &pixels).err(), number);
            numbers.extend(number);
        }
    }
    numbers.sort();
    numbers.dedup();
    assert_eq!(numbers, [BAD_STATE, BAD_BUFFER, NOT_MODELLED, NO_SUCH_PLACE]);
}
