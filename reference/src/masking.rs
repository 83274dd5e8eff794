//! Tests of sprites with an X of 0 and of the flag used up, worked out by hand: what is masked,
//! which lines set the flag, what clears and what leaves it, and the records (definition, Sprites:
//! what shows; What a line leaves; The tape).

use crate::answer::{
    Answer, BAD_BUFFER, BAD_RECORD, BAD_STATE, NOT_MODELLED, NO_SUCH_PLACE, TAPE_FULL,
};
use crate::bench::{back_over, Bench};
use crate::check::Checker;
use crate::flags::{flagged, on_bench};
use crate::planes::View;
use crate::sprites;
use crate::state::{State, Vram, COPY, FILL, IDLE, REGISTERS};
use crate::streams::{stream, Kind};

/// A sprite's X as it is stored, and its width in cells.
type Spec = (u16, u8);

/// Columns 0, 40 and 80, so that no two of them meet.
const A: u16 = 128;
const B: u16 = 168;
const C: u16 = 208;
/// Off the screen at both widths, for every width of a sprite.
const LEFT: u16 = 1;
const RIGHT: u16 = 500;

/// A width of the screen: the control word for it, how many sprites of 32 pixels use it up, and how
/// many sprites fit on a line.
struct Size {
    mode: u16,
    fours: usize,
    limit: usize,
}

const SIZES: [Size; 2] =
    [Size { mode: 0x8C81, fours: 10, limit: 20 }, Size { mode: 0x8C00, fours: 8, limit: 16 }];

/// The colour that shows a sprite by its place in its row.
fn colour(place: usize) -> u8 {
    (16 * (place / 15) + place % 15 + 1) as u8
}

/// A screen with rows of sprites one cell high. Row r is on lines 8r to 8r + 7, and all sprites are
/// linked in the order of this list.
fn screen(size: &Size, rows: &[(u16, Vec<Spec>)]) -> Bench {
    let mut bench = Bench::screen();
    bench.control(&[size.mode]);
    for name in 4..64 {
        bench.pattern(name, (name / 4) as u8);
    }
    let count: usize = rows.iter().map(|(_, row)| row.len()).sum();
    let mut number = 0;
    for (row, specs) in rows {
        for (place, (x, cells)) in specs.iter().enumerate() {
            let next = number + 1;
            let link = if next == count { 0 } else { next as u8 };
            let shows = u16::from(colour(place));
            let cell = 0x2000 * (shows / 16) + 4 * (shows % 16);
            bench.sprite(number, 128 + 8 * row, 4 * (cells - 1), link, cell, *x);
            number = next;
        }
    }
    bench
}

/// Draws a line and tells the places of the sprites that are seen on it.
fn seen(bench: &mut Bench, line: u32) -> Vec<usize> {
    bench.0.pixels.bytes.fill(0);
    assert!(bench.line(line).is_ok());
    (0..30).filter(|place| bench.0.pixels.bytes.contains(&colour(*place))).collect()
}

/// Which sprites of a row are seen on line 0, with used up clear before it and with it set. Neither
/// the visits nor the overflow change by it.
fn assert_seen(row: &[Spec], clear: &[usize], set: &[usize]) {
    for size in &SIZES {
        for (used_up, expected) in [(false, clear), (true, set)] {
            let mut bench = screen(size, &[(0, row.to_vec())]);
            bench.state().used_up = used_up;
            assert_eq!(seen(&mut bench, 0), expected, "{row:?}, used up {used_up}");
            bench.state().used_up = used_up;
            assert_eq!(bench.line(0), Ok(row.len() as u32));
            assert!(!bench.state().overflow);
        }
    }
}

/// What line 0 is drawn from.
fn view(bench: &Bench) -> View<'_> {
    let vram = <&Vram>::try_from(bench.0.vram.lent()).expect("65,536 bytes");
    View { state: &bench.0.state, vram, line: 0 }
}

#[test]
fn an_x_0_that_is_first_masks_only_if_used_up_was_set() {
    assert_seen(&[(0, 1), (A, 1)], &[1], &[]);
    assert_seen(&[(0, 4), (A, 4), (B, 2), (C, 1)], &[1, 2, 3], &[]);
}

/// An earlier sprite that is off the screen counts as well. With 32 pixels from X 96 on it ends
/// left of column 0.
#[test]
fn an_x_0_after_another_x_masks() {
    assert_seen(&[(A, 1), (0, 1), (B, 1)], &[0], &[0]);
    assert_seen(&[(A, 4), (B, 3), (0, 2), (C, 1)], &[0, 1], &[0, 1]);
    for x in [LEFT, 64, 96, RIGHT, 511] {
        assert_seen(&[(x, 4), (0, 1), (B, 1)], &[], &[]);
        assert_seen(&[(x, 4), (B, 1)], &[1], &[1]);
    }
}

#[test]
fn two_x_0_that_are_first_mask_no_more_than_one() {
    assert_seen(&[(0, 1), (0, 1), (A, 1)], &[2], &[]);
    assert_seen(&[(0, 4), (0, 1), (0, 2), (A, 1), (B, 1)], &[3, 4], &[]);
}

/// With used up clear the first X 0 masks nothing, and the second one comes after another X, be it
/// off the screen. With it set the other X is masked itself.
#[test]
fn x_0_then_another_x_then_x_0() {
    assert_seen(&[(0, 1), (A, 1), (0, 1), (B, 1)], &[1], &[]);
    assert_seen(&[(0, 1), (A, 1), (0, 1), (B, 1), (0, 1), (C, 1)], &[1], &[]);
    for x in [LEFT, RIGHT] {
        assert_seen(&[(0, 1), (x, 1), (0, 1), (B, 1)], &[], &[]);
        assert_seen(&[(0, 1), (x, 1), (B, 1)], &[2], &[]);
    }
}

/// Which ones are masked shows on no screen here, so the walk is asked.
#[test]
fn another_x_counts_though_it_is_masked_or_has_no_pixels_left() {
    for size in &SIZES {
        let zeros = vec![(0, 4); size.fours];
        let row = [zeros, vec![(A, 1), (0, 1), (B, 1)]].concat();
        let mut bench = screen(size, &[(0, row)]);
        let kept = sprites::walk(&view(&bench)).kept;
        assert_eq!((kept.len(), kept[size.fours].columns), (size.fours + 3, 0));
        let masked: Vec<bool> = kept.iter().map(|kept| kept.masked).collect();
        assert_eq!(masked, [vec![false; size.fours + 2], vec![true]].concat());
        assert_eq!(seen(&mut bench, 0), []);
    }
    let mut bench = screen(&SIZES[0], &[(0, vec![(0, 1), (A, 1), (0, 1), (B, 1)])]);
    bench.state().used_up = true;
    let kept = sprites::walk(&view(&bench)).kept;
    assert_eq!(kept.iter().map(|kept| kept.masked).collect::<Vec<_>>(), [false, true, true, true]);
    bench.state().used_up = false;
    assert!(sprites::masks(&view(&bench), &kept, 2) && !sprites::masks(&view(&bench), &kept, 0));
}

/// X is the low 9 bits of its word: 512 and FE00h are an X of 0, and 256 is not.
#[test]
fn x_is_the_stored_number_of_9_bits() {
    for zero in [512, 1_024, 0x8000, 0xFE00] {
        assert_seen(&[(zero, 1), (A, 1)], &[1], &[]);
        assert_seen(&[(A, 1), (zero, 1), (B, 1)], &[0], &[0]);
        assert_seen(&[(zero, 1), (0, 1), (A, 1)], &[2], &[]);
        assert_seen(&[(zero + A, 1), (0, 1), (B, 1)], &[0], &[0]);
    }
    assert_seen(&[(256, 1), (A, 1)], &[0, 1], &[0, 1]);
    assert_seen(&[(A, 1), (256, 1), (B, 1)], &[0, 1, 2], &[0, 1, 2]);
}

/// On line 0 only row 0 is kept, though the walk comes to row 1 first or between.
#[test]
fn a_sprite_that_is_not_on_the_line_neither_masks_nor_counts() {
    for size in &SIZES {
        let mut bench = screen(size, &[(1, vec![(A, 1)]), (0, vec![(0, 1), (B, 1)])]);
        assert_eq!(seen(&mut bench, 0), [1]);
        let rows = [(0, vec![(A, 1)]), (1, vec![(0, 1)]), (0, vec![(RIGHT, 1), (B, 1)])];
        let mut bench = screen(size, &rows);
        bench.state().used_up = true;
        assert_eq!(seen(&mut bench, 0), [0, 1]);
        assert_eq!((bench.state().used_up, bench.line(0)), (false, Ok(4)));
    }
}

/// 19 x 16 + 8 = 312 at 320 and 15 x 16 + 8 = 248 at 256. One more sprite would use up the rest,
/// but the walk ends at it with overflow.
#[test]
fn a_sprite_too_many_neither_masks_nor_counts() {
    for size in &SIZES {
        let kept = [vec![(A, 2); size.limit - 2], vec![(B, 2), (C, 1)]].concat();
        for one_more in [(0, 1), (B, 1), (B, 4), (RIGHT, 4)] {
            for used_up in [false, true] {
                let row = [kept.clone(), vec![one_more, (RIGHT, 4)]].concat();
                let mut bench = screen(size, &[(0, row)]);
                bench.state().used_up = used_up;
                assert_eq!(seen(&mut bench, 0), [0, size.limit - 2, size.limit - 1]);
                assert!(bench.state().overflow && !bench.state().used_up);
                assert_eq!(bench.line(0), Ok(size.limit as u32 + 1));
            }
        }
    }
}

/// Masked sprites collide with nothing.
#[test]
fn a_collision_only_of_sprites_that_are_not_masked() {
    for (used_up, collision) in [(false, true), (true, false)] {
        let mut bench = screen(&SIZES[0], &[(0, vec![(0, 1), (A, 1), (A, 1)])]);
        bench.state().used_up = used_up;
        assert_eq!((bench.line(0), bench.state().collision), (Ok(3), collision));
    }
}

/// Where the sprites of a line are: on the screen, off it, all at X 0, or the second at X 0, so
/// that it masks those after it.
const PLACES: [fn(usize) -> u16; 6] = [
    |_| A,
    |_| LEFT,
    |_| RIGHT,
    |_| 0,
    |place| if place == 1 { 0 } else { A },
    |place| if place % 2 == 0 { RIGHT } else { 0 },
];

/// Widths of a line's sprites in cells, and whether they use up its pixels. The widths are
/// multiples of 8 pixels, so the greatest sum below 320 (256) is 312 (248).
fn sums(size: &Size) -> [(Vec<u8>, bool); 12] {
    let (fours, limit) = (size.fours, size.limit);
    [
        (vec![4; fours], true),
        ([vec![4; fours - 1], vec![3]].concat(), false),
        ([vec![4; fours - 1], vec![3, 1]].concat(), true),
        ([vec![4; fours - 1], vec![3, 2]].concat(), true),
        ([vec![3], vec![4; fours - 1], vec![1]].concat(), true),
        (vec![4; fours - 1], false),
        (vec![4; fours + 1], true),
        (vec![4; limit], true),
        (vec![2; limit], true),
        ([vec![2; limit - 1], vec![1]].concat(), false),
        (vec![1; limit], false),
        (vec![], false),
    ]
}

#[test]
fn a_line_sets_used_up_from_its_width_on_and_else_clears_it() {
    for size in &SIZES {
        for (cells, expected) in sums(size) {
            for x in PLACES {
                let row = cells.iter().enumerate().map(|(place, cells)| (x(place), *cells));
                let mut bench = screen(size, &[(0, row.collect())]);
                for before in [false, true] {
                    bench.state().used_up = before;
                    assert!(bench.line(0).is_ok());
                    assert_eq!(bench.state().used_up, expected, "{cells:?} at {}", x(0));
                }
            }
        }
    }
}

/// Eight sprites of 32 pixels use up a line at 256 and not at 320.
#[test]
fn the_width_is_that_of_the_line() {
    for (size, used_up) in SIZES.iter().zip([false, true]) {
        let mut bench = screen(size, &[(0, vec![(A, 4); 8])]);
        assert_eq!((bench.line(0), bench.state().used_up), (Ok(8), used_up));
    }
}

/// All else stays, with something in every field. The sprites are off the screen, so there is no
/// collision.
#[test]
fn a_line_changes_no_field_but_the_flags() {
    for (fours, used_up) in [(9, false), (10, true)] {
        let mut bench = screen(&SIZES[0], &[(0, vec![(RIGHT, 4); fours])]);
        let registers = bench.state().registers;
        let before = State { registers, overflow: false, collision: false, ..flagged(COPY, true) };
        *bench.state() = before.clone();
        assert_eq!(bench.line(0), Ok(fours as u32));
        assert_eq!(*bench.state(), State { used_up, ..before });
    }
}

/// Row 0 uses up its pixels, and row 1 begins with an X 0.
fn two_rows(size: &Size) -> Bench {
    screen(size, &[(0, vec![(A, 4); size.fours]), (1, vec![(0, 1), (B, 1)])])
}

/// Line 8 has no more than 16 pixels of sprites, so drawn again it masks nothing.
#[test]
fn the_line_after_one_that_used_up_its_pixels_masks() {
    for size in &SIZES {
        let mut bench = two_rows(size);
        assert_eq!(seen(&mut bench, 8), [1]);
        assert_eq!((seen(&mut bench, 0), seen(&mut bench, 8)), (vec![0], vec![]));
        assert_eq!((seen(&mut bench, 9), seen(&mut bench, 8)), (vec![1], vec![1]));
    }
}

/// The worked case: ten sprites of 32 pixels, nine, and nine with one of 24; used up is set before.
#[test]
fn ten_nine_and_nine_and_a_narrower_one() {
    for (row, masks) in [
        (vec![(A, 4); 10], true),
        (vec![(A, 4); 9], false),
        ([vec![(A, 4); 9], vec![(A, 3)]].concat(), false),
    ] {
        let mut bench = screen(&SIZES[0], &[(0, row), (1, vec![(0, 1), (B, 1)])]);
        bench.state().used_up = true;
        assert!(bench.line(7).is_ok());
        assert_eq!(bench.state().used_up, masks);
        assert_eq!(seen(&mut bench, 8), if masks { vec![] } else { vec![1] });
    }
}

/// The flag is asked "whichever line was drawn before, and on line 0 too": line 223, or line 0.
#[test]
fn line_0_takes_the_flag_as_it_stands() {
    for size in &SIZES {
        let used_up = vec![(A, 4); size.fours];
        let mut bench = screen(size, &[(27, used_up), (0, vec![(0, 1), (B, 1)])]);
        assert_eq!((seen(&mut bench, 223), seen(&mut bench, 0)), (vec![0], vec![]));
        assert_eq!(seen(&mut bench, 0), [1]);
        let itself = [vec![(0, 4), (B, 4)], vec![(RIGHT, 4); size.fours - 2]].concat();
        let mut bench = screen(size, &[(0, itself)]);
        assert_eq!((seen(&mut bench, 0), seen(&mut bench, 0)), (vec![1], vec![]));
        assert!(bench.state().used_up);
    }
}

fn blanked(bench: &mut Bench) {
    bench.control(&[0x8104]);
    assert_eq!(bench.line(100), Ok(0));
    bench.control(&[0x8144]);
}

/// What comes between a line that used up its pixels and one that begins with an X 0, and whether
/// that one masks.
type Between = (fn(&mut Bench), bool);

const BETWEEN: [Between; 7] = [
    (|_| (), true),
    (blanked, false),
    (|bench| assert_eq!(bench.frame(), Ok(0)), false),
    (|bench| assert_eq!(bench.status(), Ok(0x3620)), true),
    (|bench| assert_eq!(bench.line(224), Err(NO_SUCH_PLACE)), true),
    (|bench| assert_eq!((bench.begins(), bench.run(5)), (Ok(0), Ok(0))), true),
    (|bench| bench.control(&[0x8F02, 0x4000, 0x0000]), true),
];

/// The sprites of line 0 are all at the same place, so they collide.
#[test]
fn what_comes_between_two_lines() {
    for size in &SIZES {
        for (place, (between, masks)) in BETWEEN.iter().enumerate() {
            for recorded in [false, true] {
                let mut bench = two_rows(size);
                bench.0.recorded = recorded;
                assert_eq!(seen(&mut bench, 0), [0]);
                between(&mut bench);
                assert_eq!(bench.state().used_up, *masks, "case {place}");
                assert_eq!(seen(&mut bench, 8), if *masks { vec![] } else { vec![1] });
            }
        }
    }
}

#[test]
fn a_blanked_line_clears_used_up_and_nothing_else() {
    for used_up in [false, true] {
        let mut bench = two_rows(&SIZES[0]);
        let before = State { registers: blanking(), used_up, ..flagged(COPY, true) };
        *bench.state() = before.clone();
        assert_eq!(bench.line(0), Ok(0));
        assert_eq!(*bench.state(), State { used_up: false, ..before });
    }
}

/// Registers with which a line is modelled and blanked.
fn blanking() -> [u8; REGISTERS] {
    let mut registers = [0; REGISTERS];
    registers[1] = 0x04;
    registers
}

/// Ports, DMA units, lines that begin, acknowledges and the two reads leave it; op, a and kind.
#[test]
fn other_calls_leave_used_up() {
    let ports = (1..=6).map(|op| (op, 0x8F, IDLE));
    let timing = [(13, 0), (14, 4), (15, 0), (16, 0)].map(|(op, a)| (op, a, COPY));
    let runs = [(7, 0, FILL), (7, 0, COPY)];
    for (op, a, kind) in ports.chain(timing).chain(runs) {
        for (used_up, recorded) in [(false, false), (false, true), (true, false), (true, true)] {
            let mut bench = on_bench(&State { used_up, ..flagged(kind, false) });
            bench.0.recorded = recorded;
            assert!(bench.call(op, a, 0x8F02, 3).is_ok(), "op {op}");
            assert_eq!(bench.state().used_up, used_up, "op {op}");
        }
    }
}

/// Makes a line refused; with the line's number and the answer.
type Fault = (fn(&mut Bench), u32, Answer);

const FAULTS: [Fault; 8] = [
    (|bench| bench.state().code = 64, 0, BAD_STATE),
    (|bench| bench.0.vram.length = 65_535, 0, BAD_BUFFER),
    (|bench| bench.0.pixels.length = 319, 0, BAD_BUFFER),
    (|bench| bench.0.count = 4_097, 0, BAD_BUFFER),
    (|_| (), 224, NO_SUCH_PLACE),
    (|bench| bench.state().registers[16] = 2, 0, NOT_MODELLED),
    (|bench| bench.state().registers[1] = 0, 0, NOT_MODELLED),
    (|bench| bench.0.count = 4_096, 0, TAPE_FULL),
];

/// Line 0 would set the flag and line 8 would clear it; 4,096 records are all that fit.
#[test]
fn a_refused_line_changes_nothing() {
    for (fault, beyond, number) in FAULTS {
        for (line, used_up) in [(0, false), (0, true), (8, false), (8, true)] {
            let mut bench = two_rows(&SIZES[0]);
            bench.0.recorded = true;
            bench.state().used_up = used_up;
            bench.0.pixels.bytes.fill(0x55);
            fault(&mut bench);
            let before = bench.0.clone();
            assert_eq!(bench.line(line + beyond), Err(number));
            assert_eq!((&bench.0.state, bench.0.count), (&before.state, before.count));
            assert!(bench.0.pixels.bytes == before.pixels.bytes);
            assert!(bench.0.tape.bytes == before.tape.bytes);
        }
    }
}

/// Byte 20 of the record has 4 if used up was set before the line, plus what the flags had.
#[test]
fn a_step_back_over_a_line_gives_used_up_back() {
    for (line, after) in [(0, true), (8, false), (16, false)] {
        for (used_up, overflow, byte) in
            [(false, false, 0), (true, false, 4), (true, true, 5), (false, true, 1)]
        {
            let mut bench = two_rows(&SIZES[1]);
            bench.0.recorded = true;
            bench.state().used_up = used_up;
            bench.state().overflow = overflow;
            let before = bench.state().clone();
            assert!(bench.line(line).is_ok());
            assert_eq!((bench.state().used_up, bench.0.count), (after, 1));
            assert_eq!(bench.0.tape.bytes[..8], [3, 0, 32, 0, 0, 0, 0, 0]);
            assert_eq!(bench.0.tape.bytes[20], byte);
            assert_eq!((bench.back(1), bench.0.count), (Ok(0), 0));
            assert_eq!(*bench.state(), before);
        }
    }
}

/// Line 0 sets it, line 8 clears it, and line 8 again leaves it clear. Drawn after a step back,
/// line 8 masks if the flag is as it was between the first two.
#[test]
fn what_is_seen_after_a_step_back() {
    for size in &SIZES {
        let mut bench = two_rows(size);
        bench.0.recorded = true;
        assert_eq!(seen(&mut bench, 0), [0]);
        assert_eq!((seen(&mut bench, 8), seen(&mut bench, 8)), (vec![], vec![1]));
        assert_eq!((bench.back(1), seen(&mut bench, 8)), (Ok(0), vec![1]));
        assert_eq!((bench.back(2), seen(&mut bench, 8)), (Ok(0), vec![]));
        assert_eq!((bench.back(2), seen(&mut bench, 8)), (Ok(0), vec![1]));
        assert_eq!(bench.0.count, 1);
    }
}

/// A blanked line and a new frame clear it, and a step back over either sets it again.
#[test]
fn a_step_back_over_a_blanked_line_and_over_a_new_frame() {
    for op in [8, 9] {
        let before = State { registers: blanking(), ..flagged(IDLE, false) };
        let mut bench = on_bench(&before);
        bench.0.recorded = true;
        assert_eq!((bench.call(op, 0, 0, 0), bench.state().used_up), (Ok(0), false));
        assert_eq!((bench.0.tape.bytes[20], bench.back(1)), (7, Ok(0)));
        assert_eq!(*bench.state(), before);
    }
}

const NEW_FRAME: u8 = 9;

#[test]
fn byte_20_of_a_record_is_not_above_7() {
    let fresh = State::fresh(false);
    for byte in 0..=7 {
        let [overflow, collision, used_up] = [1, 2, 4].map(|bit| byte & bit != 0);
        let expected = State { overflow, collision, used_up, ..fresh };
        assert_eq!(back_over(NEW_FRAME, &[(20, byte)]), (Ok(0), expected));
    }
    for byte in 8..=255 {
        assert_eq!(back_over(NEW_FRAME, &[(20, byte)]), (Err(BAD_RECORD), fresh.clone()));
    }
}

/// Also with what such records had: version 2 no 4 in byte 20, version 1 no timing either.
#[test]
fn a_record_of_another_version_than_3_is_bad() {
    for version in (0..=255).filter(|version| *version != 3) {
        let fresh = State::fresh(false);
        for changes in [
            [(0, version)].as_slice(),
            &[(0, version), (20, 3)],
            &[(0, version), (20, 4)],
            &[(0, version), (21, 0), (22, 0)],
        ] {
            assert_eq!(
                back_over(NEW_FRAME, changes),
                (Err(BAD_RECORD), fresh.clone()),
                "{changes:?}"
            );
        }
    }
    assert_eq!(back_over(NEW_FRAME, &[(0, 3)]), (Ok(0), State::fresh(false)));
}

/// The first of two records is of version 2, so a step back over both takes back none.
#[test]
fn a_record_of_version_2_below_a_good_one() {
    let mut bench = two_rows(&SIZES[0]);
    bench.0.recorded = true;
    assert_eq!((seen(&mut bench, 0), seen(&mut bench, 8)), (vec![0], vec![]));
    bench.0.tape.bytes[0] = 2;
    assert_eq!((bench.back(2), bench.0.count), (Err(BAD_RECORD), 2));
    assert!(!bench.state().used_up);
    assert_eq!((bench.back(1), bench.0.count), (Ok(0), 1));
    assert!(bench.state().used_up);
    assert_eq!((bench.back(1), bench.0.count), (Err(BAD_RECORD), 1));
}

/// Streams with recorded lines that set and clear it, and step backs over them, agree with full
/// copies of every moment. Some of the changes may lie where no book applies.
#[test]
fn the_book_follows_used_up() {
    for kind in [Kind::Tape, Kind::Mix] {
        let (mut by_lines, mut by_backs) = (0, 0);
        for seed in 200..212 {
            let mut checker = Checker::new();
            for command in stream(seed, kind, 1_200) {
                let (checked, then) = (checker.checked, checker.machine.state.used_up);
                assert_eq!(checker.apply(&command).1, None, "{kind:?} {seed}: {command:?}");
                let followed = checker.checked > checked;
                let changed = followed && then != checker.machine.state.used_up;
                by_lines += u32::from(changed && command.op == 8);
                by_backs += u32::from(changed && command.op == 10);
            }
        }
        assert!(by_lines > 20 && by_backs > 20, "{kind:?}: {by_lines} and {by_backs}");
    }
}

/// Of a GOOD state it is said that "used up is tied to nothing".
#[test]
fn a_fresh_state_has_used_up_clear_and_every_state_may_have_it_set() {
    assert!(!State::fresh(false).used_up && !State::fresh(true).used_up);
    for kind in [IDLE, FILL, COPY] {
        for used_up in [false, true] {
            assert!(State { used_up, ..flagged(kind, false) }.good());
            assert!(State { used_up, ..State::fresh(true) }.good());
        }
    }
}
