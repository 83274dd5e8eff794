//! Tests of register 12 bit 3, worked out by hand: lines at both widths, in the columns of plane A
//! and in those of the window, each also with the bit clear (definition, Shadow and highlight).
//! A byte of 40h more is half, of 80h more double.

use crate::bench::Bench;

/// Eight columns of a line: the cell of plane A or of the window, the cell of plane B, the sprites'
/// cells in the order of the walk; the byte that they show with bit 3 set, and with it clear.
pub type Block<'a> = (u16, u16, &'a [u16], u8, u8);

/// A low cell or sprite of one colour index; pattern n is all pixels n, and pattern 0 is clear.
pub const fn low(index: u16) -> u16 {
    0x2000 * (index / 16) + index % 16
}

pub const fn high(index: u16) -> u16 {
    0x8000 + low(index)
}

pub const CLEAR: u16 = low(0);
pub const HIGH_CLEAR: u16 = high(0);

/// Another backdrop than any pixel of the cases.
pub const BACKDROP: u8 = 0x25;

/// Register 12 at the two widths, and the widths.
const WIDTHS: [(u8, usize); 2] = [(0x81, 320), (0x00, 256)];

pub const BIT_3: u8 = 0x08;

/// Where a case is worked: register 12, and whether the window takes the place of plane A there.
#[derive(Clone, Copy, Debug)]
pub struct Place {
    pub register_12: u8,
    pub width: usize,
    pub windowed: bool,
}

/// Both widths, with plane A and with the window, without bit 3.
pub fn places() -> Vec<Place> {
    let mut places = Vec::new();
    for (register_12, width) in WIDTHS {
        for windowed in [false, true] {
            places.push(Place { register_12, width, windowed });
        }
    }
    places
}

/// A screen with 64 x 32 cells, the scrolls at B000h, and the window on the left columns, as many
/// as asked for, or on none.
pub fn screen(place: Place, columns: usize) -> Bench {
    let mut bench = Bench::screen();
    let window = if place.windowed { columns.div_ceil(16) as u8 } else { 0 };
    bench.control(&[0x8D2C, 0x9001]);
    bench.state().registers[7] = BACKDROP;
    bench.state().registers[12] = place.register_12;
    bench.state().registers[17] = window;
    for pixel in 1..16 {
        bench.pattern(pixel, pixel as u8);
    }
    bench
}

/// Writes the cell on columns 8 x number on, of the table at this base, for line 0.
pub fn cell(bench: &mut Bench, base: usize, number: usize, word: u16) {
    let at = base + 2 * number;
    bench.vram()[at..at + 2].copy_from_slice(&word.to_be_bytes());
}

pub const PLANE_A: usize = 0xE000;
pub const PLANE_B: usize = 0xC000;
pub const WINDOW: usize = 0xF000;

/// The tables of plane A and the window: first the one that shows.
pub fn fronts(place: Place) -> [usize; 2] {
    if place.windowed {
        [WINDOW, PLANE_A]
    } else {
        [PLANE_A, WINDOW]
    }
}

/// Puts the blocks on line 0, side by side, with this cell on the same columns of the one of plane
/// A and window that does not show.
pub fn lay_out(place: Place, blocks: &[Block], unseen: u16) -> Bench {
    let mut bench = screen(place, 8 * blocks.len());
    let count: usize = blocks.iter().map(|block| block.2.len()).sum();
    let [shown, other] = fronts(place);
    let mut number = 0;
    for (column, (front, b, sprites, _, _)) in blocks.iter().enumerate() {
        cell(&mut bench, shown, column, *front);
        cell(&mut bench, other, column, unseen);
        cell(&mut bench, PLANE_B, column, *b);
        for sprite in *sprites {
            let link = if number + 1 == count { 0 } else { number as u8 + 1 };
            bench.sprite(number, 128, 0, link, *sprite, 128 + 8 * column as u16);
            number += 1;
        }
    }
    bench
}

/// Draws line 0 over bytes of 55h. Those past the width stay.
pub fn drawn(bench: &mut Bench, width: usize) -> Vec<u8> {
    bench.0.pixels.bytes.fill(0x55);
    assert!(bench.line(0).is_ok());
    assert!(bench.0.pixels.bytes[width..].iter().all(|byte| *byte == 0x55));
    bench.0.pixels.bytes[..width].to_vec()
}

/// Eight columns of each byte, and the backdrop with this intensity on the others.
fn line_of(bytes: impl Iterator<Item = u8>, intensity: u8, width: usize) -> Vec<u8> {
    let mut line: Vec<u8> = bytes.flat_map(|byte| [byte; 8]).collect();
    line.resize(width, BACKDROP + intensity);
    line
}

/// Draws the blocks everywhere, with bit 3 set and with it clear; what the line leaves is the same.
/// What plane A or the window has where it does not show is not asked, be it clear or solid.
fn assert_blocks(blocks: &[Block]) {
    for place in places() {
        for unseen in [CLEAR, HIGH_CLEAR, low(0x33), high(0x33)] {
            let mut bench = lay_out(place, blocks, unseen);
            let plain = line_of(blocks.iter().map(|block| block.4), 0, place.width);
            assert_eq!(drawn(&mut bench, place.width), plain, "{place:?}, bit 3 clear");
            let left = bench.state().clone();
            assert!(!left.overflow && !left.used_up);
            let mut bench = lay_out(place, blocks, unseen);
            bench.state().registers[12] |= BIT_3;
            let shaded = line_of(blocks.iter().map(|block| block.3), 0x40, place.width);
            assert_eq!(drawn(&mut bench, place.width), shaded, "{place:?}, unseen {unseen:04X}");
            bench.state().registers[12] &= !BIT_3;
            assert_eq!(*bench.state(), left);
        }
    }
}

/// Item 1: "Backdrop and planes are at half intensity, or at normal intensity if the cell there of
/// plane A or of plane B has priority", solid or clear.
#[test]
fn backdrop_and_planes_without_sprites() {
    assert_blocks(&[
        (CLEAR, CLEAR, &[], 0x65, 0x25),
        (HIGH_CLEAR, CLEAR, &[], 0x25, 0x25),
        (CLEAR, HIGH_CLEAR, &[], 0x25, 0x25),
        (HIGH_CLEAR, HIGH_CLEAR, &[], 0x25, 0x25),
        (low(0x11), CLEAR, &[], 0x51, 0x11),
        (low(0x11), HIGH_CLEAR, &[], 0x11, 0x11),
        (high(0x11), CLEAR, &[], 0x11, 0x11),
        (CLEAR, low(0x22), &[], 0x62, 0x22),
        (HIGH_CLEAR, low(0x22), &[], 0x22, 0x22),
        (CLEAR, high(0x22), &[], 0x22, 0x22),
        (low(0x11), low(0x22), &[], 0x51, 0x11),
        (high(0x11), low(0x22), &[], 0x11, 0x11),
        (low(0x11), high(0x22), &[], 0x22, 0x22),
        (high(0x11), high(0x22), &[], 0x11, 0x11),
    ]);
}

/// "The indexes 3Eh and 3Fh of planes and backdrop are ordinary", and so are those that end in Eh.
#[test]
fn planes_of_the_operators_indexes() {
    assert_blocks(&[
        (low(0x3E), CLEAR, &[], 0x7E, 0x3E),
        (low(0x3F), CLEAR, &[], 0x7F, 0x3F),
        (high(0x3E), CLEAR, &[], 0x3E, 0x3E),
        (high(0x3F), CLEAR, &[], 0x3F, 0x3F),
        (CLEAR, low(0x3E), &[], 0x7E, 0x3E),
        (CLEAR, low(0x3F), &[], 0x7F, 0x3F),
        (CLEAR, high(0x3E), &[], 0x3E, 0x3E),
        (CLEAR, high(0x3F), &[], 0x3F, 0x3F),
        (low(0x1E), low(0x3F), &[], 0x5E, 0x1E),
        (low(0x3F), HIGH_CLEAR, &[], 0x3F, 0x3F),
        (low(0x3F), CLEAR, &[low(0x3F)], 0x3F, 0x3F),
        (low(0x3E), CLEAR, &[low(0x3E)], 0x7E, 0x3E),
        (high(0x3E), CLEAR, &[high(0x3F)], 0xBE, 0x3F),
        (CLEAR, high(0x3F), &[high(0x3E)], 0x7F, 0x3E),
    ]);
}

#[test]
fn a_backdrop_of_the_operators_indexes() {
    for place in places() {
        for (backdrop, shaded) in [(0x3E, 0x7E), (0x3F, 0x7F), (0x2E, 0x6E), (0xFF, 0x7F)] {
            let mut bench = lay_out(place, &[(HIGH_CLEAR, CLEAR, &[], 0, 0)], CLEAR);
            bench.state().registers[7] = backdrop;
            let plain = backdrop & 0x3F;
            assert_eq!(drawn(&mut bench, place.width), vec![plain; place.width]);
            bench.state().registers[12] |= BIT_3;
            let line = [vec![plain; 8], vec![shaded; place.width - 8]].concat();
            assert_eq!(drawn(&mut bench, place.width), line);
        }
    }
}

/// Items 2 and 3: 3Eh is not drawn, and what shows there is half, if it lies in front.
#[test]
fn the_operator_3e() {
    assert_blocks(&[
        (CLEAR, CLEAR, &[low(0x3E)], 0x65, 0x3E),
        (CLEAR, CLEAR, &[high(0x3E)], 0x65, 0x3E),
        (low(0x11), low(0x22), &[low(0x3E)], 0x51, 0x3E),
        (CLEAR, low(0x22), &[high(0x3E)], 0x62, 0x3E),
        // A clear pixel of a high cell: a low one acts as a high one does.
        (HIGH_CLEAR, CLEAR, &[low(0x3E)], 0x65, 0x3E),
        (HIGH_CLEAR, CLEAR, &[high(0x3E)], 0x65, 0x3E),
        (low(0x11), HIGH_CLEAR, &[low(0x3E)], 0x51, 0x3E),
        (HIGH_CLEAR, low(0x22), &[low(0x3E)], 0x62, 0x3E),
        // A solid high pixel: a low one does nothing.
        (high(0x11), CLEAR, &[low(0x3E)], 0x11, 0x11),
        (high(0x11), CLEAR, &[high(0x3E)], 0x51, 0x3E),
        (CLEAR, high(0x22), &[low(0x3E)], 0x22, 0x22),
        (CLEAR, high(0x22), &[high(0x3E)], 0x62, 0x3E),
        (low(0x11), high(0x22), &[low(0x3E)], 0x22, 0x22),
        (low(0x11), high(0x22), &[high(0x3E)], 0x62, 0x3E),
        (high(0x11), high(0x22), &[high(0x3E)], 0x51, 0x3E),
        (HIGH_CLEAR, high(0x22), &[low(0x3E)], 0x22, 0x22),
    ]);
}

/// The same for 3Fh, which makes half normal and normal double.
#[test]
fn the_operator_3f() {
    assert_blocks(&[
        (CLEAR, CLEAR, &[low(0x3F)], 0x25, 0x3F),
        (CLEAR, CLEAR, &[high(0x3F)], 0x25, 0x3F),
        (low(0x11), low(0x22), &[low(0x3F)], 0x11, 0x3F),
        (CLEAR, low(0x22), &[high(0x3F)], 0x22, 0x3F),
        // A clear pixel of a high cell: a low one acts as a high one does.
        (HIGH_CLEAR, CLEAR, &[low(0x3F)], 0xA5, 0x3F),
        (HIGH_CLEAR, CLEAR, &[high(0x3F)], 0xA5, 0x3F),
        (low(0x11), HIGH_CLEAR, &[low(0x3F)], 0x91, 0x3F),
        (HIGH_CLEAR, low(0x22), &[low(0x3F)], 0xA2, 0x3F),
        // A solid high pixel: a low one does nothing.
        (high(0x11), CLEAR, &[low(0x3F)], 0x11, 0x11),
        (high(0x11), CLEAR, &[high(0x3F)], 0x91, 0x3F),
        (CLEAR, high(0x22), &[low(0x3F)], 0x22, 0x22),
        (CLEAR, high(0x22), &[high(0x3F)], 0xA2, 0x3F),
        (low(0x11), high(0x22), &[low(0x3F)], 0x22, 0x22),
        (low(0x11), high(0x22), &[high(0x3F)], 0xA2, 0x3F),
        (high(0x11), high(0x22), &[high(0x3F)], 0x91, 0x3F),
        (HIGH_CLEAR, high(0x22), &[low(0x3F)], 0x22, 0x22),
    ]);
}

/// Of the other sprites in front a low one keeps the intensity there, and a high one is normal.
#[test]
fn other_sprites() {
    assert_blocks(&[
        (CLEAR, CLEAR, &[low(0x07)], 0x47, 0x07),
        (low(0x11), low(0x22), &[low(0x07)], 0x47, 0x07),
        (HIGH_CLEAR, CLEAR, &[low(0x07)], 0x07, 0x07),
        (CLEAR, HIGH_CLEAR, &[low(0x07)], 0x07, 0x07),
        (low(0x11), HIGH_CLEAR, &[low(0x07)], 0x07, 0x07),
        (high(0x11), CLEAR, &[low(0x07)], 0x11, 0x11),
        (CLEAR, high(0x22), &[low(0x07)], 0x22, 0x22),
        (low(0x11), high(0x22), &[low(0x07)], 0x22, 0x22),
        (CLEAR, CLEAR, &[high(0x07)], 0x07, 0x07),
        (low(0x11), low(0x22), &[high(0x07)], 0x07, 0x07),
        (HIGH_CLEAR, CLEAR, &[high(0x07)], 0x07, 0x07),
        (high(0x11), CLEAR, &[high(0x07)], 0x07, 0x07),
        (CLEAR, high(0x22), &[high(0x07)], 0x07, 0x07),
        // A clear pixel of a high sprite is nothing.
        (CLEAR, CLEAR, &[HIGH_CLEAR], 0x65, 0x25),
        (low(0x11), CLEAR, &[high(0x30)], 0x51, 0x11),
    ]);
}

/// Low four bits of 14 in palettes 0 to 2; 15 in them, and 13 in palette 3, are like any other.
#[test]
fn sprites_with_low_four_bits_14() {
    assert_blocks(&[
        (CLEAR, CLEAR, &[low(0x0E)], 0x0E, 0x0E),
        (CLEAR, CLEAR, &[low(0x1E)], 0x1E, 0x1E),
        (CLEAR, CLEAR, &[low(0x2E)], 0x2E, 0x2E),
        (low(0x11), CLEAR, &[low(0x0E)], 0x0E, 0x0E),
        (CLEAR, low(0x22), &[low(0x2E)], 0x2E, 0x2E),
        (HIGH_CLEAR, CLEAR, &[low(0x1E)], 0x1E, 0x1E),
        (high(0x11), CLEAR, &[low(0x1E)], 0x11, 0x11),
        (CLEAR, high(0x22), &[low(0x2E)], 0x22, 0x22),
        (high(0x11), CLEAR, &[high(0x0E)], 0x0E, 0x0E),
        (CLEAR, CLEAR, &[low(0x0F)], 0x4F, 0x0F),
        (CLEAR, CLEAR, &[low(0x1F)], 0x5F, 0x1F),
        (CLEAR, CLEAR, &[low(0x2F)], 0x6F, 0x2F),
        (CLEAR, CLEAR, &[low(0x3D)], 0x7D, 0x3D),
        (CLEAR, CLEAR, &[high(0x3D)], 0x3D, 0x3D),
        (HIGH_CLEAR, CLEAR, &[low(0x2F)], 0x2F, 0x2F),
    ]);
}

/// An operator behind "an earlier solid dot of a sprite does no more than collide", also where a
/// high plane hides that dot.
#[test]
fn an_operator_behind_an_earlier_sprite() {
    assert_blocks(&[
        (CLEAR, CLEAR, &[low(0x07), low(0x3F)], 0x47, 0x07),
        (CLEAR, CLEAR, &[low(0x07), high(0x3F)], 0x47, 0x07),
        (HIGH_CLEAR, CLEAR, &[low(0x07), high(0x3E)], 0x07, 0x07),
        (CLEAR, CLEAR, &[high(0x07), high(0x3E)], 0x07, 0x07),
        (low(0x11), CLEAR, &[low(0x0E), high(0x3E)], 0x0E, 0x0E),
        (high(0x11), CLEAR, &[low(0x07), high(0x3E)], 0x11, 0x11),
        (CLEAR, high(0x22), &[low(0x07), high(0x3F)], 0x22, 0x22),
        // An earlier clear pixel keeps nothing back.
        (CLEAR, CLEAR, &[HIGH_CLEAR, low(0x3F)], 0x25, 0x3F),
    ]);
}

/// An operator "keeps its column from the sprites after it", also where it does nothing.
#[test]
fn an_operator_before_a_later_sprite() {
    assert_blocks(&[
        (CLEAR, CLEAR, &[low(0x3E), high(0x07)], 0x65, 0x3E),
        (CLEAR, CLEAR, &[low(0x3F), high(0x07)], 0x25, 0x3F),
        (HIGH_CLEAR, CLEAR, &[low(0x3E), high(0x07)], 0x65, 0x3E),
        (low(0x11), HIGH_CLEAR, &[low(0x3F), high(0x07)], 0x91, 0x3F),
        (high(0x11), CLEAR, &[low(0x3E), high(0x07)], 0x11, 0x11),
        (CLEAR, high(0x22), &[low(0x3F), high(0x3E)], 0x22, 0x22),
        (HIGH_CLEAR, CLEAR, &[low(0x3E), high(0x3F)], 0x65, 0x3E),
        (HIGH_CLEAR, CLEAR, &[low(0x3F), high(0x3E)], 0xA5, 0x3F),
    ]);
}

/// Two operators collide, and an operator with another sprite, "whether or not it does anything".
#[test]
fn operators_count_for_the_collision() {
    let rows: [(u16, &[u16], bool); 9] = [
        (CLEAR, &[low(0x3E), low(0x3E)], true),
        (CLEAR, &[low(0x3F), high(0x3E)], true),
        (high(0x11), &[low(0x3E), low(0x3F)], true),
        (high(0x11), &[low(0x07), low(0x3F)], true),
        (CLEAR, &[low(0x3F), low(0x07)], true),
        (CLEAR, &[high(0x07), high(0x3E)], true),
        (CLEAR, &[low(0x3E)], false),
        (CLEAR, &[low(0x3F), HIGH_CLEAR], false),
        (CLEAR, &[high(0x30), high(0x3F)], false),
    ];
    for place in places() {
        for (front, sprites, collision) in rows {
            for bits in [0, BIT_3] {
                let mut bench = lay_out(place, &[(front, CLEAR, sprites, 0, 0)], CLEAR);
                bench.state().registers[12] |= bits;
                assert_eq!(bench.line(0), Ok(sprites.len() as u32));
                assert_eq!(bench.state().collision, collision, "{sprites:04X?}");
            }
        }
    }
}
