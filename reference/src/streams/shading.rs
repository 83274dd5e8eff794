//! Phrases of register 12 bit 3: sprites with pixels of 14 and 15, one over the other, over clear
//! and solid cells of planes and window, high and low. Done by calls, so that a book can follow.

use super::masking::{self, Entry};
use super::{drawing, Maker};
use crate::planes;

/// A line with its sprites, and the names of their pattern and of one that is clear.
struct Scene {
    line: u32,
    sprites: u16,
    clear: u16,
}

/// Sprites on one line, which is drawn again and again with one thing changed each time.
pub fn episode(maker: &mut Maker) {
    masking::ready(maker);
    let line = maker.below(224);
    let scene = Scene { line, sprites: maker.word() % 2_048, clear: maker.word() % 2_048 };
    if maker.once_in(3) {
        cells(maker, &scene);
    }
    pattern(maker, &scene);
    sprites(maker, &scene);
    bit_3(maker, &[0x08, 0x08, 0x08, 0x00]);
    backdrop(maker);
    maker.clear_flags();
    maker.line(scene.line);
    for _ in 0..5 + maker.below(5) {
        vary(maker, &scene);
        maker.line(scene.line);
    }
}

/// Register 12 with bit 3 as it is in one of these; the width stays.
fn bit_3(maker: &mut Maker, bits: &[u8]) {
    let others = maker.machine.state.registers[12] & !0x08;
    let bit = maker.pick(bits);
    drawing::set(maker, 12, others | bit);
}

/// A backdrop, often of an operator's index.
fn backdrop(maker: &mut Maker) {
    let any = maker.byte();
    let backdrop = maker.pick(&[0x3E, 0x3F, 0x7E, 0xFF, any, any]);
    drawing::set(maker, 7, backdrop);
}

/// One thing that shows other planes or another backdrop under the sprites, the other way of bit 3,
/// or a line between that is blanked or refused.
fn vary(maker: &mut Maker, scene: &Scene) {
    match maker.below(12) {
        0 | 1 => backdrop(maker),
        2 | 3 => drawing::windows(maker),
        4..=7 => {
            let (register, value) = (maker.pick(&[2, 3, 4, 11, 13]), maker.byte());
            drawing::set(maker, register, value);
        }
        8 => masking::blanked(maker),
        9 => refused(maker, scene.line),
        10 => bit_3(maker, &[0x00]),
        _ => bit_3(maker, &[0x08]),
    }
}

/// Bit 2 or 1 of register 12 is refused, with bit 3 and without.
fn refused(maker: &mut Maker, line: u32) {
    let bits = maker.pick(&[0x02, 0x04, 0x06]);
    let value = maker.machine.state.registers[12] | bits;
    masking::line_with(maker, 12, value, line);
}

/// Writes words to VRAM from an address on.
fn write_words(maker: &mut Maker, address: usize, words: &[u16]) {
    maker.point(1, address as u16);
    for word in words {
        maker.write(*word);
    }
}

/// The first row of the sprites' pattern: pixels of 14 and 15, clear ones and others.
fn pattern(maker: &mut Maker, scene: &Scene) {
    let any = maker.word();
    let rows = [0xEEEE, 0xFFFF, 0xEEFF, 0xFFEE, 0xE0F0, 0x0FE0, 0xF05E, any];
    let words = [maker.pick(&rows), maker.pick(&rows)];
    write_words(maker, 32 * usize::from(scene.sprites), &words);
}

/// Sprites in pairs, the second one over the first or a few columns from it. They are operators, as
/// far as they go, or some of them have another palette or pattern.
fn sprites(maker: &mut Maker, scene: &Scene) {
    let operators = maker.once_in(4);
    let mut entries = Vec::new();
    for _ in 0..2 + maker.below(2) {
        let at = 128 + maker.word() % 300;
        for further in [0, maker.pick(&[0, 0, 4])] {
            let (any, bits) = (maker.word(), maker.word());
            let own = scene.sprites | bits & 0xE000;
            let operator = own | 0x6000;
            let cell = maker.pick(&[own, own & 0x7FFF, own & 0x7FFF, operator, operator, any]);
            let cell = if operators { operator } else { cell };
            let size = masking::size(1, 1);
            entries.push(Entry { line: scene.line, size, cell, x: at + further });
        }
    }
    masking::table(maker, &entries, 0);
}

/// A clear pattern, and a few cells of it and of others, side by side on both planes and the window.
fn cells(maker: &mut Maker, scene: &Scene) {
    write_words(maker, 32 * usize::from(scene.clear), &[0; 16]);
    let across = maker.below(26) as usize;
    for address in rows_of_cells(maker, scene.line as usize) {
        let mut words = [0; 6];
        for word in &mut words {
            let any = maker.word();
            *word = maker.pick(&[any, any & 0xE000 | scene.clear, any & 0xE000 | scene.sprites]);
        }
        write_words(maker, address + 2 * across, &words);
    }
}

/// Where the row of cells begins that a line shows of plane A, of plane B and of the window, if one
/// scroll word counts for a whole plane.
fn rows_of_cells(maker: &Maker, line: usize) -> [usize; 3] {
    let state = &maker.machine.state;
    let base =
        |number: usize, mask: u8, shift: u32| usize::from(state.registers[number] & mask) << shift;
    let (wide, high) = planes::plane_size(state).unwrap_or((32, 32));
    let row = |scroll: u16| 2 * wide * ((line + usize::from(scroll)) / 8 % high);
    let (mask, window_wide) = if state.registers[12] & 1 != 0 { (0x3C, 64) } else { (0x3E, 32) };
    [
        base(2, 0x38, 10) + row(state.scrolls[0]),
        base(4, 0x07, 13) + row(state.scrolls[1]),
        base(3, mask, 10) + 2 * window_wide * (line / 8),
    ]
}
