//! Streams of lines and pattern rows: planes, window, scrolls, sprites in rings and chains.

use super::{
    masking, shading, Maker, COLLISION, DMA_KIND, OVERFLOW, REGISTER, REMAINING, SCROLL, USED_UP,
};
use crate::draw;
use crate::replay::{PIXELS, ROW, VRAM};

pub fn fill(maker: &mut Maker) {
    maker.scatter(PIXELS);
    scene(maker);
    while !maker.full() {
        episode(maker);
    }
}

/// One phrase of drawing.
pub fn episode(maker: &mut Maker) {
    match maker.below(32) {
        0..=3 => layout(maker),
        4..=8 => ring(maker),
        9 => chain(maker),
        10 | 11 => windows(maker),
        12 | 13 => scrolls(maker),
        14..=16 => rows(maker),
        17 | 18 => unmodelled(maker),
        19 | 20 => lengths(maker),
        21 => blanked(maker),
        22 => flags(maker),
        23 => holes(maker),
        24 => overlapping(maker),
        25 => bad_state(maker),
        26 => highest(maker),
        27 | 28 => masking::episode(maker),
        29 | 30 => shading::episode(maker),
        _ => (),
    }
    lines(maker);
}

/// By hand, or by a recorded write so that a book can follow.
pub fn set(maker: &mut Maker, register: u16, value: u8) {
    if maker.machine.recorded && !maker.machine.state.running() {
        maker.register(register, value);
    } else {
        maker.field(REGISTER, register, u32::from(value));
    }
}

/// Makes lines drawn again, after other phrases have changed the mode.
pub fn sane(maker: &mut Maker) {
    let state = &maker.machine.state;
    if draw::not_modelled(state).is_none() && state.registers[1] & 0x40 != 0 {
        return;
    }
    set(maker, 0, 0x04);
    let mode = maker.pick(&[0x44, 0x4C, 0x54]);
    set(maker, 1, mode);
    either_width(maker);
    let size = maker.pick(&[0x00, 0x01, 0x03, 0x10, 0x11, 0x30]);
    set(maker, 16, size);
}

/// Register 12 for one of the two widths, with bit 3 or without; its bits 6 to 4 do not matter.
pub fn either_width(maker: &mut Maker) {
    let width = maker.pick(&[0x81, 0x81, 0x89, 0x89, 0xF9, 0x00, 0x00, 0x08, 0x08, 0x70]);
    set(maker, 12, width);
}

/// VRAM by chance and a whole set of registers.
pub fn scene(maker: &mut Maker) {
    if maker.once_in(8) {
        let byte = maker.pick(&[0x00, 0x01, 0x05, 0x11, 0x81, 0xFF]);
        maker.flood(VRAM, byte);
    } else {
        maker.scatter(VRAM);
    }
    set(maker, 0, 0x04);
    let mode = maker.pick(&[0x44, 0x4C, 0x64, 0x54]);
    set(maker, 1, mode);
    either_width(maker);
    layout(maker);
    scrolls(maker);
    windows(maker);
    holes(maker);
}

/// Bases and the planes' size.
fn layout(maker: &mut Maker) {
    for register in [2, 3, 4, 5, 7, 13] {
        if maker.once_in(2) {
            let value = maker.byte();
            set(maker, register, value);
        }
    }
    let size = maker.pick(&[0x00, 0x01, 0x03, 0x10, 0x11, 0x30, 0xCC, 0x4D]);
    set(maker, 16, size);
    if maker.once_in(3) {
        either_width(maker);
    }
}

fn scrolls(maker: &mut Maker) {
    let mode = maker.byte();
    set(maker, 11, mode);
    for _ in 0..3 {
        let (place, word) = (maker.word(), maker.number());
        maker.field(SCROLL, place, word & 0x3FF);
    }
    maker.field(SCROLL, 0, 0x3FF);
}

pub fn windows(maker: &mut Maker) {
    let across = maker.pick(&[0x00, 0x00, 0x05, 0x14, 0x1F, 0x80, 0x83, 0x90]);
    set(maker, 17, across);
    let down = maker.pick(&[0x00, 0x00, 0x00, 0x04, 0x10, 0x80, 0x8E, 0x9F]);
    set(maker, 18, down);
}

/// Zero bytes here and there, so that clear pixels and low cells are common.
fn holes(maker: &mut Maker) {
    let step = maker.pick(&[2, 3, 3, 5]);
    set(maker, 15, step);
    set(maker, 1, 0x54);
    set(maker, 19, 0xFF);
    set(maker, 20, 0x7F);
    set(maker, 23, 0x80);
    let address = maker.word() & 3;
    maker.point(0x21, address);
    maker.write(0);
    let units = maker.pick(&[6_000, 20_000, 32_767]);
    maker.run(units);
    maker.calm();
    let mode = maker.pick(&[0x44, 0x4C, 0x54]);
    set(maker, 1, mode);
}

/// Lines at the edges and inside.
pub fn lines(maker: &mut Maker) {
    for _ in 0..1 + maker.below(4) {
        let inside = maker.below(224);
        let line =
            maker.pick(&[0, 7, 8, 15, 16, 31, 223, 224, 239, inside, inside, inside, inside]);
        maker.line(line);
    }
    if maker.once_in(6) {
        let line = maker.pick(&[224, 239, 240, 256, u32::MAX]);
        maker.line(line);
    }
    if maker.once_in(8) {
        maker.clear_flags();
    }
}

/// Where the sprite table lies for the present registers.
pub fn sprite_base(maker: &Maker) -> u32 {
    let registers = &maker.machine.state.registers;
    let mask = if registers[12] & 1 != 0 { 0x7E } else { 0x7F };
    u32::from(registers[5] & mask) << 9
}

/// Writes one sprite; size holds width and height less one.
fn sprite(maker: &mut Maker, number: u32, line: u32, size: u8, link: u8, x: u16) {
    let at = sprite_base(maker) + 8 * number;
    let [y1, y0] = ((128 + line) as u16).to_be_bytes();
    let [x1, x0] = x.to_be_bytes();
    let unused = maker.byte() & 0xFE;
    let bytes = [y1 | unused, y0, size | unused & 0xF0, link | unused & 0x80];
    for (place, byte) in bytes.iter().enumerate() {
        maker.poke(VRAM, at + place as u32, *byte);
    }
    maker.poke(VRAM, at + 6, x1 | unused);
    maker.poke(VRAM, at + 7, x0);
    // A name near the last, so that a large sprite goes round to name 0.
    if maker.once_in(5) {
        maker.poke(VRAM, at + 4, unused | 0x07);
        maker.poke(VRAM, at + 5, 0xFE);
    }
}

fn some_x(maker: &mut Maker) -> u16 {
    let inside = 128 + maker.word() % 330;
    maker.pick(&[0, 1, 100, 127, 128, 130, 130, 140, 383, 440, 447, 511, inside, inside, inside])
}

/// A ring of few sprites: visited again and again, it meets every limit. The flags are cleared first,
/// so that it can be seen which ones the lines set.
fn ring(maker: &mut Maker) {
    maker.clear_flags();
    let line = maker.below(220);
    let round = 1 + maker.below(5);
    for number in 0..=round {
        let link = if number == round { 1 } else { number + 1 };
        let any = maker.byte() & 0x7F;
        let wrong = maker.pick(&[0, 63, 64, 79, 80, 127, any]);
        let link = if maker.once_in(8) { wrong } else { link as u8 };
        let size = maker.byte() & 0x0F;
        let off = maker.pick(&[0, 0, 0, 40, 300]);
        let x = some_x(maker);
        sprite(maker, number, (line + off) % 384, size, link, x);
    }
    for _ in 0..3 {
        let near = line + maker.below(10);
        maker.line(near);
    }
}

/// Exactly as many sprites on a line as fit, or one more; the rest of the table elsewhere.
fn chain(maker: &mut Maker) {
    let wide = maker.machine.state.registers[12] & 1 != 0;
    let limit = if wide { 20 } else { 16 };
    let sprites = limit + maker.below(2);
    let base = sprite_base(maker);
    let line = maker.below(200);
    let size = maker.pick(&[0x00, 0x00, 0x04, 0x0F]);
    for number in 0..sprites {
        let last = number + 1 == sprites;
        let x = 128 + (number as u16 * 12) % 300;
        let [y1, y0] = ((128 + line) as u16).to_be_bytes();
        let link = if last { 0 } else { number as u8 + 1 };
        let words = [[y1, y0], [size, link], x.to_be_bytes()];
        for (word, place) in words.iter().zip([0, 2, 6]) {
            maker.poke(VRAM, base + 8 * number + place, word[0]);
            maker.poke(VRAM, base + 8 * number + place + 1, word[1]);
        }
    }
    maker.line(line);
    maker.line(line + 7);
    maker.line(line + 8);
}

/// An early low sprite under a later high one, at the same place, both over a high plane.
fn overlapping(maker: &mut Maker) {
    let line = maker.below(216);
    let x = 128 + maker.word() % 200;
    sprite(maker, 0, line, 0x05, 1, x);
    sprite(maker, 1, line, 0x05, 0, x + 4);
    let base = sprite_base(maker);
    let low = maker.byte() & 0x1F;
    maker.poke(VRAM, base + 4, low);
    maker.poke(VRAM, base + 12, 0x80 | low);
    maker.line(line);
    maker.line(line + 8);
}

/// Tables at their highest bases: a line that shows the last row of both planes, with the last
/// pattern named at FFFEh, and the same line with the last sprite.
fn highest(maker: &mut Maker) {
    for (register, bits) in [(2, 0x38), (3, 0x3E), (4, 0x07), (5, 0x7F), (13, 0x3F)] {
        if maker.once_in(2) {
            let others = maker.byte();
            set(maker, register, bits | others);
        }
    }
    let (size, rows) = maker.pick(&[(0x03, 256), (0x11, 512), (0x30, 1_024)]);
    set(maker, 16, size);
    set(maker, 11, 0x03);
    let state = &maker.machine.state;
    let (wide, height) = (state.registers[12] & 1 != 0, draw::height(state));
    let line = maker.pick(&[7, height - 1]);
    maker.field(SCROLL, 0, rows - 1 - line);
    maker.field(SCROLL, 1, rows - 1 - line);
    let upper = maker.byte();
    maker.poke(VRAM, 0xFFFE, upper | 0x07);
    maker.poke(VRAM, 0xFFFF, 0xFF);
    maker.line(line);
    let last = if wide { 79 } else { 63 };
    let (size, x) = (maker.byte() & 0x0F, some_x(maker));
    sprite(maker, 0, 300, 0, last, x);
    sprite(maker, u32::from(last), line, size, 0, x);
    maker.line(line);
}

/// Pattern rows with names and rows at their edges and just past them, and the parts of a colour.
fn rows(maker: &mut Maker) {
    for _ in 0..4 {
        let any = maker.word() % 2_048;
        let name = maker.pick(&[0, 1, 2_047, 2_047, any, any, any, any, any, 2_048, 65_535]);
        let row = maker.pick(&[0, 1, 2, 3, 4, 5, 6, 7, 7, 8, 256, u32::MAX]);
        maker.row(name, row);
    }
    let (word, register0) = (maker.word(), maker.byte());
    maker.colour(word, register0);
}

/// Registers with bytes under which a line is not modelled: each reason of answer 4 alone.
pub const UNMODELLED: [(u16, u8); 18] = [
    (0, 0x05),
    (0, 0x0C),
    (1, 0xC4),
    (1, 0x45),
    (1, 0x40),
    (1, 0x00),
    (12, 0x80),
    (12, 0x01),
    (12, 0x83),
    (12, 0x85),
    (12, 0x8B),
    (12, 0x0C),
    (16, 0x02),
    (16, 0x20),
    (16, 0x31),
    (16, 0x13),
    (16, 0x33),
    (16, 0x22),
];

/// Each reason of answer 4 alone, then as it was.
fn unmodelled(maker: &mut Maker) {
    let (register, value) = maker.pick(&UNMODELLED);
    let old = maker.machine.state.registers[usize::from(register)];
    set(maker, register, value);
    lines(maker);
    set(maker, register, old);
}

/// Buffers one byte off.
fn lengths(maker: &mut Maker) {
    let (buffer, right) = maker.pick(&[(VRAM, 65_536), (PIXELS, 320), (ROW, 8)]);
    let wrong = maker.pick(&[right - 1, right + 1, 0]);
    maker.length(buffer, wrong);
    let line = maker.pick(&[5, 240]);
    maker.line(line);
    maker.row(3, 3);
    maker.row(2_048, 3);
    maker.length(buffer, right);
}

/// A blanked line, also where something else is wrong with it.
fn blanked(maker: &mut Maker) {
    let old = maker.machine.state.registers[1];
    set(maker, 1, 0x04 | old & 0x08);
    let backdrop = maker.byte();
    set(maker, 7, backdrop);
    lines(maker);
    set(maker, 1, old | 0x40);
}

/// Sprite flags that are set stay set, whatever a line meets; used up is made anew by each line.
fn flags(maker: &mut Maker) {
    for field in [OVERFLOW, COLLISION, USED_UP] {
        let value = maker.number();
        maker.field(field, 0, value);
    }
    lines(maker);
    maker.clear_flags();
}

/// A bad state refuses a line but not a pattern row; a run under way refuses neither.
fn bad_state(maker: &mut Maker) {
    maker.field(DMA_KIND, 0, 4);
    maker.line(3);
    maker.row(9, 1);
    maker.field(REMAINING, 0, 1);
    maker.line(4);
    maker.row(9, 1);
    maker.calm();
}
