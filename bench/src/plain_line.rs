// A line as a plain Rust program would draw it, by the rules of docs/DEFINITION.md (Drawing): what the registers say is
// worked out once a line, the sprites are painted into a line of dots, and then each column asks both planes for
// theirs.
// Addresses have 16 bits, so that no read of VRAM needs a bounds check.
use std::ops::Range;

use crate::exports::{
    Answer, Flags, State, BAD_STATE, DONE, LINE_SIZE, NOT_MODELLED, NO_SUCH_PLACE,
};
use crate::machine::Memory;
use crate::plain::{answer, good};

// A layer's pixel: its colour index, and 40h if it is in front. It is clear if its low four bits are 0.
type Dot = u8;

const IN_FRONT: Dot = 0x40;

// What a pixel byte adds to the colour index.
const NORMAL: u8 = 0;
const HALF: u8 = 64;
const DOUBLE: u8 = 128;

fn solid(dot: Dot) -> bool {
    dot & 0x0F != 0
}

// A plane's table, how far it is moved, and which of two vertical scroll words is its own.
struct Plane {
    base: u16,
    across: u16,
    word: usize,
}

// What the registers say of a line.
struct Layout {
    wide: bool,
    width: usize,
    planes: [Plane; 2],
    cells_wide: u16,
    cells_high: u16,
    by_columns: bool,
    window: u16,
    window_columns: Range<usize>,
    sprites: u16,
    backdrop: u8,
    shadow: bool,
}

// Draws a line, or answers 1, 5 or 4; the types see to the sizes, and no table passes FFFFh.
#[inline(never)]
pub fn line(state: &mut State, vram: &Memory, line: u32, pixels: &mut [u8; LINE_SIZE]) -> Answer {
    if !good(state) {
        return answer(BAD_STATE, 0);
    }
    if line >= height(state) {
        return answer(NO_SUCH_PLACE, 0);
    }
    if not_modelled(state) {
        return answer(NOT_MODELLED, 0);
    }
    let line = line as u16;
    let layout = layout(state, vram, line);
    let visible = &mut pixels[..layout.width];
    if state.registers[1] & 0x40 == 0 {
        visible.fill(layout.backdrop);
        state.control.flags.used_up = false;
        return answer(DONE, 0);
    }
    let mut sprites = [0; LINE_SIZE];
    let sprites = &mut sprites[..layout.width];
    let visits = walk(&mut state.control.flags, vram, &layout, line, sprites);
    draw(state, vram, &layout, line, sprites, visible);
    answer(DONE, visits)
}

fn height(state: &State) -> u32 {
    if state.registers[1] & 0x08 == 0 {
        224
    } else {
        240
    }
}

fn not_modelled(state: &State) -> bool {
    let registers = &state.registers;
    let (high, wide) = (registers[16] >> 4 & 3, registers[16] & 3);
    registers[0] & 0x09 != 0
        || registers[1] & 0x85 != 0x04
        || (registers[12] & 0x80 == 0) != (registers[12] & 0x01 == 0)
        || registers[12] & 0x06 != 0
        || high == 2
        || wide == 2
        || cells(high) * cells(wide) > 4096
}

// Code 2 has no size.
fn cells(code: u8) -> u16 {
    32 * (u16::from(code) + 1)
}

fn layout(state: &State, vram: &Memory, line: u16) -> Layout {
    let registers = &state.registers;
    let wide = registers[12] & 1 != 0;
    let width = if wide { 320 } else { 256 };
    let base =
        |register: usize, mask: u8, shift: u32| u16::from(registers[register] & mask) << shift;
    let scroll = base(13, 0x3F, 10) + 4 * scroll_line(registers[11] & 3, line);
    let plane = |base: u16, word: usize| Plane {
        base,
        across: word_at(vram, scroll + 2 * word as u16) & 0x3FF,
        word,
    };
    Layout {
        wide,
        width,
        planes: [plane(base(2, 0x38, 10), 0), plane(base(4, 0x07, 13), 1)],
        cells_wide: cells(registers[16] & 3),
        cells_high: cells(registers[16] >> 4 & 3),
        by_columns: registers[11] & 4 != 0,
        window: base(3, if wide { 0x3C } else { 0x3E }, 10),
        window_columns: window_columns(registers[17], registers[18], line, width),
        sprites: base(5, if wide { 0x7E } else { 0x7F }, 9),
        backdrop: registers[7] & 0x3F,
        shadow: registers[12] & 0x08 != 0,
    }
}

fn scroll_line(mode: u8, line: u16) -> u16 {
    match mode {
        0 => 0,
        1 => line % 8,
        2 => line - line % 8,
        _ => line,
    }
}

// The columns where the window takes plane A's place.
fn window_columns(across: u8, down: u8, line: u16, width: usize) -> Range<usize> {
    let above = line / 8 < u16::from(down & 0x1F);
    let edge = 16 * usize::from(across & 0x1F);
    if above != (down & 0x80 != 0) {
        0..width
    } else if across & 0x80 == 0 {
        0..edge
    } else {
        edge..width
    }
}

fn byte_at(vram: &Memory, address: u16) -> u8 {
    vram[usize::from(address)]
}

fn word_at(vram: &Memory, address: u16) -> u16 {
    u16::from_be_bytes([byte_at(vram, address), byte_at(vram, address | 1)])
}

// A pixel of a pattern, as a dot with the cell's palette and priority.
fn pattern_dot(vram: &Memory, cell: u16, name: u16, row: u16, column: u16) -> Dot {
    let byte = byte_at(vram, 32 * name + 4 * row + column / 2);
    let pixel = if column & 1 == 0 {
        byte >> 4
    } else {
        byte & 0x0F
    };
    (cell >> 9 & 0x70) as u8 | pixel
}

// Walks the sprites, paints those on the line, sets the flags it meets and gives the visits.
fn walk(flags: &mut Flags, vram: &Memory, layout: &Layout, line: u16, dots: &mut [Dot]) -> u32 {
    let (most, most_on_line) = if layout.wide { (80, 20) } else { (64, 16) };
    let (mut on_line, mut left, mut masked) = (0, layout.width, false);
    let mut can_mask = flags.used_up;
    flags.used_up = false;
    let mut number = 0;
    for visits in 1..=most {
        let entry = layout.sprites + 8 * number;
        let size = u16::from(byte_at(vram, entry + 2));
        let (wide, high) = ((size >> 2 & 3) + 1, (size & 3) + 1);
        let row = (line + 128).wrapping_sub(word_at(vram, entry) & 0x1FF);
        if row < 8 * high {
            if on_line == most_on_line {
                flags.overflow = true;
                return visits;
            }
            on_line += 1;
            let x = word_at(vram, entry + 6) & 0x1FF;
            let columns = left.min(usize::from(8 * wide));
            left -= columns;
            flags.used_up = left == 0;
            if !masked {
                let sprite = Sprite {
                    cell: word_at(vram, entry + 4),
                    x,
                    row,
                    wide,
                    high,
                };
                flags.collision |= sprite.paint(vram, columns as u16, dots);
            }
            masked |= can_mask && x == 0;
            can_mask |= x != 0;
        }
        number = u16::from(byte_at(vram, entry + 3) & 0x7F);
        if number == 0 || u32::from(number) >= most {
            return visits;
        }
    }
    most
}

// A sprite on the line: x as stored, the row within the sprite, width and height in cells.
struct Sprite {
    cell: u16,
    x: u16,
    row: u16,
    wide: u16,
    high: u16,
}

impl Sprite {
    // Paints the leftmost columns behind what is there, and says whether two solid pixels met.
    fn paint(&self, vram: &Memory, columns: u16, dots: &mut [Dot]) -> bool {
        let flip = |bit: u16, size: u16, place: u16| {
            if self.cell & bit == 0 {
                place
            } else {
                size - 1 - place
            }
        };
        let row = flip(0x1000, 8 * self.high, self.row);
        let mut met = false;
        for column in 0..columns {
            let x = usize::from((self.x + column).wrapping_sub(128));
            if x >= dots.len() {
                continue;
            }
            let column = flip(0x0800, 8 * self.wide, column);
            let name = ((self.cell & 0x7FF) + column / 8 * self.high + row / 8) & 0x7FF;
            let dot = pattern_dot(vram, self.cell, name, row % 8, column % 8);
            if solid(dot) {
                if solid(dots[x]) {
                    met = true;
                } else {
                    dots[x] = dot;
                }
            }
        }
        met
    }
}

fn draw(
    state: &State,
    vram: &Memory,
    layout: &Layout,
    line: u16,
    sprites: &[Dot],
    pixels: &mut [u8],
) {
    for (x, (pixel, sprite)) in pixels.iter_mut().zip(sprites).enumerate() {
        let a = if layout.window_columns.contains(&x) {
            let cells_wide = if layout.wide { 64 } else { 32 };
            table_dot(vram, layout.window, cells_wide, x as u16, line)
        } else {
            plane_dot(state, vram, layout, &layout.planes[0], x as u16, line)
        };
        let b = plane_dot(state, vram, layout, &layout.planes[1], x as u16, line);
        *pixel = if layout.shadow {
            shaded(*sprite, a, b, layout.backdrop)
        } else {
            front([*sprite, a, b], layout.backdrop)
        };
    }
}

// Planes are a power of two of pixels wide and high.
fn plane_dot(
    state: &State,
    vram: &Memory,
    layout: &Layout,
    plane: &Plane,
    x: u16,
    line: u16,
) -> Dot {
    let pair = if layout.by_columns { x / 16 } else { 0 };
    let scroll = state.vsram[2 * usize::from(pair) + plane.word];
    let across = x.wrapping_sub(plane.across) & (8 * layout.cells_wide - 1);
    let down = (line + scroll) & (8 * layout.cells_high - 1);
    table_dot(vram, plane.base, layout.cells_wide, across, down)
}

fn table_dot(vram: &Memory, base: u16, cells_wide: u16, across: u16, down: u16) -> Dot {
    let cell = word_at(vram, base + 2 * (down / 8 * cells_wide + across / 8));
    let row = if cell & 0x1000 == 0 {
        down % 8
    } else {
        7 - down % 8
    };
    let column = if cell & 0x0800 == 0 {
        across % 8
    } else {
        7 - across % 8
    };
    pattern_dot(vram, cell, cell & 0x7FF, row, column)
}

// From back to front: the backdrop, the solid dots, the solid dots in front; of each B, then A, then the sprite.
fn front(dots: [Dot; 3], backdrop: u8) -> u8 {
    let mut shown = backdrop;
    for priority in [0, IN_FRONT] {
        for dot in dots.iter().rev() {
            if solid(*dot) && dot & IN_FRONT >= priority {
                shown = dot & 0x3F;
            }
        }
    }
    shown
}

// What shows, with its intensity: shadow and highlight. A sprite's 3Eh and 3Fh are not drawn.
fn shaded(sprite: Dot, a: Dot, b: Dot, backdrop: u8) -> u8 {
    let high = |dot: Dot| dot & IN_FRONT != 0;
    let hides = |dot: Dot| solid(dot) && high(dot);
    let behind = if high(a) || high(b) { NORMAL } else { HALF };
    let planes = front([0, a, b], backdrop);
    if !solid(sprite) || !high(sprite) && (hides(a) || hides(b)) {
        return planes + behind;
    }
    match sprite & 0x3F {
        0x3E => planes + HALF,
        0x3F if behind == HALF => planes,
        0x3F => planes + DOUBLE,
        index if high(sprite) || index & 0x0F == 14 => index,
        index => index + behind,
    }
}
