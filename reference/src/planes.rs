//! The screen's size, the two planes and the window (definition, Drawing; notes s12, s13, s17).

use crate::pattern;
use crate::state::{State, Vram};

/// A pixel of a layer: clear if the pattern's pixel is 0.
#[derive(Clone, Copy, Debug, Default, PartialEq, Eq)]
pub struct Dot {
    pub pixel: u8,
    pub palette: u8,
    pub high: bool,
}

impl Dot {
    pub fn solid(self) -> bool {
        self.pixel != 0
    }

    pub fn index(self) -> u8 {
        16 * self.palette + self.pixel
    }
}

/// A name table word or a sprite's cell word, taken apart.
#[derive(Clone, Copy, Debug, PartialEq, Eq)]
pub struct CellWord {
    pub high: bool,
    pub palette: u8,
    pub flip_v: bool,
    pub flip_h: bool,
    pub name: u16,
}

pub fn take_apart(word: u16) -> CellWord {
    CellWord {
        high: word & 0x8000 != 0,
        palette: ((word >> 13) & 3) as u8,
        flip_v: word & 0x1000 != 0,
        flip_h: word & 0x0800 != 0,
        name: word & 0x07FF,
    }
}

/// What one line is drawn from.
#[derive(Clone, Copy)]
pub struct View<'a> {
    pub state: &'a State,
    pub vram: &'a Vram,
    pub line: usize,
}

impl View<'_> {
    /// 40 cells wide, or else 32?
    pub fn wide(&self) -> bool {
        self.state.registers[12] & 1 != 0
    }

    pub fn width(&self) -> usize {
        if self.wide() {
            320
        } else {
            256
        }
    }

    /// The masked bits of a register as the upper bits of a table's address.
    pub fn base(&self, register: usize, mask: u8, shift: u32) -> usize {
        usize::from(self.state.registers[register] & mask) << shift
    }

    /// A word of a table.
    pub fn word(&self, at: usize) -> u16 {
        u16::from_be_bytes([self.byte(at), self.byte(at + 1)])
    }

    /// A byte of a table; no table passes FFFFh, so a place above it stops the program.
    pub fn byte(&self, at: usize) -> u8 {
        self.vram[at]
    }
}

#[derive(Clone, Copy, Debug, PartialEq, Eq)]
pub enum Plane {
    A,
    B,
}

/// Cells for a size code; code 2 has no size (definition, Drawing: answer 4).
pub fn cells(code: u8) -> Option<usize> {
    match code & 3 {
        0 => Some(32),
        1 => Some(64),
        3 => Some(128),
        _ => None,
    }
}

/// Width and height of both planes, in cells.
pub fn plane_size(state: &State) -> Option<(usize, usize)> {
    let wide = cells(state.registers[16])?;
    let high = cells(state.registers[16] >> 4)?;
    Some((wide, high))
}

/// The line whose scroll entry is used (s13's prose; four bytes an entry).
pub fn scroll_line(state: &State, line: usize) -> usize {
    match state.registers[11] & 3 {
        0 => 0,
        1 => line % 8,
        2 => line - line % 8,
        _ => line,
    }
}

/// The ten bits of horizontal scroll for this line.
pub fn horizontal_scroll(view: &View, plane: Plane) -> usize {
    let entry = view.base(13, 0x3F, 10) + 4 * scroll_line(view.state, view.line);
    let word = match plane {
        Plane::A => view.word(entry),
        Plane::B => view.word(entry + 2),
    };
    usize::from(word & 0x3FF)
}

/// One scroll word for the whole plane, or one for each two cells of the screen.
pub fn vertical_scroll(view: &View, plane: Plane, x: usize) -> usize {
    let pair = if view.state.registers[11] & 4 != 0 { x / 16 } else { 0 };
    let word = match plane {
        Plane::A => view.state.scrolls.get(2 * pair),
        Plane::B => view.state.scrolls.get(2 * pair + 1),
    };
    usize::from(*word.unwrap_or(&0))
}

/// A pixel of plane A or B, scrolled; `h` is the plane's horizontal scroll.
pub fn plane_dot(view: &View, plane: Plane, h: usize, x: usize) -> Dot {
    let (cells_wide, cells_high) = plane_size(view.state).unwrap_or((32, 32));
    let base = match plane {
        Plane::A => view.base(2, 0x38, 10),
        Plane::B => view.base(4, 0x07, 13),
    };
    // 1,024 is a multiple of every plane's width and above every scroll.
    let across = (x + 1_024 - h) % (8 * cells_wide);
    let down = (view.line + vertical_scroll(view, plane, x)) % (8 * cells_high);
    table_dot(view, base, cells_wide, across, down)
}

/// The window's table is unscrolled, 64 or 32 cells wide.
pub fn window_dot(view: &View, x: usize) -> Dot {
    let (mask, cells_wide) = if view.wide() { (0x3C, 64) } else { (0x3E, 32) };
    table_dot(view, view.base(3, mask, 10), cells_wide, x, view.line)
}

/// A pixel of a name table, `across` and `down` counted in pixels.
fn table_dot(view: &View, base: usize, cells_wide: usize, across: usize, down: usize) -> Dot {
    let at = base + 2 * (down / 8 * cells_wide + across / 8);
    let cell = take_apart(view.word(at));
    cell_dot(view.vram, cell, (down % 8) as u16, (across % 8) as u16)
}

/// A pixel of one cell, flipped as the cell asks.
fn cell_dot(vram: &Vram, cell: CellWord, row: u16, column: u16) -> Dot {
    let row = if cell.flip_v { 7 - row } else { row };
    let column = if cell.flip_h { 7 - column } else { column };
    Dot {
        pixel: pattern::pixel(vram, cell.name, row, column),
        palette: cell.palette,
        high: cell.high,
    }
}

/// Does register 18 put the window on this whole line?
pub fn window_by_line(view: &View) -> bool {
    let register = view.state.registers[18];
    let below = view.line / 8 < usize::from(register & 0x1F);
    below != (register & 0x80 != 0)
}

/// Does register 17 put the window on this column?
pub fn window_by_column(view: &View, x: usize) -> bool {
    let register = view.state.registers[17];
    let below = x < 16 * usize::from(register & 0x1F);
    below != (register & 0x80 != 0)
}

/// The window takes plane A's place wherever either register asks for it.
pub fn window_here(view: &View, x: usize) -> bool {
    window_by_line(view) || window_by_column(view, x)
}
