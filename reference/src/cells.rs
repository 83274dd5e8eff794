//! The one cell a step stores to, told beforehand for the tape (definition, The tape).
//! ports.rs and dma.rs carry the steps out and know nothing of cells. So a cell that is told wrong
//! shows as a difference from the book, which keeps full copies and never asks for one.

use crate::state::{State, Vram, COPY, FILL, REGISTERS, SCROLLS, TRANSFER};

/// The cell kinds of a record.
pub const CELL_NONE: u8 = 0;
pub const CELL_VRAM: u8 = 1;
pub const CELL_COLOUR: u8 = 2;
pub const CELL_SCROLL: u8 = 3;
pub const CELL_REGISTER: u8 = 4;

/// A cell with what it holds before the step.
#[derive(Clone, Copy, Debug, PartialEq, Eq)]
pub struct Cell {
    pub kind: u8,
    pub place: u16,
    pub old: u16,
}

/// The cell of a step that stores nothing.
pub const NONE: Cell = Cell { kind: CELL_NONE, place: 0, old: 0 };

/// A control write stores to a register that exists, or nothing.
pub fn of_control_write(state: &State, word: u16) -> Cell {
    let number = usize::from(word >> 8 & 0x1F);
    if state.pending || word & 0xC000 != 0x8000 || number >= REGISTERS {
        return NONE;
    }
    let old = u16::from(state.registers[number]);
    Cell { kind: CELL_REGISTER, place: number as u16, old }
}

/// A word that is written or transferred goes where code and address say.
pub fn of_word(state: &State, vram: &Vram) -> Cell {
    let place = state.address >> 1 & 0x3F;
    let index = usize::from(place);
    match state.code & 0x0F {
        0b0001 => vram_cell(vram, state.address),
        0b0011 => Cell { kind: CELL_COLOUR, place, old: state.colours[index] },
        0b0101 if index < SCROLLS => Cell { kind: CELL_SCROLL, place, old: state.scrolls[index] },
        _ => NONE,
    }
}

/// A fill or copy unit stores a byte; its cell is the word that holds it.
pub fn of_unit(state: &State, vram: &Vram) -> Cell {
    match state.kind {
        TRANSFER => of_word(state, vram),
        FILL if state.code & 0x0F == 0b0001 => vram_cell(vram, state.address),
        COPY => vram_cell(vram, state.address),
        _ => NONE,
    }
}

fn vram_cell(vram: &Vram, address: u16) -> Cell {
    let place = address - address % 2;
    let (upper, lower) = (vram[usize::from(place)], vram[usize::from(place) + 1]);
    Cell { kind: CELL_VRAM, place, old: 256 * u16::from(upper) + u16::from(lower) }
}
