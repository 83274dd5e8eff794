//! Pattern pixels and colour parts (definition, Calls for a host program and
//! Drawing; notes s9, s12, s17).

use crate::state::Vram;

pub const NAMES: u16 = 2_048;
pub const ROWS: u32 = 8;

/// One pixel of an unflipped pattern; the left pixel of a byte is its high half.
pub fn pixel(vram: &Vram, name: u16, row: u16, column: u16) -> u8 {
    let at =
        32 * usize::from(name % NAMES) + 4 * usize::from(row % 8) + usize::from(column % 8) / 2;
    if column % 2 == 0 {
        vram[at] >> 4
    } else {
        vram[at] & 0x0F
    }
}

/// The eight unflipped pixels of a pattern's row, left to right.
pub fn row(vram: &Vram, name: u16, row: u16) -> [u8; 8] {
    [0, 1, 2, 3, 4, 5, 6, 7].map(|column| pixel(vram, name, row, column))
}

/// Blue, green and red of a colour word; register 0 bit 2 clear keeps their lowest bits only.
pub fn colour_parts(word: u16, register0: u8) -> [u32; 3] {
    let bits = if register0 & 0x04 != 0 { 7 } else { 1 };
    [9, 5, 1].map(|shift| u32::from(word >> shift) & bits)
}
