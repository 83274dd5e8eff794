//! The tape: its records of 32 bytes, writing one, checking one, going back over one
//! (definition, The tape).

use crate::cells::{Cell, CELL_COLOUR, CELL_NONE, CELL_REGISTER, CELL_SCROLL, CELL_VRAM, NONE};
use crate::state::{State, Vram, COLOURS, COLOUR_BITS, REGISTERS, SCROLLS, SCROLL_MOST};

pub const RECORD_BYTES: usize = 32;
/// Version 1 had no timing, version 2 no used up.
pub const VERSION: u8 = 3;

pub type Record = [u8; RECORD_BYTES];

/// The lent tape and the number of records on it.
pub struct Tape<'a> {
    pub bytes: &'a mut [u8],
    pub count: &'a mut u32,
}

impl Tape<'_> {
    /// Bytes past the last whole record are never used.
    pub fn capacity(&self) -> usize {
        self.bytes.len() / RECORD_BYTES
    }

    pub fn count_fits(&self) -> bool {
        *self.count as usize <= self.capacity()
    }

    /// Records that still fit.
    pub fn room(&self) -> usize {
        self.capacity().saturating_sub(*self.count as usize)
    }

    /// Writes a record at the count; there is room when this is called.
    pub fn put(&mut self, before: &State, cell: Cell) {
        let at = RECORD_BYTES * *self.count as usize;
        if let Some(place) = self.bytes.get_mut(at..at + RECORD_BYTES) {
            place.copy_from_slice(&record(before, cell));
            *self.count += 1;
        }
    }

    /// The n-th record counted from the top, the top one being number 1.
    pub fn below_top(&self, number: u32) -> Option<Record> {
        let index = (*self.count).checked_sub(number)? as usize;
        let at = RECORD_BYTES * index;
        let bytes = self.bytes.get(at..at + RECORD_BYTES)?;
        bytes.try_into().ok()
    }
}

/// The record of a step: the cell it stored to and the state before it, big-endian.
pub fn record(before: &State, cell: Cell) -> Record {
    let mut bytes = [0; RECORD_BYTES];
    bytes[0] = VERSION;
    bytes[1..3].copy_from_slice(&(RECORD_BYTES as u16).to_be_bytes());
    bytes[3] = cell.kind;
    bytes[4..6].copy_from_slice(&cell.place.to_be_bytes());
    bytes[6..8].copy_from_slice(&cell.old.to_be_bytes());
    bytes[8..10].copy_from_slice(&before.address.to_be_bytes());
    bytes[10] = before.code;
    bytes[11] = u8::from(before.pending);
    bytes[12] = before.kind;
    bytes[13..16].copy_from_slice(&before.remaining.to_be_bytes()[1..]);
    bytes[16..19].copy_from_slice(&before.source.to_be_bytes()[1..]);
    bytes[19] = before.fill;
    bytes[20] = sprite_flags(before);
    bytes[21..23].copy_from_slice(&before.line.to_be_bytes());
    bytes[23] = before.counter;
    bytes[24] = u8::from(before.vertical) + 2 * u8::from(before.horizontal);
    bytes
}

/// Overflow, collision and used up, as byte 20 has them.
fn sprite_flags(state: &State) -> u8 {
    let [overflow, collision, used_up] =
        [state.overflow, state.collision, state.used_up].map(u8::from);
    overflow + 2 * collision + 4 * used_up
}

fn cell_of(record: &Record) -> Cell {
    Cell {
        kind: record[3],
        place: u16::from_be_bytes([record[4], record[5]]),
        old: u16::from_be_bytes([record[6], record[7]]),
    }
}

/// The units remaining that a record holds.
pub fn remaining_of(record: &Record) -> u32 {
    u32::from_be_bytes([0, record[13], record[14], record[15]])
}

/// The line that a record holds.
pub fn line_of(record: &Record) -> u16 {
    u16::from_be_bytes([record[21], record[22]])
}

/// Puts the record's part of the state into a state; the other fields stay.
fn restore_state(state: &mut State, record: &Record) {
    state.address = u16::from_be_bytes([record[8], record[9]]);
    state.code = record[10];
    state.pending = record[11] != 0;
    state.kind = record[12];
    state.remaining = remaining_of(record);
    state.source = u32::from_be_bytes([0, record[16], record[17], record[18]]);
    state.fill = record[19];
    state.overflow = record[20] & 1 != 0;
    state.collision = record[20] & 2 != 0;
    state.used_up = record[20] & 4 != 0;
    state.line = line_of(record);
    state.counter = record[23];
    state.vertical = record[24] & 1 != 0;
    state.horizontal = record[24] & 2 != 0;
}

/// Does the record keep the layout and all ranges?
pub fn good_record(record: &Record) -> bool {
    let mut before = State::fresh(false);
    restore_state(&mut before, record);
    record[0] == VERSION
        && u16::from_be_bytes([record[1], record[2]]) as usize == RECORD_BYTES
        && good_cell(cell_of(record))
        && record[11] <= 1
        && record[20] <= 7
        && record[24] <= 3
        && record[25..].iter().all(|byte| *byte == 0)
        && before.good()
}

fn good_cell(cell: Cell) -> bool {
    let place = usize::from(cell.place);
    match cell.kind {
        CELL_NONE => cell == NONE,
        CELL_VRAM => place % 2 == 0,
        CELL_COLOUR => place < COLOURS && cell.old & !COLOUR_BITS == 0,
        CELL_SCROLL => place < SCROLLS && cell.old <= SCROLL_MOST,
        CELL_REGISTER => place < REGISTERS && cell.old <= 0xFF,
        _ => false,
    }
}

/// Takes one step back: the cell and the state become what the record says.
pub fn undo(state: &mut State, vram: &mut Vram, record: &Record) {
    let cell = cell_of(record);
    let place = usize::from(cell.place);
    match cell.kind {
        CELL_VRAM => {
            put(vram, place, (cell.old >> 8) as u8);
            put(vram, place + 1, (cell.old & 0xFF) as u8);
        }
        CELL_COLOUR => put(&mut state.colours, place, cell.old),
        CELL_SCROLL => put(&mut state.scrolls, place, cell.old),
        CELL_REGISTER => put(&mut state.registers, place, (cell.old & 0xFF) as u8),
        _ => (),
    }
    restore_state(state, record);
}

fn put<T>(list: &mut [T], place: usize, value: T) {
    if let Some(item) = list.get_mut(place) {
        *item = value;
    }
}
