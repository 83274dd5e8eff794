// The tape as a plain Rust program would keep it, as docs/DEFINITION.md (The tape) has it: a record of 32 bytes before
// each step, and a step back that puts back what the records hold. The data write and the fill are those of plain.rs.
use crate::exports::{
    Control, Dma, Flags, Port, Recorded, State, Timing, BAD_BUFFER, BAD_RECORD, BAD_STATE, BUSY,
    DONE, NOTHING_THERE, RECORD_SIZE, TAPE_FULL,
};
use crate::machine::Memory;
use crate::plain::{self, control_good, good};

type Record = [u8; RECORD_SIZE];

const VERSION: u8 = 3;

// A cell with its content; places of VRAM are even.
#[derive(Clone, Copy)]
enum Cell {
    Nothing,
    Vram(u16, u16),
    Colour(u16, u16),
    Scroll(u16, u16),
    Register(u16, u16),
}

#[inline(never)]
pub fn data_write(
    state: &mut State,
    vram: &mut Memory,
    tape: &mut [u8],
    count: usize,
    word: u16,
) -> Recorded {
    if let Err(number) = may_record(state, tape, count) {
        return recorded(number, 0, count);
    }
    if state.control.dma.kind >= 2 {
        return recorded(BUSY, 0, count);
    }
    let Some(slot) = slots(tape).get_mut(count) else {
        return recorded(TAPE_FULL, 0, count);
    };
    write_record(slot, &state.control, word_cell(state, vram));
    plain::data_write(state, vram, word);
    recorded(DONE, 0, count + 1)
}

// The units of a fill, each with its record.
#[inline(never)]
pub fn fill(
    state: &mut State,
    vram: &mut Memory,
    tape: &mut [u8],
    count: usize,
    budget: u32,
) -> Recorded {
    if let Err(number) = may_record(state, tape, count) {
        return recorded(number, 0, count);
    }
    let units = budget.min(state.control.dma.remaining) as usize;
    let Some(slots) = slots(tape).get_mut(count..count + units) else {
        return recorded(TAPE_FULL, 0, count);
    };
    for slot in slots {
        write_record(slot, &state.control, word_cell(state, vram));
        plain::fill(state, vram, 1);
        if state.control.dma.remaining == 0 {
            state.control.dma = Dma::default();
        }
    }
    recorded(DONE, units as u32, count + units)
}

#[inline(never)]
pub fn step_back(
    state: &mut State,
    vram: &mut Memory,
    tape: &[u8],
    count: usize,
    k: usize,
) -> Recorded {
    if let Err(number) = may_record(state, tape, count) {
        return recorded(number, 0, count);
    }
    let Some(left) = count.checked_sub(k) else {
        return recorded(NOTHING_THERE, 0, count);
    };
    let (records, _) = tape.as_chunks();
    let top = &records[left..count];
    if !top.iter().all(good_record) {
        return recorded(BAD_RECORD, 0, count);
    }
    for record in top.iter().rev() {
        put_back(state, vram, record);
    }
    recorded(DONE, 0, left)
}

fn recorded(number: u8, result: u32, count: usize) -> Recorded {
    Recorded {
        number,
        result,
        count,
    }
}

fn may_record(state: &State, tape: &[u8], count: usize) -> Result<(), u8> {
    if !good(state) {
        Err(BAD_STATE)
    } else if count > tape.len() / RECORD_SIZE {
        Err(BAD_BUFFER)
    } else {
        Ok(())
    }
}

fn slots(tape: &mut [u8]) -> &mut [Record] {
    tape.as_chunks_mut().0
}

// Where a word goes by code and address, with what is there. A fill stores by the first of these codes only, to a byte
// of that word.
fn word_cell(state: &State, vram: &Memory) -> Cell {
    let address = state.control.port.address;
    let index = address / 2 % 64;
    let place = usize::from(address & !1);
    match state.control.port.code & 0b1111 {
        0b0001 => Cell::Vram(
            address & !1,
            u16::from_be_bytes([vram[place], vram[place | 1]]),
        ),
        _ if state.control.dma.kind == 3 => Cell::Nothing,
        0b0011 => Cell::Colour(index, state.cram[usize::from(index)]),
        0b0101 if index < 40 => Cell::Scroll(index, state.vsram[usize::from(index)]),
        _ => Cell::Nothing,
    }
}

fn write_record(slot: &mut Record, control: &Control, cell: Cell) {
    let Control {
        port,
        dma,
        flags,
        timing,
    } = control;
    let (kind, place, old) = match cell {
        Cell::Nothing => (0, 0, 0),
        Cell::Vram(place, old) => (1, place, old),
        Cell::Colour(place, old) => (2, place, old),
        Cell::Scroll(place, old) => (3, place, old),
        Cell::Register(place, old) => (4, place, old),
    };
    *slot = [0; RECORD_SIZE];
    slot[..4].copy_from_slice(&[VERSION, 0, 32, kind]);
    slot[4..6].copy_from_slice(&place.to_be_bytes());
    slot[6..8].copy_from_slice(&old.to_be_bytes());
    slot[8..10].copy_from_slice(&port.address.to_be_bytes());
    slot[10..13].copy_from_slice(&[port.code, u8::from(port.pending), dma.kind]);
    slot[13..16].copy_from_slice(&dma.remaining.to_be_bytes()[1..]);
    slot[16..19].copy_from_slice(&dma.source.to_be_bytes()[1..]);
    slot[19] = dma.fill;
    slot[20] =
        u8::from(flags.overflow) + 2 * u8::from(flags.collision) + 4 * u8::from(flags.used_up);
    slot[21..23].copy_from_slice(&timing.line.to_be_bytes());
    slot[23] = timing.counter;
    slot[24] = u8::from(timing.vertical) + 2 * u8::from(timing.horizontal);
}

fn word_of(record: &Record, at: usize) -> u16 {
    u16::from_be_bytes([record[at], record[at + 1]])
}

// Three bytes.
fn number_of(record: &Record, at: usize) -> u32 {
    u32::from_be_bytes([0, record[at], record[at + 1], record[at + 2]])
}

fn control_of(record: &Record) -> Control {
    Control {
        port: Port {
            address: word_of(record, 8),
            code: record[10],
            pending: record[11] == 1,
        },
        dma: Dma {
            kind: record[12],
            remaining: number_of(record, 13),
            source: number_of(record, 16),
            fill: record[19],
        },
        flags: Flags {
            overflow: record[20] & 1 != 0,
            collision: record[20] & 2 != 0,
            used_up: record[20] & 4 != 0,
        },
        timing: Timing {
            line: word_of(record, 21),
            counter: record[23],
            vertical: record[24] & 1 != 0,
            horizontal: record[24] & 2 != 0,
        },
    }
}

// The cell of a record, if it keeps its ranges.
fn cell_of(record: &Record) -> Option<Cell> {
    let (place, old) = (word_of(record, 4), word_of(record, 6));
    match record[3] {
        0 if place == 0 && old == 0 => Some(Cell::Nothing),
        1 if place & 1 == 0 => Some(Cell::Vram(place, old)),
        2 if place < 64 && old & !0x0EEE == 0 => Some(Cell::Colour(place, old)),
        3 if place < 40 && old <= 0x3FF => Some(Cell::Scroll(place, old)),
        4 if place < 24 && old <= 0xFF => Some(Cell::Register(place, old)),
        _ => None,
    }
}

fn good_record(record: &Record) -> bool {
    record[..3] == [VERSION, 0, 32]
        && cell_of(record).is_some()
        && record[11] <= 1
        && record[20] <= 7
        && record[24] <= 3
        && record[25..] == [0; 7]
        && control_good(&control_of(record))
}

fn put_back(state: &mut State, vram: &mut Memory, record: &Record) {
    match cell_of(record) {
        Some(Cell::Vram(place, old)) => {
            let place = usize::from(place);
            [vram[place], vram[place | 1]] = old.to_be_bytes();
        }
        Some(Cell::Colour(place, old)) => state.cram[usize::from(place)] = old,
        Some(Cell::Scroll(place, old)) => state.vsram[usize::from(place)] = old,
        Some(Cell::Register(place, old)) => state.registers[usize::from(place)] = old as u8,
        Some(Cell::Nothing) | None => {}
    }
    state.control = control_of(record);
}
