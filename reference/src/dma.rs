//! DMA: how it starts, what one unit does and where a transfer finds its words
//! (definition, DMA; notes s11).

use crate::ports;
use crate::state::{State, Vram, COPY, FILL, FILL_WAITING, IDLE, TRANSFER, UNITS_MOST};

/// Work RAM answers from this address up.
const WORK_RAM_FROM: u32 = 0xE0_0000;

/// The memory a transfer may take its words from.
#[derive(Clone, Copy)]
pub struct Memories<'a> {
    pub cartridge: &'a [u8],
    pub work_ram: &'a [u8],
}

/// A second half with CD5, while register 1 allows DMA, starts what register 23 names.
pub fn start_if_asked(state: &mut State) {
    let asked = state.code & 0x20 != 0;
    let allowed = state.registers[1] & 0x10 != 0;
    if asked && allowed {
        match state.registers[23] >> 6 {
            0b10 => begin(state, FILL_WAITING, 0, 0, 0),
            0b11 => begin(state, COPY, length(state), copy_source(state), 0),
            _ => begin(state, TRANSFER, length(state), transfer_source(state), 0),
        }
    }
}

/// The data write a fill waited for gives the fill its byte.
pub fn begin_fill(state: &mut State, byte: u8) {
    begin(state, FILL, length(state), 0, byte);
}

fn begin(state: &mut State, kind: u8, remaining: u32, source: u32, fill: u8) {
    state.kind = kind;
    state.remaining = remaining;
    state.source = source;
    state.fill = fill;
}

/// Registers 20:19; zero stands for the greatest length.
fn length(state: &State) -> u32 {
    match u16::from_be_bytes([state.registers[20], state.registers[19]]) {
        0 => UNITS_MOST,
        units => u32::from(units),
    }
}

fn copy_source(state: &State) -> u32 {
    u32::from_be_bytes([0, 0, state.registers[22], state.registers[21]])
}

fn transfer_source(state: &State) -> u32 {
    let page = state.registers[23] & 0x7F;
    2 * u32::from_be_bytes([0, page, state.registers[22], state.registers[21]])
}

/// The status bit is for fills and copies under way.
pub fn shows_in_status(state: &State) -> bool {
    state.kind == FILL || state.kind == COPY
}

/// How many units a run with this budget makes.
pub fn units(state: &State, budget: u32) -> u32 {
    budget.min(state.remaining)
}

/// One unit of what is under way; the last one ends it.
pub fn unit(state: &mut State, vram: &mut Vram, memories: Memories) {
    match state.kind {
        TRANSFER => transfer_unit(state, vram, memories),
        FILL => fill_unit(state, vram),
        COPY => copy_unit(state, vram),
        _ => return,
    }
    state.remaining = state.remaining.saturating_sub(1);
    if state.remaining == 0 {
        begin(state, IDLE, 0, 0, 0);
    }
}

fn transfer_unit(state: &mut State, vram: &mut Vram, memories: Memories) {
    let word = word_from(state.source, memories).unwrap_or(0);
    state.source = next_source(state.source);
    ports::move_word(state, vram, word);
}

/// A fill stores only under the VRAM write code, to the other byte of the word.
fn fill_unit(state: &mut State, vram: &mut Vram) {
    if state.code & 0x0F == 0b0001 {
        vram[usize::from(state.address ^ 1)] = state.fill;
    }
    ports::advance(state);
}

/// Byte by byte, so that an overlapping copy spreads.
fn copy_unit(state: &mut State, vram: &mut Vram) {
    vram[usize::from(state.address)] = vram[(state.source % 65_536) as usize];
    state.source = (state.source + 1) % 65_536;
    ports::advance(state);
}

/// Past the top of the 68000's memory a source stays within the last 64K.
pub fn next_source(source: u32) -> u32 {
    if source == 0xFF_FFFE {
        0xFF_0000
    } else {
        source.wrapping_add(2)
    }
}

/// The word at a source, if it lies in lent memory.
pub fn word_from(source: u32, memories: Memories) -> Option<u16> {
    let (memory, at) = if source >= WORK_RAM_FROM {
        (memories.work_ram, (source % 65_536) as usize)
    } else {
        (memories.cartridge, source as usize)
    };
    let upper = memory.get(at)?;
    let lower = memory.get(at + 1)?;
    Some(u16::from_be_bytes([*upper, *lower]))
}

/// Are the words of the next units all lent? Only a transfer needs any.
pub fn all_lent(state: &State, units: u32, memories: Memories) -> bool {
    if state.kind != TRANSFER {
        return true;
    }
    let mut source = state.source;
    for _ in 0..units {
        if word_from(source, memories).is_none() {
            return false;
        }
        source = next_source(source);
    }
    true
}
