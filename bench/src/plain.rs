// The same work as a plain Rust program would do it, unit by unit on the lent state, by the rules of docs/DEFINITION.md
// (Ports and DMA). Buffers are arrays, so that no store needs a bounds check. Calls are never inlined, as those of the
// library are not.
use crate::exports::{
    Answer, Control, Dma, State, BAD_STATE, BUSY, DONE, LAST_LINE, MOST_UNITS, SOURCE_NOT_LENT,
};
use crate::machine::Memory;

const WORK_RAM: u32 = 0xE0_0000;

// GOOD, as the library asks it of every state.
pub fn good(state: &State) -> bool {
    state.cram.iter().all(|w| w & !0x0EEE == 0)
        && state.vsram.iter().all(|w| *w <= 0x3FF)
        && control_good(&state.control)
}

// What GOOD says of the port, of DMA and of the timing.
pub fn control_good(control: &Control) -> bool {
    let dma = &control.dma;
    let source_good = match dma.kind {
        2 => dma.source & 1 == 0 && dma.source < 0x100_0000,
        4 => dma.source < 0x1_0000,
        _ => dma.source == 0,
    };
    control.port.code <= 63
        && dma.kind <= 4
        && dma.remaining <= MOST_UNITS
        && (dma.remaining == 0) == (dma.kind <= 1)
        && source_good
        && (dma.fill == 0 || dma.kind == 3)
        && control.timing.line <= LAST_LINE
}

// Stores a word where the code and the address say.
fn store_word(state: &mut State, vram: &mut Memory, word: u16) {
    let address = state.control.port.address;
    match state.control.port.code & 0b1111 {
        0b0001 => store_vram(vram, address, word),
        0b0011 => store_colour(&mut state.cram, address, word),
        0b0101 => store_scroll(&mut state.vsram, address, word),
        _ => {}
    }
}

// Upper byte first at the even place; swapped if the address is odd.
fn store_vram(vram: &mut Memory, address: u16, word: u16) {
    let place = usize::from(address & !1);
    let word = if address & 1 == 0 {
        word
    } else {
        word.swap_bytes()
    };
    let [high, low] = word.to_be_bytes();
    vram[place] = high;
    vram[place | 1] = low;
}

fn store_colour(cram: &mut [u16; 64], address: u16, word: u16) {
    cram[usize::from(address / 2 % 64)] = word & 0x0EEE;
}

fn store_scroll(vsram: &mut [u16; 40], address: u16, word: u16) {
    if let Some(stored) = vsram.get_mut(usize::from(address / 2 % 64)) {
        *stored = word & 0x3FF;
    }
}

fn advance(state: &mut State) {
    let port = &mut state.control.port;
    port.address = port.address.wrapping_add(u16::from(state.registers[15]));
}

// A data write that trusts the state it is lent.
#[inline(never)]
pub fn data_write(state: &mut State, vram: &mut Memory, word: u16) -> Answer {
    let dma = &state.control.dma;
    if dma.kind >= 2 {
        return answer(BUSY, 0);
    }
    if dma.kind == 1 {
        state.control.dma = fill_begun(state, word);
    }
    store_word(state, vram, word);
    advance(state);
    state.control.port.pending = false;
    answer(DONE, 0)
}

// A data write that asks GOOD first, as the library does.
#[inline(never)]
pub fn data_write_asking_good(state: &mut State, vram: &mut Memory, word: u16) -> Answer {
    if !good(state) {
        return answer(BAD_STATE, 0);
    }
    data_write(state, vram, word)
}

fn fill_begun(state: &State, word: u16) -> Dma {
    let length = u16::from_be_bytes([state.registers[20], state.registers[19]]);
    Dma {
        kind: 3,
        remaining: if length == 0 {
            MOST_UNITS
        } else {
            u32::from(length)
        },
        source: 0,
        fill: (word >> 8) as u8,
    }
}

// Makes DMA units, at most as many as the budget.
#[inline(never)]
pub fn run(
    state: &mut State,
    vram: &mut Memory,
    cartridge: &[u8],
    ram: &Memory,
    budget: u32,
) -> Answer {
    if !good(state) {
        return answer(BAD_STATE, 0);
    }
    let units = budget.min(state.control.dma.remaining);
    match state.control.dma.kind {
        2 if lacking(&state.control.dma, cartridge, units) => return answer(SOURCE_NOT_LENT, 0),
        2 => transfer(state, vram, cartridge, ram, units),
        3 => fill(state, vram, units),
        4 => copy(state, vram, units),
        _ => return answer(DONE, 0),
    }
    if state.control.dma.remaining == 0 {
        state.control.dma = Dma::default();
    }
    answer(DONE, units)
}

fn lacking(dma: &Dma, cartridge: &[u8], units: u32) -> bool {
    let end = dma.source as usize + 2 * units as usize;
    units > 0 && dma.source < WORK_RAM && end > cartridge.len()
}

// No unit changes the code, so it is asked once.
fn transfer(state: &mut State, vram: &mut Memory, cartridge: &[u8], ram: &Memory, units: u32) {
    let code = state.control.port.code & 0b1111;
    let step = state.registers[15];
    let moved = Moved {
        control: &mut state.control,
        step,
        cartridge,
        ram,
        units,
    };
    match code {
        0b0001 => moved.to(|address, word| store_vram(vram, address, word)),
        0b0011 => moved.to(|address, word| store_colour(&mut state.cram, address, word)),
        0b0101 => moved.to(|address, word| store_scroll(&mut state.vsram, address, word)),
        _ => moved.to(|_, _| {}),
    }
}

// The words that a transfer moves, and what counts them.
struct Moved<'a> {
    control: &'a mut Control,
    step: u8,
    cartridge: &'a [u8],
    ram: &'a Memory,
    units: u32,
}

impl Moved<'_> {
    fn to(self, mut store: impl FnMut(u16, u16)) {
        let Control { port, dma, .. } = self.control;
        let (mut address, mut source) = (port.address, dma.source);
        for _ in 0..self.units {
            store(address, word_from(self.cartridge, self.ram, source));
            address = address.wrapping_add(u16::from(self.step));
            source = if source == 0xFF_FFFE {
                0xFF_0000
            } else {
                source + 2
            };
        }
        port.address = address;
        dma.source = source;
        dma.remaining -= self.units;
    }
}

// The word at a source; 0 where it lies in neither memory.
fn word_from(cartridge: &[u8], ram: &Memory, source: u32) -> u16 {
    if source >= WORK_RAM {
        let place = (source & 0xFFFE) as usize;
        return u16::from_be_bytes([ram[place], ram[place | 1]]);
    }
    let place = source as usize;
    match cartridge.get(place..place + 2) {
        Some(bytes) => u16::from_be_bytes([bytes[0], bytes[1]]),
        None => 0,
    }
}

pub fn fill(state: &mut State, vram: &mut Memory, units: u32) {
    let stores = state.control.port.code & 0b1111 == 0b0001;
    for _ in 0..units {
        if stores {
            vram[usize::from(state.control.port.address ^ 1)] = state.control.dma.fill;
        }
        advance(state);
        state.control.dma.remaining -= 1;
    }
}

fn copy(state: &mut State, vram: &mut Memory, units: u32) {
    for _ in 0..units {
        let source = state.control.dma.source & 0xFFFF;
        vram[usize::from(state.control.port.address)] = vram[source as usize];
        advance(state);
        let dma = &mut state.control.dma;
        dma.source = (source + 1) & 0xFFFF;
        dma.remaining -= 1;
    }
}

pub fn answer(number: u8, result: u32) -> Answer {
    Answer { number, result }
}
