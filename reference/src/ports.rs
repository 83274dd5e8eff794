//! What each port access does to the state and VRAM, once it is accepted
//! (definition, Ports; notes s7 to s10). Refusals are in calls.rs.

use crate::dma;
use crate::state::{State, Vram, COLOUR_BITS, FILL_WAITING, IDLE, REGISTERS, SCROLLS, SCROLL_MOST};
use crate::timing;

/// A byte on a port counts as a word with the byte in both halves.
pub fn doubled(byte: u8) -> u16 {
    257 * u16::from(byte)
}

/// What the control port takes a word for.
#[derive(Clone, Copy, Debug, PartialEq, Eq)]
pub enum Taken {
    /// A write to the register of this number.
    RegisterWrite(usize),
    /// A write to one of registers 24 to 31, which do not exist.
    MissingRegister,
    FirstHalf,
    SecondHalf,
}

impl Taken {
    /// A second half if one is awaited, else a register write or a first half. Bit 13 of a register
    /// write is ignored.
    pub fn of(word: u16, pending: bool) -> Taken {
        let number = usize::from(word / 256 % 32);
        match word >> 14 {
            _ if pending => Taken::SecondHalf,
            0b10 if number < REGISTERS => Taken::RegisterWrite(number),
            0b10 => Taken::MissingRegister,
            _ => Taken::FirstHalf,
        }
    }

    /// Is a second half awaited after it?
    pub fn leaves_pending(self) -> bool {
        self == Taken::FirstHalf
    }
}

/// Control write; one to a register that does not exist changes nothing at all.
pub fn control_write(state: &mut State, word: u16) {
    let taken = Taken::of(word, state.pending);
    match taken {
        Taken::RegisterWrite(number) => register_write(state, number, word),
        Taken::MissingRegister => (),
        Taken::FirstHalf => first_half(state, word),
        Taken::SecondHalf => second_half(state, word),
    }
    state.pending = taken.leaves_pending();
}

fn register_write(state: &mut State, number: usize, word: u16) {
    let [_, value] = word.to_be_bytes();
    state.registers[number] = value;
    state.code = 0;
    drop_waiting_fill(state);
}

/// The upper bits of code and address stay until the second half.
fn first_half(state: &mut State, word: u16) {
    let [upper, _] = word.to_be_bytes();
    state.code = (state.code & 0x3C) | (upper >> 6);
    state.address = (state.address & 0xC000) | (word & 0x3FFF);
    drop_waiting_fill(state);
}

fn second_half(state: &mut State, word: u16) {
    let [_, lower] = word.to_be_bytes();
    state.code = (state.code & 0x03) | ((lower >> 4) << 2);
    state.address = (state.address & 0x3FFF) | ((word & 3) << 14);
    dma::start_if_asked(state);
}

fn drop_waiting_fill(state: &mut State) {
    if state.kind == FILL_WAITING {
        state.kind = IDLE;
    }
}

/// Data write; a waiting fill begins right after it.
pub fn data_write(state: &mut State, vram: &mut Vram, word: u16) {
    move_word(state, vram, word);
    state.pending = false;
    if state.kind == FILL_WAITING {
        let [upper, _] = word.to_be_bytes();
        dma::begin_fill(state, upper);
    }
}

/// The part of a data write that a transfer unit shares: store by code, move the address.
pub fn move_word(state: &mut State, vram: &mut Vram, word: u16) {
    match state.code & 0x0F {
        0b0001 => store_vram(state, vram, word),
        0b0011 => state.colours[colour_place(state.address)] = word & COLOUR_BITS,
        0b0101 => store_scroll(state, word),
        _ => (),
    }
    advance(state);
}

/// Upper byte first at the even address; an odd address swaps the two bytes.
fn store_vram(state: &State, vram: &mut Vram, word: u16) {
    let stored = if state.address % 2 == 1 { word.swap_bytes() } else { word };
    let [upper, lower] = stored.to_be_bytes();
    let even = usize::from(state.address & 0xFFFE);
    vram[even] = upper;
    vram[even + 1] = lower;
}

/// Scroll places 40 to 63 do not exist.
fn store_scroll(state: &mut State, word: u16) {
    let place = scroll_place(state.address);
    if place < SCROLLS {
        state.scrolls[place] = word & SCROLL_MOST;
    }
}

fn colour_place(address: u16) -> usize {
    usize::from(address / 2 % 64)
}

fn scroll_place(address: u16) -> usize {
    usize::from(address / 2 % 64)
}

/// Register 15 is added after every data access and DMA unit, mod 65,536.
pub fn advance(state: &mut State) {
    let step = u16::from(state.registers[15]);
    state.address = state.address.wrapping_add(step);
}

/// Data read; an odd address is not swapped, and what is absent reads 0.
pub fn data_read(state: &mut State, vram: &Vram) -> u16 {
    let word = match state.code & 0x0F {
        0b0000 => vram_word(vram, state.address),
        0b1000 => state.colours[colour_place(state.address)],
        0b0100 => *state.scrolls.get(scroll_place(state.address)).unwrap_or(&0),
        _ => 0,
    };
    advance(state);
    state.pending = false;
    word
}

fn vram_word(vram: &Vram, address: u16) -> u16 {
    let even = usize::from(address & 0xFFFE);
    u16::from_be_bytes([vram[even], vram[even + 1]])
}

/// Status read: the word as it was before the read, which clears pending and both sprite flags.
/// All else is left: "used up and vertical stay".
pub fn status_read(state: &mut State) -> u16 {
    let word = status_word(state);
    state.pending = false;
    clear_sprite_flags(state);
    word
}

/// Only the modelled bits, the rest as on an idle chip.
fn status_word(state: &State) -> u16 {
    let bit = |set: bool, value: u16| if set { value } else { 0 };
    0x3600
        + bit(state.vertical, 0x80)
        + bit(state.overflow, 0x40)
        + bit(state.collision, 0x20)
        + bit(timing::vertical_blanking(state), 8)
        + bit(dma::shows_in_status(state), 2)
        + bit(state.pal, 1)
}

/// A new frame begins with both sprite flags and used up clear; a half that is awaited stays so,
/// and so does the line.
pub fn new_frame(state: &mut State) {
    clear_sprite_flags(state);
    state.used_up = false;
}

/// Those that the status word shows.
fn clear_sprite_flags(state: &mut State) {
    state.overflow = false;
    state.collision = false;
}
