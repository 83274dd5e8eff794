//! The calls as a caller meets them: first the refusals in their order, then the work.
//! A call with a tape is the recorded form, without one the plain form (definition, The tape).

use crate::answer::{
    need, Answer, Reply, BAD_BUFFER, BAD_RECORD, BAD_STATE, BUSY, NOTHING_THERE, NOT_MODELLED,
    NO_SUCH_PLACE, SOURCE_NOT_LENT, TAPE_FULL,
};
use crate::cells::{self, Cell};
use crate::dma::{self, Memories};
use crate::draw;
use crate::pattern;
use crate::ports;
use crate::state::{State, Vram, TRANSFER, VRAM_BYTES};
use crate::tape::{good_record, undo, Tape};
use crate::timing;

pub const WORK_RAM_BYTES: usize = 65_536;
pub const CARTRIDGE_MOST: usize = 4_194_304;
pub const PIXELS: usize = 320;

fn lent_vram(bytes: &[u8]) -> Result<&Vram, Answer> {
    bytes.try_into().map_err(|_| BAD_BUFFER)
}

fn lent_vram_mut(bytes: &mut [u8]) -> Result<&mut Vram, Answer> {
    bytes.try_into().map_err(|_| BAD_BUFFER)
}

fn count_fits(tape: &Option<Tape>) -> Result<(), Answer> {
    need(tape.as_ref().is_none_or(Tape::count_fits), BAD_BUFFER)
}

fn has_room(tape: &Option<Tape>, steps: u32) -> Result<(), Answer> {
    let enough = tape.as_ref().is_none_or(|tape| steps as usize <= tape.room());
    need(enough, TAPE_FULL)
}

fn keep(tape: &mut Option<Tape>, before: &State, cell: Cell) {
    if let Some(tape) = tape {
        tape.put(before, cell);
    }
}

pub fn control_write(state: &mut State, mut tape: Option<Tape>, word: u16) -> Reply {
    need(state.good(), BAD_STATE)?;
    count_fits(&tape)?;
    need(!state.running(), BUSY)?;
    has_room(&tape, 1)?;
    let (before, cell) = (state.clone(), cells::of_control_write(state, word));
    ports::control_write(state, word);
    keep(&mut tape, &before, cell);
    Ok(0)
}

pub fn data_write(state: &mut State, vram: &mut [u8], mut tape: Option<Tape>, word: u16) -> Reply {
    need(state.good(), BAD_STATE)?;
    let vram = lent_vram_mut(vram)?;
    count_fits(&tape)?;
    need(!state.running(), BUSY)?;
    has_room(&tape, 1)?;
    let (before, cell) = (state.clone(), cells::of_word(state, vram));
    ports::data_write(state, vram, word);
    keep(&mut tape, &before, cell);
    Ok(0)
}

pub fn data_read(state: &mut State, vram: &[u8], mut tape: Option<Tape>) -> Reply {
    need(state.good(), BAD_STATE)?;
    let vram = lent_vram(vram)?;
    count_fits(&tape)?;
    need(!state.running(), BUSY)?;
    has_room(&tape, 1)?;
    let before = state.clone();
    let word = ports::data_read(state, vram);
    keep(&mut tape, &before, cells::NONE);
    Ok(u32::from(word))
}

/// Only a transfer keeps the processor from reading the status.
pub fn status_read(state: &mut State, mut tape: Option<Tape>) -> Reply {
    need(state.good(), BAD_STATE)?;
    count_fits(&tape)?;
    need(state.kind != TRANSFER, BUSY)?;
    has_room(&tape, 1)?;
    let before = state.clone();
    let word = ports::status_read(state);
    keep(&mut tape, &before, cells::NONE);
    Ok(u32::from(word))
}

pub fn new_frame(state: &mut State, mut tape: Option<Tape>) -> Reply {
    need(state.good(), BAD_STATE)?;
    count_fits(&tape)?;
    has_room(&tape, 1)?;
    let before = state.clone();
    ports::new_frame(state);
    keep(&mut tape, &before, cells::NONE);
    Ok(0)
}

/// Never busy. A PAL frame has more lines and is not modelled.
pub fn line_begins(state: &mut State, mut tape: Option<Tape>) -> Reply {
    need(state.good(), BAD_STATE)?;
    count_fits(&tape)?;
    need(!state.pal, NOT_MODELLED)?;
    has_room(&tape, 1)?;
    let before = state.clone();
    timing::line_begins(state);
    keep(&mut tape, &before, cells::NONE);
    Ok(0)
}

/// Only the level that is offered can be acknowledged, with PAL too.
pub fn acknowledge(state: &mut State, mut tape: Option<Tape>, level: u8) -> Reply {
    need(state.good(), BAD_STATE)?;
    count_fits(&tape)?;
    need(timing::offered(state, level), NOTHING_THERE)?;
    has_room(&tape, 1)?;
    let before = state.clone();
    timing::acknowledge(state, level);
    keep(&mut tape, &before, cells::NONE);
    Ok(0)
}

/// Changes nothing and has no recorded form.
pub fn v_counter_read(state: &State) -> Reply {
    need(state.good(), BAD_STATE)?;
    Ok(u32::from(timing::v_counter(state)))
}

/// Changes nothing and has no recorded form.
pub fn level_read(state: &State) -> Reply {
    need(state.good(), BAD_STATE)?;
    Ok(u32::from(timing::level(state)))
}

pub fn memories_good(memories: Memories) -> bool {
    memories.work_ram.len() == WORK_RAM_BYTES
        && memories.cartridge.len() <= CARTRIDGE_MOST
        && memories.cartridge.len() % 2 == 0
}

/// A run makes the smaller of budget and remaining units, or none at all if it is refused.
pub fn run(
    state: &mut State,
    vram: &mut [u8],
    memories: Memories,
    mut tape: Option<Tape>,
    budget: u32,
) -> Reply {
    need(state.good(), BAD_STATE)?;
    let vram = lent_vram_mut(vram)?;
    need(memories_good(memories), BAD_BUFFER)?;
    count_fits(&tape)?;
    let units = dma::units(state, budget);
    need(dma::all_lent(state, units, memories), SOURCE_NOT_LENT)?;
    has_room(&tape, units)?;
    for _ in 0..units {
        let (before, cell) = (state.clone(), cells::of_unit(state, vram));
        dma::unit(state, vram, memories);
        keep(&mut tape, &before, cell);
    }
    Ok(units)
}

/// Draws into the visible width only. The picture is made with the flags as they were before.
pub fn draw_line(
    state: &mut State,
    vram: &[u8],
    pixels: &mut [u8],
    mut tape: Option<Tape>,
    line: u32,
) -> Reply {
    need(state.good(), BAD_STATE)?;
    let vram = lent_vram(vram)?;
    need(pixels.len() == PIXELS, BAD_BUFFER)?;
    count_fits(&tape)?;
    need(line < draw::height(state), NO_SUCH_PLACE)?;
    need(draw::not_modelled(state).is_none(), NOT_MODELLED)?;
    has_room(&tape, 1)?;
    let before = state.clone();
    let picture = draw::picture(state, vram, line);
    for (place, index) in pixels.iter_mut().zip(&picture.pixels) {
        *place = *index;
    }
    picture.leave(state);
    keep(&mut tape, &before, cells::NONE);
    Ok(picture.visits)
}

/// Takes the top records back, from the top down; the tape's bytes stay.
pub fn step_back(state: &mut State, vram: &mut [u8], tape: Tape, steps: u32) -> Reply {
    need(state.good(), BAD_STATE)?;
    let vram = lent_vram_mut(vram)?;
    need(tape.count_fits(), BAD_BUFFER)?;
    need(steps <= *tape.count, NOTHING_THERE)?;
    let mut records = Vec::new();
    for number in 1..=steps {
        let record = tape.below_top(number).ok_or(BAD_RECORD)?;
        need(good_record(&record), BAD_RECORD)?;
        records.push(record);
    }
    for record in &records {
        undo(state, vram, record);
    }
    *tape.count -= steps;
    Ok(0)
}

/// The eight unflipped pixels of a pattern's row; no state is asked for.
pub fn pattern_row(vram: &[u8], pixels: &mut [u8], name: u16, row: u32) -> Reply {
    let vram = lent_vram(vram)?;
    need(pixels.len() == 8, BAD_BUFFER)?;
    need(name < pattern::NAMES && row < pattern::ROWS, NO_SUCH_PLACE)?;
    pixels.copy_from_slice(&pattern::row(vram, name, row as u16));
    Ok(0)
}

/// Never refused; the three parts as digits of a number.
pub fn colour_parts(word: u16, register0: u8) -> Reply {
    let [blue, green, red] = pattern::colour_parts(word, register0);
    Ok(256 * blue + 16 * green + red)
}

/// VRAM is lent at its full size or the call is refused.
pub fn vram_good(bytes: &[u8]) -> bool {
    bytes.len() == VRAM_BYTES
}
