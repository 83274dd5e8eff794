//! The book: full copies of state and VRAM, one page a step, to hold against the tape
//! (definition, The book). It never looks at a record.

use crate::answer::{
    need, Answer, BAD_BUFFER, BAD_STATE, BUSY, DONE, NOTHING_THERE, NOT_MODELLED, NO_SUCH_PLACE,
    SOURCE_NOT_LENT, TAPE_FULL,
};
use crate::calls::{memories_good, PIXELS};
use crate::dma::{self, Memories};
use crate::draw;
use crate::ports;
use crate::state::{State, Vram, TRANSFER};
use crate::timing;

/// A recorded call with its arguments, as the book is told of it.
pub enum Call<'a> {
    ControlWrite(u16),
    DataWrite(u16),
    DataRead,
    StatusRead,
    Run { memories: Memories<'a>, budget: u32 },
    Line { pixels: usize, line: u32 },
    NewFrame,
    LineBegins,
    Acknowledge(u8),
    StepBack(u32),
}

#[derive(Clone)]
struct Page {
    state: State,
    vram: Box<Vram>,
}

pub struct Book {
    present: Page,
    pages: Vec<Page>,
}

impl Book {
    pub fn begin(state: &State, vram: &Vram) -> Book {
        let present = Page { state: state.clone(), vram: Box::new(*vram) };
        Book { present, pages: Vec::new() }
    }

    pub fn count(&self) -> usize {
        self.pages.len()
    }

    pub fn state(&self) -> &State {
        &self.present.state
    }

    pub fn vram(&self) -> &Vram {
        &self.present.vram
    }

    /// Takes a call in and gives its number; a refused call changes nothing.
    pub fn take(&mut self, call: &Call, capacity: usize) -> Answer {
        match self.refusal(call, capacity) {
            Err(number) => number,
            Ok(()) => {
                self.follow(call);
                DONE
            }
        }
    }

    fn refusal(&self, call: &Call, capacity: usize) -> Result<(), Answer> {
        need(self.present.state.good(), BAD_STATE)?;
        need(self.pages.len() <= capacity, BAD_BUFFER)?;
        need(buffers_good(call), BAD_BUFFER)?;
        need(!self.busy(call), BUSY)?;
        self.place_refusal(call)?;
        need(self.steps(call) <= capacity - self.pages.len(), TAPE_FULL)
    }

    fn busy(&self, call: &Call) -> bool {
        match call {
            Call::StatusRead => self.present.state.kind == TRANSFER,
            Call::ControlWrite(_) | Call::DataWrite(_) | Call::DataRead => {
                self.present.state.running()
            }
            _ => false,
        }
    }

    /// The refusals that belong to one sort of call each.
    fn place_refusal(&self, call: &Call) -> Result<(), Answer> {
        let state = &self.present.state;
        match call {
            Call::StepBack(steps) => need(*steps as usize <= self.pages.len(), NOTHING_THERE),
            Call::Acknowledge(level) => need(timing::offered(state, *level), NOTHING_THERE),
            Call::LineBegins => need(!state.pal, NOT_MODELLED),
            Call::Line { line, .. } => {
                need(*line < draw::height(state), NO_SUCH_PLACE)?;
                need(draw::not_modelled(state).is_none(), NOT_MODELLED)
            }
            Call::Run { memories, budget } => {
                let units = dma::units(state, *budget);
                need(dma::all_lent(state, units, *memories), SOURCE_NOT_LENT)
            }
            _ => Ok(()),
        }
    }

    /// Pages the call would add.
    fn steps(&self, call: &Call) -> usize {
        match call {
            Call::StepBack(_) => 0,
            Call::Run { budget, .. } => dma::units(&self.present.state, *budget) as usize,
            _ => 1,
        }
    }

    fn follow(&mut self, call: &Call) {
        if let Call::StepBack(steps) = call {
            self.turn_back(*steps as usize);
            return;
        }
        for _ in 0..self.steps(call) {
            self.pages.push(self.present.clone());
            step(&mut self.present, call);
        }
    }

    /// The k-th page from the top becomes the present; it and those above go.
    fn turn_back(&mut self, steps: usize) {
        if steps == 0 {
            return;
        }
        let left = self.pages.len().saturating_sub(steps);
        if let Some(page) = self.pages.drain(left..).next() {
            self.present = page;
        }
    }
}

/// VRAM is always whole in the book; the other buffers come with the call.
fn buffers_good(call: &Call) -> bool {
    match call {
        Call::Run { memories, .. } => memories_good(*memories),
        Call::Line { pixels, .. } => *pixels == PIXELS,
        _ => true,
    }
}

/// One step by the plain form's definition.
fn step(page: &mut Page, call: &Call) {
    let (state, vram) = (&mut page.state, &mut page.vram);
    match call {
        Call::ControlWrite(word) => ports::control_write(state, *word),
        Call::DataWrite(word) => ports::data_write(state, vram, *word),
        Call::DataRead => drop(ports::data_read(state, vram)),
        Call::StatusRead => drop(ports::status_read(state)),
        Call::Run { memories, .. } => dma::unit(state, vram, *memories),
        Call::NewFrame => ports::new_frame(state),
        Call::LineBegins => timing::line_begins(state),
        Call::Acknowledge(level) => timing::acknowledge(state, *level),
        Call::Line { line, .. } => {
            let picture = draw::picture(state, vram, *line);
            picture.leave(state);
        }
        Call::StepBack(_) => (),
    }
}
