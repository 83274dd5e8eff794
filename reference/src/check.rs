//! Replay with a book beside the tape, and every difference between the two.

use crate::book::{Book, Call};
use crate::calls::vram_good;
use crate::ports::doubled;
use crate::replay::{Command, Machine, TAPE, VRAM};
use crate::state::Vram;
use crate::tape::RECORD_BYTES;

/// The machine, and the book while it applies.
pub struct Checker {
    pub machine: Machine,
    book: Option<Book>,
    /// Calls that were held against a book so far.
    pub checked: u64,
}

impl Checker {
    pub fn new() -> Checker {
        Checker { machine: Machine::new(), book: None, checked: 0 }
    }

    /// Does a command; gives its lines, and a difference from the book if there is one.
    pub fn apply(&mut self, command: &Command) -> (Vec<String>, Option<String>) {
        if !booked(command, &self.machine) {
            let lines = self.machine.apply(command);
            self.drop_if_changed(command);
            return (lines, None);
        }
        self.begin_if_possible();
        let expected = self.take(command);
        let lines = self.machine.apply(command);
        let number = lines.last().and_then(|line| number_in(line));
        let difference = expected.and_then(|expected| self.difference(expected, number));
        (lines, difference)
    }

    /// A book begins at a count of 0 with a good state and whole VRAM.
    fn begin_if_possible(&mut self) {
        let machine = &self.machine;
        if self.book.is_some() || machine.count != 0 || !machine.state.good() {
            return;
        }
        if let Ok(vram) = <&Vram>::try_from(machine.vram.lent()) {
            self.book = Some(Book::begin(&machine.state, vram));
        }
    }

    /// Feeds the call to the book and gives the number it expects.
    fn take(&mut self, command: &Command) -> Option<u8> {
        let book = self.book.as_mut()?;
        let capacity = self.machine.tape.length / RECORD_BYTES;
        Some(book.take(&call_of(command, &self.machine)?, capacity))
    }

    fn difference(&mut self, expected: u8, number: Option<u8>) -> Option<String> {
        let book = self.book.as_ref()?;
        self.checked += 1;
        let machine = &self.machine;
        if number != Some(expected) {
            Some(format!("number {number:?}, the book gives {expected}"))
        } else if machine.count as usize != book.count() {
            Some(format!("count {}, the book has {}", machine.count, book.count()))
        } else if machine.state != *book.state() {
            Some("the state is not the book's".to_string())
        } else if machine.vram.lent() != book.vram() {
            Some("VRAM is not the book's".to_string())
        } else {
            None
        }
    }

    /// Anything but a booked call ends the book's say if it touched what the book follows. A script
    /// that is run is plain calls, and so is one that a reader is brought: they do too.
    fn drop_if_changed(&mut self, command: &Command) {
        let Some(book) = &self.book else {
            return;
        };
        let machine = &self.machine;
        let changed = machine.state != *book.state() || machine.vram.lent() != book.vram();
        if touches(command) || changed || !vram_good(machine.vram.lent()) {
            self.book = None;
        }
    }
}

/// Is this a recorded call or a step back?
pub fn booked(command: &Command, machine: &Machine) -> bool {
    command.op == 10 || (machine.recorded && command.recordable())
}

/// Does a set-up command touch state, VRAM, tape or count?
fn touches(command: &Command) -> bool {
    match command.op {
        32 | 33 | 37 => true,
        34..=36 | 39 => command.b == VRAM || command.b == TAPE,
        _ => false,
    }
}

fn call_of<'a>(command: &Command, machine: &'a Machine) -> Option<Call<'a>> {
    match command.op {
        1 => Some(Call::ControlWrite(command.b)),
        2 => Some(Call::ControlWrite(doubled(command.a))),
        3 => Some(Call::DataWrite(command.b)),
        4 => Some(Call::DataWrite(doubled(command.a))),
        5 => Some(Call::DataRead),
        6 => Some(Call::StatusRead),
        7 => Some(Call::Run { memories: machine.memories(), budget: command.c }),
        8 => Some(Call::Line { pixels: machine.pixels.length, line: command.c }),
        9 => Some(Call::NewFrame),
        10 => Some(Call::StepBack(command.c)),
        13 => Some(Call::LineBegins),
        14 => Some(Call::Acknowledge(command.a)),
        _ => None,
    }
}

/// The op in a line of output: its first word.
pub fn op_in(line: &str) -> Option<u8> {
    line.split(' ').next()?.parse().ok()
}

/// The answer's number in a line of output: its second word.
pub fn number_in(line: &str) -> Option<u8> {
    line.split(' ').nth(1)?.parse().ok()
}
