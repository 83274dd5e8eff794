//! Seeded streams of calls: the kinds, and the maker that writes commands one by one
//! while a machine of its own follows them, so that the next command can fit.

pub mod dma;
mod drawing;
mod masking;
mod mix;
mod ports;
pub mod reader;
mod refusals;
pub mod script;
mod shading;
mod tape;
mod timing;

use crate::replay::{Command, Machine};
use crate::script::Item;
use script::items::Rehearsal;

#[derive(Clone, Copy, Debug, PartialEq, Eq)]
pub enum Kind {
    Ports,
    Dma,
    Refusals,
    Tape,
    Timing,
    Drawing,
    Mix,
    Script,
    Reader,
}

impl Kind {
    pub const ALL: [(Kind, &'static str); 9] = [
        (Kind::Ports, "ports"),
        (Kind::Dma, "dma"),
        (Kind::Refusals, "refusals"),
        (Kind::Tape, "tape"),
        (Kind::Timing, "timing"),
        (Kind::Drawing, "drawing"),
        (Kind::Mix, "mix"),
        (Kind::Script, "script"),
        (Kind::Reader, "reader"),
    ];

    pub fn named(name: &str) -> Option<Kind> {
        let found = Kind::ALL.iter().find(|(_, word)| *word == name);
        found.map(|(kind, _)| *kind)
    }
}

/// A stream of exactly `count` commands; the last one asks for the digests.
pub fn stream(seed: u64, kind: Kind, count: usize) -> Vec<Command> {
    let mut maker = Maker::new(seed, kind, count);
    match kind {
        Kind::Ports => ports::fill(&mut maker),
        Kind::Dma => dma::fill(&mut maker),
        Kind::Refusals => refusals::fill(&mut maker),
        Kind::Tape => tape::fill(&mut maker),
        Kind::Timing => timing::fill(&mut maker),
        Kind::Drawing => drawing::fill(&mut maker),
        Kind::Mix => mix::fill(&mut maker),
        Kind::Script => script::fill(&mut maker),
        Kind::Reader => reader::fill(&mut maker),
    }
    maker.finish()
}

/// A digest is asked for after this many calls.
const CALLS_A_DIGEST: u32 = 20;
const DIGESTS: u8 = 48;
const ASK_DIGESTS: Command = Command { op: DIGESTS, a: 0, b: 0, c: 0 };

pub struct Maker {
    random: u64,
    commands: Vec<Command>,
    count: usize,
    calls: u32,
    /// While this is there, calls are kept as items and there are no commands.
    rehearsal: Option<Rehearsal>,
    /// Follows the commands, so that the maker knows where the chip is.
    pub machine: Machine,
}

impl Maker {
    pub fn new(seed: u64, kind: Kind, count: usize) -> Maker {
        Maker {
            random: seed.wrapping_mul(6_364_136_223_846_793_005) ^ (kind as u64 + 1),
            commands: Vec::new(),
            count,
            calls: 0,
            rehearsal: None,
            machine: Machine::new(),
        }
    }

    /// Is there room for the last digests only?
    pub fn full(&self) -> bool {
        self.commands.len() + 1 >= self.count
    }

    fn finish(mut self) -> Vec<Command> {
        if self.commands.len() < self.count {
            self.commands.push(ASK_DIGESTS);
        }
        self.commands
    }

    /// Adds a command, unless the stream is full.
    pub fn emit(&mut self, op: u8, a: u8, b: u16, c: u32) {
        let command = Command { op, a, b, c };
        self.add(command);
        if command.calls() {
            self.calls += 1;
            // The next line would hide this one's pixels: each line, row and script is looked at.
            let pixels = matches!(op, 8 | 11 | 17);
            if self.calls % CALLS_A_DIGEST == 0 || pixels {
                self.digests();
            }
        }
    }

    pub fn digests(&mut self) {
        self.add(ASK_DIGESTS);
    }

    fn add(&mut self, command: Command) {
        if self.rehearsal.is_some() {
            self.keep(&command);
            return;
        }
        if self.full() {
            return;
        }
        self.commands.push(command);
        if command.op != DIGESTS {
            self.machine.apply(&command);
        }
    }
}

/// Numbers by chance (splitmix64).
impl Maker {
    pub fn number(&mut self) -> u32 {
        self.random = self.random.wrapping_add(0x9E37_79B9_7F4A_7C15);
        let mut z = self.random;
        z = (z ^ (z >> 30)).wrapping_mul(0xBF58_476D_1CE4_E5B9);
        z = (z ^ (z >> 27)).wrapping_mul(0x94D0_49BB_1331_11EB);
        ((z ^ (z >> 31)) >> 32) as u32
    }

    /// A number below n, or 0 if there is none.
    pub fn below(&mut self, n: u32) -> u32 {
        self.number().checked_rem(n).unwrap_or(0)
    }

    pub fn word(&mut self) -> u16 {
        (self.number() >> 16) as u16
    }

    pub fn byte(&mut self) -> u8 {
        (self.number() >> 24) as u8
    }

    /// True once in n times.
    pub fn once_in(&mut self, n: u32) -> bool {
        self.below(n) == 0
    }

    pub fn pick<T: Copy>(&mut self, list: &[T]) -> T {
        list[self.below(list.len() as u32) as usize]
    }
}

/// The calls of the model, by name.
impl Maker {
    pub fn control(&mut self, word: u16) {
        self.emit(1, 0, word, 0);
    }

    pub fn control_byte(&mut self, byte: u8) {
        self.emit(2, byte, 0, 0);
    }

    pub fn write(&mut self, word: u16) {
        self.emit(3, 0, word, 0);
    }

    pub fn write_byte(&mut self, byte: u8) {
        self.emit(4, byte, 0, 0);
    }

    pub fn read(&mut self) {
        self.emit(5, 0, 0, 0);
    }

    pub fn status(&mut self) {
        self.emit(6, 0, 0, 0);
    }

    pub fn run(&mut self, budget: u32) {
        self.emit(7, 0, 0, budget);
    }

    pub fn line(&mut self, line: u32) {
        self.emit(8, 0, 0, line);
    }

    pub fn frame(&mut self) {
        self.emit(9, 0, 0, 0);
    }

    pub fn back(&mut self, steps: u32) {
        self.emit(10, 0, 0, steps);
    }

    pub fn row(&mut self, name: u16, row: u32) {
        self.emit(11, 0, name, row);
    }

    pub fn colour(&mut self, word: u16, register0: u8) {
        self.emit(12, register0, word, 0);
    }

    pub fn begins(&mut self) {
        self.emit(13, 0, 0, 0);
    }

    pub fn acknowledge(&mut self, level: u8) {
        self.emit(14, level, 0, 0);
    }

    pub fn v_counter(&mut self) {
        self.emit(15, 0, 0, 0);
    }

    pub fn level(&mut self) {
        self.emit(16, 0, 0, 0);
    }

    pub fn run_script(&mut self) {
        self.emit(17, 0, 0, 0);
    }

    /// Of op 19 nothing is looked at, and of the next two not all.
    pub fn start_reader(&mut self) {
        let (any, more) = (self.byte(), self.word());
        self.emit(19, any, more, 0);
    }

    pub fn deliver(&mut self, from: u32, bytes: u32) {
        let any = self.byte();
        self.emit(20, any, from as u16, bytes);
    }

    pub fn end_notice(&mut self) {
        let (any, more) = (self.byte(), self.word());
        self.emit(22, any, more, 0);
    }

    /// An item without a content has any, which is not looked at.
    pub fn write_item(&mut self, item: Item, at: u32) {
        let any = self.word();
        self.emit(18, item.kind(), item.content().unwrap_or(any), at);
    }
}

/// Fields of the state for op 32.
pub const REGISTER: u8 = 0;
pub const COLOUR: u8 = 1;
pub const SCROLL: u8 = 2;
pub const ADDRESS: u8 = 3;
pub const CODE: u8 = 4;
pub const PENDING: u8 = 5;
pub const DMA_KIND: u8 = 6;
pub const REMAINING: u8 = 7;
pub const SOURCE: u8 = 8;
pub const FILL_BYTE: u8 = 9;
pub const OVERFLOW: u8 = 10;
pub const COLLISION: u8 = 11;
pub const PAL: u8 = 12;
pub const LINE: u8 = 13;
pub const COUNTER: u8 = 14;
pub const VERTICAL: u8 = 15;
pub const HORIZONTAL: u8 = 16;
pub const USED_UP: u8 = 17;

/// The set-up commands, by name.
impl Maker {
    pub fn field(&mut self, field: u8, place: u16, value: u32) {
        self.emit(32, field, place, value);
    }

    pub fn fresh(&mut self, pal: bool) {
        self.emit(33, u8::from(pal), 0, 0);
    }

    pub fn poke(&mut self, buffer: u16, at: u32, byte: u8) {
        self.emit(34, byte, buffer, at);
    }

    /// Fills a buffer with bytes by chance.
    pub fn scatter(&mut self, buffer: u16) {
        let seed = self.number();
        self.emit(35, 0, buffer, seed);
    }

    pub fn length(&mut self, buffer: u16, length: u32) {
        self.emit(36, 0, buffer, length);
    }

    pub fn count(&mut self, count: u32) {
        self.emit(37, 0, 0, count);
    }

    pub fn recorded(&mut self, recorded: bool) {
        self.emit(38, u8::from(recorded), 0, 0);
    }

    pub fn flood(&mut self, buffer: u16, byte: u8) {
        self.emit(39, byte, buffer, 0);
    }
}

/// Small phrases that every kind uses.
impl Maker {
    /// Writes a register, first ending a half command; bit 13 does not matter.
    pub fn register(&mut self, number: u16, value: u8) {
        self.settle();
        let bit13 = if self.once_in(8) { 0x2000 } else { 0 };
        self.control(0x8000 | bit13 | (number % 32) << 8 | u16::from(value));
    }

    /// Ends a half command by a status read, which also clears the sprite flags.
    pub fn settle(&mut self) {
        if self.machine.state.pending {
            self.status();
        }
    }

    /// Sets one sprite flag or both by hand, and perhaps used up.
    pub fn raise_flags(&mut self) {
        let (overflow, collision) = self.pick(&[(1, 0), (0, 1), (1, 1)]);
        self.field(OVERFLOW, 0, overflow);
        self.field(COLLISION, 0, collision);
        let used_up = self.number();
        self.field(USED_UP, 0, used_up);
    }

    /// Clears the sprite flags by a new frame or a status read; another status read shows it. Only
    /// the new frame clears used up.
    pub fn clear_flags(&mut self) {
        if self.once_in(2) {
            self.frame();
        } else {
            self.status();
        }
        self.status();
    }

    /// The number of a register that there is not.
    pub fn missing_register(&mut self) -> u16 {
        24 + self.word() % 8
    }

    /// A word that is a first half, unless another half is awaited.
    pub fn first_half(&mut self) -> u16 {
        self.pick(&[0x0000, 0x4000, 0xC000]) | self.word() & 0x3FFF
    }

    /// Sets code and address by two control words; the unused bits vary.
    /// A first half cannot give CD1-CD0 = 10, that is a register write: 01 is taken instead.
    pub fn point(&mut self, code: u8, address: u16) {
        self.settle();
        let code = if code % 4 == 2 { code ^ 3 } else { code };
        let code = u16::from(code % 64);
        self.control((code & 3) << 14 | (address & 0x3FFF));
        let unused = if self.once_in(3) { self.word() & 0xFF0C } else { 0 };
        self.control(unused | (code >> 2) << 4 | address >> 14);
    }

    /// A step for register 15, mostly a plausible one.
    pub fn step(&mut self) -> u8 {
        let other = self.byte();
        self.pick(&[0, 1, 1, 2, 2, 2, 2, 3, 4, 0x80, 0xFF, other])
    }

    /// An address with the edges more often than chance would have them.
    pub fn address(&mut self) -> u16 {
        let other = self.word();
        let near = self.word() % 256;
        let edges = [
            0, 1, 2, 0x4E, 0x4F, 0x50, 0x51, 0x7E, 0x7F, 0x80, 0x3FFF, 0x4000, 0x7FFF, 0x8000,
            0xC000, 0xFFFC, 0xFFFD, 0xFFFE, 0xFFFF, near, near, near, other, other, other,
        ];
        self.pick(&edges)
    }

    /// One data access: write or read, word or byte.
    pub fn access(&mut self) {
        match self.below(8) {
            0..=2 => {
                let word = self.word();
                self.write(word);
            }
            3 => {
                let word = self.pick(&[0, 0xFFFF, 0x1234, 0x0EEE, 0x03FF, 0x0400, 0xF111]);
                self.write(word);
            }
            4 => {
                let byte = self.byte();
                self.write_byte(byte);
            }
            _ => self.read(),
        }
    }

    /// Gets out of a transfer, fill or copy: to its end if it can, else back or by set-up.
    pub fn calm(&mut self) {
        if !self.machine.state.running() {
            return;
        }
        let rest = self.machine.state.remaining;
        let budget = self.pick(&[rest, rest, rest.saturating_add(1), u32::MAX]);
        self.run(budget);
        if self.machine.state.running() && self.machine.recorded {
            self.back(self.machine.count);
        }
        if self.machine.state.running() {
            self.field(DMA_KIND, 0, 0);
            self.field(REMAINING, 0, 0);
            self.field(SOURCE, 0, 0);
            self.field(FILL_BYTE, 0, 0);
        }
    }
}
