//! The chip's state and what makes it GOOD (definition, The state).

pub const VRAM_BYTES: usize = 65_536;
pub const REGISTERS: usize = 24;
pub const COLOURS: usize = 64;
pub const SCROLLS: usize = 40;

/// The bits a colour word has: three for each part, every lowest bit unused.
pub const COLOUR_BITS: u16 = 0x0EEE;
/// The greatest vertical scroll word.
pub const SCROLL_MOST: u16 = 0x3FF;
/// The most units that can remain; a length of zero stands for as many (definition, DMA).
pub const UNITS_MOST: u32 = 65_536;
/// A frame has 262 lines, the first of them line 0 (definition, Frame timing).
pub const LAST_LINE: u16 = 261;

pub type Vram = [u8; VRAM_BYTES];

/// DMA kinds.
pub const IDLE: u8 = 0;
pub const FILL_WAITING: u8 = 1;
pub const TRANSFER: u8 = 2;
pub const FILL: u8 = 3;
pub const COPY: u8 = 4;

#[derive(Clone, Debug, PartialEq, Eq)]
pub struct State {
    pub registers: [u8; REGISTERS],
    pub colours: [u16; COLOURS],
    pub scrolls: [u16; SCROLLS],
    pub address: u16,
    pub code: u8,
    pub pending: bool,
    pub kind: u8,
    pub remaining: u32,
    pub source: u32,
    pub fill: u8,
    pub overflow: bool,
    pub collision: bool,
    pub used_up: bool,
    pub line: u16,
    pub counter: u8,
    pub vertical: bool,
    pub horizontal: bool,
    pub pal: bool,
}

impl State {
    /// The state after power on; the first line to begin is line 0.
    pub fn fresh(pal: bool) -> State {
        State {
            registers: [0; REGISTERS],
            colours: [0; COLOURS],
            scrolls: [0; SCROLLS],
            address: 0,
            code: 0,
            pending: false,
            kind: IDLE,
            remaining: 0,
            source: 0,
            fill: 0,
            overflow: false,
            collision: false,
            used_up: false,
            line: LAST_LINE,
            counter: 0,
            vertical: false,
            horizontal: false,
            pal,
        }
    }

    pub fn good(&self) -> bool {
        self.colours.iter().all(|word| word & !COLOUR_BITS == 0)
            && self.scrolls.iter().all(|word| *word <= SCROLL_MOST)
            && self.code <= 63
            && self.kind <= COPY
            && self.remaining_good()
            && self.source_good()
            && (self.fill == 0 || self.kind == FILL)
            && self.line <= LAST_LINE
    }

    /// Units remain exactly while a transfer, fill or copy is under way.
    fn remaining_good(&self) -> bool {
        let under_way = self.kind != IDLE && self.kind != FILL_WAITING;
        self.remaining <= UNITS_MOST && (self.remaining != 0) == under_way
    }

    fn source_good(&self) -> bool {
        match self.kind {
            TRANSFER => self.source % 2 == 0 && self.source <= 0xFF_FFFF,
            COPY => self.source <= 0xFFFF,
            _ => self.source == 0,
        }
    }

    /// Is a transfer, fill or copy under way?
    pub fn running(&self) -> bool {
        matches!(self.kind, TRANSFER | FILL | COPY)
    }
}
