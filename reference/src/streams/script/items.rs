//! Items for scripts. A phrase of another kind is rehearsed: its calls are made and kept as items,
//! and then the machine is as it was before them.

use crate::answer::Reply;
use crate::ports::doubled;
use crate::replay::Command;
use crate::script::Item;
use crate::streams::masking::{self, Entry};
use crate::streams::{dma, drawing, ports, Maker};

/// The calls of a phrase, each with its reply.
pub type Rehearsal = Vec<(Item, Reply)>;

impl Maker {
    /// The calls that a phrase would make here. What it sets by hand falls away, but registers are
    /// mostly written, as they are where calls are recorded.
    pub fn rehearse(&mut self, phrase: impl FnOnce(&mut Maker)) -> Rehearsal {
        let machine = self.machine.clone();
        self.machine.recorded = true;
        self.rehearsal = Some(Rehearsal::new());
        phrase(self);
        self.machine = machine;
        self.rehearsal.take().unwrap_or_default()
    }

    /// How many calls the rehearsal has so far.
    pub fn kept(&self) -> usize {
        self.rehearsal.as_ref().map_or(0, Rehearsal::len)
    }

    /// Makes a call that a script can make, and keeps it.
    pub fn keep(&mut self, command: &Command) {
        if let (Some(calls), Some(item)) = (&mut self.rehearsal, item_of(command)) {
            calls.push((item, self.machine.lent().0.call(item)));
        }
    }
}

/// The item for a call. Numbers of more than 16 bits become the greatest that it can have.
fn item_of(command: &Command) -> Option<Item> {
    let number = command.c.min(0xFFFF) as u16;
    match command.op {
        1 => Some(Item::ControlWrite(command.b)),
        2 => Some(Item::ControlWrite(doubled(command.a))),
        3 => Some(Item::DataWrite(command.b)),
        4 => Some(Item::DataWrite(doubled(command.a))),
        5 => Some(Item::DataRead),
        6 => Some(Item::StatusRead),
        7 => Some(Item::Run(number)),
        8 => Some(Item::Line(number)),
        9 => Some(Item::NewFrame),
        _ => None,
    }
}

/// The calls that are done. A refused one changes nothing, so that it may be left out.
pub fn done(calls: Rehearsal) -> Vec<Item> {
    calls.into_iter().filter(|(_, reply)| reply.is_ok()).map(|(item, _)| item).collect()
}

/// All the calls, up to the first refused one and after it.
pub fn all(calls: Rehearsal) -> Vec<Item> {
    calls.into_iter().map(|(item, _)| item).collect()
}

/// The byte that each item begins at if they follow one another from byte 1 on, and that after the
/// last one.
pub fn bytes_of(items: &[Item]) -> Vec<u32> {
    let mut at = 1;
    let mut bytes = vec![at];
    for item in items {
        at += item.bytes().len() as u32;
        bytes.push(at);
    }
    bytes
}

/// Any item at all.
pub fn any_item(maker: &mut Maker) -> Item {
    let word = maker.word();
    maker.pick(&[
        Item::ControlWrite(word),
        Item::DataWrite(word),
        Item::DataRead,
        Item::StatusRead,
        Item::Run(word),
        Item::Line(word % 256),
        Item::NewFrame,
    ])
}

/// Calls that do something: ports, DMA, lines. Sometimes what they stored is read then.
pub fn phrase(maker: &mut Maker) {
    match maker.below(26) {
        0..=4 => ports::episode(maker),
        5 | 6 => dma::transfer(maker),
        7 | 8 => dma::fill_dma(maker),
        9 | 10 => dma::copy(maker),
        11 => longest(maker),
        12..=14 => written_and_read(maker),
        15 | 16 => drawing::lines(maker),
        17 => masking::blanked(maker),
        18..=20 => sprites(maker),
        21 => maker.clear_flags(),
        22 | 23 => half(maker),
        24 => maker.access(),
        _ => dma::runs(maker),
    }
    if maker.once_in(3) {
        maker.calm();
        look(maker);
    }
}

/// The greatest budget that an item can have is one less than the most units, so one remains.
fn longest(maker: &mut Maker) {
    dma::begin_longest(maker);
    maker.run(0xFFFF);
}

/// Half a command, the first or the second, with what is left awaited from before.
fn half(maker: &mut Maker) {
    let word = maker.first_half() & 0xFF13;
    maker.control(word);
}

/// Words for VRAM, for colours or for scroll words, which are then read.
pub fn written_and_read(maker: &mut Maker) {
    let (code, step) = (maker.pick(&[1, 1, 3, 5]), maker.step());
    maker.register(15, step);
    let address = maker.address();
    maker.point(code, address);
    for _ in 0..1 + maker.below(3) {
        let word = maker.word();
        maker.write(word);
    }
    look(maker);
}

/// Reads words back that the latest data writes or units may have stored.
pub fn look(maker: &mut Maker) {
    let state = &maker.machine.state;
    let code = match state.code & 0x0F {
        0b0011 => 0b1000,
        0b0101 => 0b0100,
        _ => 0b0000,
    };
    let (end, step) = (state.address, u16::from(state.registers[15]));
    let words = 1 + maker.word() % 2;
    maker.point(code, end.wrapping_sub(words * step));
    for _ in 0..words {
        maker.read();
    }
}

/// A line that shows a few sprites, which are written to their table just before it. The table is
/// often their pattern too, so that they have solid pixels.
pub fn sprites(maker: &mut Maker) {
    maker.calm();
    drawing::sane(maker);
    drawing::set(maker, 15, 2);
    let line = maker.below(224);
    let table = (drawing::sprite_base(maker) / 32) as u16;
    let mut entries = Vec::new();
    for _ in 0..maker.pick(&[1, 2, 2, 3]) {
        let size = masking::size(1 + maker.below(4), 1 + maker.below(2));
        let (any, x) = (maker.word(), 140 + maker.word() % 24);
        let cell = maker.pick(&[any, any & 0xF800 | table, any & 0xF800 | table]);
        entries.push(Entry { line, size, cell, x });
    }
    let back = maker.pick(&[0, 0, entries.len() - 1]);
    masking::table(maker, &entries, back);
    maker.line(line);
    maker.clear_flags();
}
