//! Scripts with a call that is refused, in each way that a plain call can be, at the first, a
//! middle or the last place.

use super::items::{any_item, done, phrase, written_and_read};
use super::{some_items, write};
use crate::replay::{CARTRIDGE, PIXELS, VRAM, WORK_RAM};
use crate::script::Item;
use crate::state::UNITS_MOST;
use crate::streams::{dma, drawing, refusals, Maker, CODE, LINE, REMAINING, SOURCE};

/// Why the call is refused.
#[derive(Clone, Copy, PartialEq, Eq)]
enum Why {
    BadState,
    Vram,
    Pixels,
    WorkRam,
    Cartridge,
    InTransfer,
    InFillOrCopy,
    NotModelled,
    NoSuchLine,
    NotLent,
}

/// Those that may refuse more calls than others come up more often.
const ALL: [Why; 19] = [
    Why::BadState,
    Why::BadState,
    Why::BadState,
    Why::Vram,
    Why::Vram,
    Why::Vram,
    Why::Pixels,
    Why::WorkRam,
    Why::Cartridge,
    Why::InTransfer,
    Why::InTransfer,
    Why::InFillOrCopy,
    Why::InFillOrCopy,
    Why::NotModelled,
    Why::NotModelled,
    Why::NoSuchLine,
    Why::NoSuchLine,
    Why::NotLent,
    Why::NotLent,
];

/// Those that calls alone lead to.
const BY_CALLS: [Why; 5] =
    [Why::InTransfer, Why::InFillOrCopy, Why::NotModelled, Why::NoSuchLine, Why::NotLent];

pub fn episode(maker: &mut Maker) {
    let (items, field) = some_refused(maker);
    write(maker, &items);
    maker.run_script();
    mend(maker, field);
    // Now the script may go further, or be refused at another place.
    if maker.once_in(3) {
        maker.run_script();
    }
}

/// A field of the state, and what it held before it was made bad.
pub type Spoilt = (u8, u32);

/// Calls that are done, one that is refused, and calls that would be done. What leads to the
/// refusal comes before the script, so that the first call may meet it, or is a part of the script.
pub fn some_refused(maker: &mut Maker) -> (Vec<Item>, Option<Spoilt>) {
    maker.calm();
    let why = maker.pick(&ALL);
    if matches!(why, Why::Pixels | Why::NotModelled | Why::NoSuchLine) {
        drawing::sane(maker);
    }
    let field = (why == Why::BadState).then(|| spoil_state(maker));
    lend_wrongly(maker, why);
    let mut items = Vec::new();
    if maker.once_in(2) {
        lead(maker, why);
    } else {
        let first = maker.pick(&[phrase, written_and_read, Maker::frame, Maker::status]);
        items = opening(maker, first, why);
    }
    items.push(refused(maker, why));
    if maker.once_in(2) {
        items.extend(some_items(maker));
    }
    (items, field)
}

/// Lengths as at the start, and the field as it was.
pub fn mend(maker: &mut Maker, field: Option<Spoilt>) {
    refusals::mend_lengths(maker);
    if let Some((field, value)) = field {
        maker.field(field, 0, value);
    }
}

/// Makes the state bad by one field, in every DMA kind; gives the field and what it held.
pub fn spoil_state(maker: &mut Maker) -> Spoilt {
    let state = &maker.machine.state;
    let fields = [
        (CODE, u32::from(state.code), 64),
        (LINE, u32::from(state.line), 262),
        (REMAINING, state.remaining, UNITS_MOST + 1),
        (SOURCE, state.source, 0x100_0000),
    ];
    let (field, old, wrong) = maker.pick(&fields);
    maker.field(field, 0, wrong);
    (field, old)
}

/// Lends one of the buffers at a wrong length.
pub fn lend_one_wrongly(maker: &mut Maker) {
    let why = maker.pick(&[Why::Vram, Why::Pixels, Why::WorkRam, Why::Cartridge]);
    lend_wrongly(maker, why);
}

fn lend_wrongly(maker: &mut Maker, why: Why) {
    let (buffer, lengths): (u16, &[u32]) = match why {
        Why::Vram => (VRAM, &[65_535, 65_537, 0]),
        Why::Pixels => (PIXELS, &[319, 321, 0]),
        Why::WorkRam => (WORK_RAM, &[65_535, 65_537, 0]),
        Why::Cartridge => (CARTRIDGE, &[131_071, 1, 131_075]),
        _ => return,
    };
    let length = maker.pick(lengths);
    maker.length(buffer, length);
}

/// Calls that are done, up to those that lead to the refusal.
fn opening(maker: &mut Maker, phrase: fn(&mut Maker), why: Why) -> Vec<Item> {
    let calls = maker.rehearse(|maker| {
        phrase(maker);
        maker.calm();
        lead(maker, why);
    });
    done(calls)
}

/// Items with a call that is refused, where the calls before it alone lead to that.
pub fn by_calls(maker: &mut Maker, phrase: fn(&mut Maker)) -> Vec<Item> {
    let why = maker.pick(&BY_CALLS);
    let mut items = opening(maker, phrase, why);
    items.push(refused(maker, why));
    items
}

/// Calls that lead to the refusal.
fn lead(maker: &mut Maker, why: Why) {
    let length = dma::some_length(maker);
    match why {
        Why::InTransfer => {
            let source = dma::some_source(maker);
            dma::begin_transfer(maker, source, length);
        }
        Why::InFillOrCopy if maker.once_in(2) => dma::begin_fill(maker, length),
        Why::InFillOrCopy => dma::begin_copy(maker, length),
        Why::NotModelled => {
            let (register, value) = maker.pick(&drawing::UNMODELLED);
            maker.register(register, value);
        }
        Why::NotLent => {
            let end = maker.machine.cartridge.length as u32 & !1;
            let source = maker.pick(&[end, 0x20_0000, 0x40_0000, 0xDF_FFFE]);
            dma::begin_transfer(maker, source, length);
        }
        _ => (),
    }
}

/// The item whose call is refused.
fn refused(maker: &mut Maker, why: Why) -> Item {
    let (word, any) = (maker.word(), any_item(maker));
    let (line, budget) = (Item::Line(word % 224), Item::Run(1 + word % 400));
    let (control, write) = (Item::ControlWrite(word), Item::DataWrite(word));
    match why {
        Why::BadState => any,
        Why::Vram => maker.pick(&[write, Item::DataRead, budget, line]),
        Why::Pixels | Why::NotModelled => line,
        Why::WorkRam | Why::Cartridge | Why::NotLent => budget,
        Why::InTransfer => maker.pick(&[control, write, Item::DataRead, Item::StatusRead]),
        Why::InFillOrCopy => maker.pick(&[control, write, Item::DataRead]),
        Why::NoSuchLine => Item::Line(maker.pick(&[224, 240, 240, 256, 0x8000, 0xFFFF])),
    }
}
