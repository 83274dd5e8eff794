//! Scripts with a word for a missing register, where it is taken as a register write and where it is
//! a second half.

use super::{faulty, run_with_any, some_items, some_place, stopped, write};
use crate::script::Item;
use crate::streams::{drawing, refusals, Maker, PENDING};

/// Few items around those that matter here leave room for many scripts.
const FEW: usize = 4;

/// A script with such a word, run again and again with one thing changed.
pub fn episode(maker: &mut Maker) {
    ready(maker);
    let mut items = around(maker);
    items.extend(lead(maker));
    let place = items.len();
    items.push(missing(maker));
    items.extend(around(maker));
    let bytes = write(maker, &items);
    for _ in 0..3 {
        run(maker);
        change(maker, &items, &bytes, place);
    }
    run(maker);
    maker.calm();
}

/// A chip that often draws lines, is busy now and then, and awaits a second half or none.
fn ready(maker: &mut Maker) {
    maker.calm();
    if maker.once_in(2) {
        drawing::sane(maker);
    }
    if maker.once_in(4) {
        refusals::base(maker);
    }
    let pending = maker.below(2);
    maker.field(PENDING, 0, pending);
}

/// None, some with a call that is refused, a few that are mostly done, or many of those.
fn around(maker: &mut Maker) -> Vec<Item> {
    match maker.below(14) {
        0..=3 => stopped::by_calls(maker, Maker::frame),
        4 => [some_items(maker), some_items(maker)].concat(),
        5 | 6 => {
            let mut items = some_items(maker);
            items.truncate(FEW);
            items
        }
        _ => Vec::new(),
    }
}

/// Such a word somewhere among items.
pub fn put_among(maker: &mut Maker, items: &mut Vec<Item>) {
    let mut more = lead(maker);
    more.push(missing(maker));
    let place = maker.below(items.len() as u32 + 1) as usize;
    items.splice(place..place, more);
}

/// What stands just before the word: half a command, a whole one, and one of the other calls.
pub fn lead(maker: &mut Maker) -> Vec<Item> {
    let (first, second) = (maker.first_half(), maker.word());
    let [first, second] = [first, second].map(Item::ControlWrite);
    let other = other_item(maker);
    match maker.below(9) {
        0 | 1 => vec![],
        2 => vec![first],
        3..=5 => vec![first, other],
        6 => vec![first, second],
        7 => vec![first, missing(maker)],
        _ => vec![other],
    }
}

/// Any item but a control write, with a line that there is.
fn other_item(maker: &mut Maker) -> Item {
    let (kind, word) = (2 + maker.byte() % 6, maker.word());
    Item::of(kind, word % 224).unwrap_or(Item::NewFrame)
}

/// A control write of a word for a missing register, whatever it is taken for.
pub fn missing(maker: &mut Maker) -> Item {
    let (number, rest) = (maker.missing_register(), maker.word() & 0x20FF);
    Item::ControlWrite(0x8000 | number << 8 | rest)
}

/// The same for a register that there is, or a first half with the bits of one that is missing.
pub fn almost(maker: &mut Maker) -> Item {
    let word = maker.word();
    let register = 0x8000 | word & 0x20FF | maker.pick(&[23, 23, word % 24]) << 8;
    Item::ControlWrite(maker.pick(&[register, register, word & 0x5FFF | 0x1800]))
}

fn run(maker: &mut Maker) {
    if maker.once_in(4) {
        stopped::lend_one_wrongly(maker);
    }
    run_with_any(maker);
}

/// The flag by hand, another word in the place of the first, another such word before or behind it,
/// or a faulty item for one run.
fn change(maker: &mut Maker, items: &[Item], bytes: &[u32], place: usize) {
    let other = some_place(maker, items);
    match maker.below(8) {
        0..=2 => {
            let pending = !maker.machine.state.pending;
            maker.field(PENDING, 0, u32::from(pending));
        }
        3 => {
            let item = almost(maker);
            maker.write_item(item, bytes[place]);
        }
        4 | 5 => {
            let at = if items[other].content().is_some() { other } else { place };
            let item = missing(maker);
            maker.write_item(item, bytes[at]);
        }
        _ => faulty::fault(maker, bytes[other], items[other].content().is_some()),
    }
}
