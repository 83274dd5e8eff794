//! Words for missing registers that a reader is brought, where they are taken as register writes and
//! where they are second halves, by the flag that the state has once the item is whole.

use super::{between, bring, deliver, ready};
use crate::script::Item;
use crate::streams::script::items::{done, written_and_read};
use crate::streams::script::missing::{almost, lead, missing};
use crate::streams::script::stopped::{lend_one_wrongly, mend, spoil_state};
use crate::streams::script::{some_items, write};
use crate::streams::{drawing, refusals, Maker, PENDING};

pub fn episode(maker: &mut Maker) {
    maker.calm();
    if maker.once_in(3) {
        among_items(maker);
        return;
    }
    for _ in 0..3 {
        if maker.once_in(3) {
            maker.calm();
            refusals::base(maker);
        }
        cut_inside(maker);
    }
    maker.calm();
}

/// Such a word behind calls that stand and before others, in any cuts.
fn among_items(maker: &mut Maker) {
    let mut items = before(maker);
    items.extend(lead(maker));
    items.push(missing(maker));
    items.push(missing(maker));
    let end = write(maker, &items)[items.len()];
    let from = ready(maker);
    if maker.once_in(2) {
        deliver(maker, from, end);
    } else {
        bring(maker, from, end);
    }
}

/// Calls that are done: a few, or a line that draws, or none.
pub fn before(maker: &mut Maker) -> Vec<Item> {
    if maker.once_in(4) {
        return Vec::new();
    }
    if maker.once_in(2) {
        drawing::sane(maker);
        maker.settle();
        let line = maker.word() % 224;
        let word = maker.word();
        let backdrop = Item::ControlWrite(0x8700 | word & 0x3F);
        return vec![backdrop, Item::Line(line)];
    }
    if maker.once_in(2) {
        return done(maker.rehearse(written_and_read));
    }
    let mut items = some_items(maker);
    items.truncate(8);
    items
}

/// The word is cut, and between its parts the flag, the state or a buffer may change.
fn cut_inside(maker: &mut Maker) {
    let pending = maker.below(2);
    maker.field(PENDING, 0, pending);
    let mut items = if maker.once_in(3) { lead(maker) } else { Vec::new() };
    items.push(if maker.once_in(8) { almost(maker) } else { missing(maker) });
    let bytes = write(maker, &items);
    let (last, end) = (bytes[items.len() - 1], bytes[items.len()]);
    let from = ready(maker);
    let cut = last + maker.below(5);
    bring(maker, from, cut);
    match maker.below(4) {
        0 => (),
        1 => between::inside(maker, cut),
        _ => between::pending(maker),
    }
    let field = maker.once_in(4).then(|| spoil_state(maker));
    if maker.once_in(3) {
        lend_one_wrongly(maker);
    }
    deliver(maker, cut, end - cut);
    mend(maker, field);
}
