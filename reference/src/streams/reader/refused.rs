//! Calls of a reader that are refused, with each number, in each kind of cut; and bad states and
//! buffers that come before an item is whole, and go before it or not.

use super::missing::before;
use super::{bring, deliver, ready};
use crate::script::Item;
use crate::streams::script::items::any_item;
use crate::streams::script::stopped::{
    self, lend_one_wrongly, mend, some_refused, spoil_state, Spoilt,
};
use crate::streams::script::write;
use crate::streams::{drawing, refusals, Maker};

pub fn episode(maker: &mut Maker) {
    match maker.below(8) {
        0..=2 => by_calls(maker),
        3 => behind_calls(maker),
        _ => {
            for _ in 0..4 {
                bad_inside(maker);
            }
        }
    }
}

/// Calls that draw or store, and one that is refused as calls have led to that, in one delivery.
fn behind_calls(maker: &mut Maker) {
    maker.calm();
    let mut items = before(maker);
    items.extend(stopped::by_calls(maker, Maker::frame));
    let end = write(maker, &items)[items.len()];
    let from = ready(maker);
    deliver(maker, from, end);
    maker.calm();
}

/// Calls that are done, one that is refused, and calls that would be done.
fn by_calls(maker: &mut Maker) {
    let (items, field) = some_refused(maker);
    let end = write(maker, &items)[items.len()];
    let from = ready(maker);
    bring(maker, from, end);
    mend(maker, field);
    maker.calm();
}

/// An item in two parts: the state or a buffer may be bad while the first comes, while the second
/// does, or both times.
fn bad_inside(maker: &mut Maker) {
    let item = some_item(maker);
    let end = write(maker, &[item])[1];
    let from = ready(maker);
    let some = 1 + maker.below(end - 1);
    let cut = maker.pick(&[1, some, some]);
    let field = spoil(maker);
    deliver(maker, from, cut.saturating_sub(from));
    if maker.once_in(2) {
        mend(maker, field);
        let later = spoil(maker);
        deliver(maker, cut, end - cut);
        mend(maker, later);
    } else {
        deliver(maker, cut, end - cut);
        mend(maker, field);
    }
    maker.calm();
}

/// Data accesses and a status read.
const ACCESSES: [Item; 3] = [Item::DataRead, Item::DataWrite(0x1234), Item::StatusRead];

/// Any item, on a chip that may be busy; lines are often drawn.
fn some_item(maker: &mut Maker) -> Item {
    maker.calm();
    drawing::sane(maker);
    if maker.once_in(2) {
        refusals::base(maker);
    }
    let (word, any) = (maker.word(), any_item(maker));
    let (line, access) = (Item::Line(word % 224), maker.pick(&ACCESSES));
    maker.pick(&[any, any, any, line, Item::Run(word), access, access])
}

/// One thing bad, or none.
fn spoil(maker: &mut Maker) -> Option<Spoilt> {
    match maker.below(3) {
        0 => Some(spoil_state(maker)),
        1 => {
            lend_one_wrongly(maker);
            None
        }
        _ => None,
    }
}
