//! Items that are written where there is room and where there is none, and over each other.

use super::items::any_item;
use super::{run_with_any, some_items, some_place, write, HELD};
use crate::replay::SCRIPT;
use crate::script::Item;
use crate::streams::Maker;

/// One phrase of items with room and without.
pub fn episode(maker: &mut Maker) {
    match maker.below(4) {
        0 | 1 => ends(maker),
        2 => without_room(maker),
        _ => over(maker),
    }
}

/// Items at the end of what is lent, just inside it and just past it, far out, and of no kind.
fn ends(maker: &mut Maker) {
    let some = 1 + maker.below(60);
    let length = maker.pick(&[0, 1, 2, 3, 4, 5, 6, some, some, some, 16_384, HELD]);
    maker.length(SCRIPT, length);
    for _ in 0..4 {
        let item = any_item(maker);
        let last = length.saturating_sub(item.bytes().len() as u32);
        let past = past_the_end(maker, length, last);
        let at = maker.pick(&[0, 1, last, last, past, past, past, past]);
        maker.write_item(item, at);
    }
    if maker.once_in(2) {
        let (kind, word) = (maker.pick(&[0, 8, 255]), maker.word());
        let at = maker.pick(&[1, length, u32::MAX]);
        maker.emit(18, kind, word, at);
    }
    run_with_any(maker);
}

/// A byte past the last one that an item has room at.
fn past_the_end(maker: &mut Maker, length: u32, last: u32) -> u32 {
    let any = maker.number() | HELD;
    let far = maker.pick(&[length, length + 1, HELD, 65_536, any, u32::MAX - 2, u32::MAX]);
    maker.pick(&[last + 1, last + 2, far, far])
}

/// Items that have no room leave a script as it is.
fn without_room(maker: &mut Maker) {
    let items = some_items(maker);
    let end = write(maker, &items)[items.len()];
    for _ in 0..3 {
        let item = any_item(maker);
        let at = past_the_end(maker, end, end.saturating_sub(item.bytes().len() as u32));
        maker.write_item(item, at);
    }
    maker.run_script();
}

/// Items over those of a script: of the same size, which leaves it well formed, or of another, from
/// their first byte or from a later one.
fn over(maker: &mut Maker) {
    let items = some_items(maker);
    let bytes = write(maker, &items);
    for _ in 0..2 {
        let place = some_place(maker, &items);
        let item = any_item(maker);
        let (into, word) = (maker.below(5), maker.word());
        let same = Item::of(items[place].kind(), word).unwrap_or(item);
        let (item, into) = maker.pick(&[(same, 0), (same, 0), (item, 0), (item, into)]);
        maker.write_item(item, bytes[place] + into);
        maker.run_script();
    }
}
