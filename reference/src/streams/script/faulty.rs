//! Scripts that are not well formed: one thing wrong, an item cut, bytes after the items, bytes by
//! chance.

use super::items::any_item;
use super::{run_with_any, some_items, some_place, write, HELD};
use crate::replay::SCRIPT;
use crate::script::{Item, VERSION};
use crate::streams::Maker;

pub fn episode(maker: &mut Maker) {
    match maker.below(10) {
        0..=4 => faulty(maker),
        5..=7 => lengths(maker),
        8 => longer(maker),
        _ => by_chance(maker),
    }
}

/// Wrong kinds, and wrong lengths for an item with a content or without.
const KINDS: [u8; 6] = [0, 8, 255, 9, 0x81, 0x40];
const WITH_CONTENT: [[u8; 2]; 8] =
    [[0, 0], [0, 1], [0, 2], [0, 4], [3, 0], [1, 3], [0, 5], [0xFF, 0xFF]];
const WITHOUT: [[u8; 2]; 7] = [[0, 0], [0, 2], [0, 3], [1, 0], [1, 1], [0, 4], [0xFF, 0xFF]];

/// A script with one thing wrong, again and again with another; then perhaps mended and run.
fn faulty(maker: &mut Maker) {
    let items = items_or_any(maker);
    let bytes = write(maker, &items);
    for _ in 0..4 {
        let place = some_place(maker, &items);
        fault(maker, bytes[place], items[place].content().is_some());
    }
    if maker.once_in(2) {
        maker.run_script();
    }
}

/// Items that do something, or any few; those of a script that is faulty are not called.
fn items_or_any(maker: &mut Maker) -> Vec<Item> {
    if maker.once_in(3) {
        return some_items(maker);
    }
    (0..1 + maker.below(8)).map(|_| any_item(maker)).collect()
}

/// A wrong kind or length of the item at a byte, or a wrong version; then it is as it was.
pub fn fault(maker: &mut Maker, at: u32, has_content: bool) {
    let (byte, wrong) = match maker.below(6) {
        0 | 1 => (at + 2, vec![maker.pick(&KINDS)]),
        2..=4 if has_content => (at, maker.pick(&WITH_CONTENT).to_vec()),
        2..=4 => (at, maker.pick(&WITHOUT).to_vec()),
        _ => (0, vec![maker.pick(&[0, 2, 255])]),
    };
    let old = maker.machine.script.bytes[byte as usize..][..wrong.len()].to_vec();
    poke_all(maker, byte, &wrong);
    run_with_any(maker);
    poke_all(maker, byte, &old);
}

/// Sets the bytes that differ.
pub fn poke_all(maker: &mut Maker, at: u32, bytes: &[u8]) {
    for (at, byte) in (at..).zip(bytes) {
        if maker.machine.script.bytes[at as usize] != *byte {
            maker.poke(SCRIPT, at, *byte);
        }
    }
}

/// A script lent at lengths that cut an item, and at ones that end with an item before the last.
fn lengths(maker: &mut Maker) {
    let items = items_or_any(maker);
    let bytes = write(maker, &items);
    for _ in 0..5 {
        let place = some_place(maker, &items);
        let size = bytes[place + 1] - bytes[place];
        let into = 1 + maker.below(size - 1);
        let less = maker.pick(&[0, into, into, into, into]);
        maker.length(SCRIPT, bytes[place] + less);
        run_with_any(maker);
    }
}

/// A script lent at more than its items: what was there before follows, or bytes of one sort.
fn longer(maker: &mut Maker) {
    if maker.once_in(2) {
        let byte = maker.pick(&[0, 0, 1, 255]);
        maker.flood(SCRIPT, byte);
    }
    let items = some_items(maker);
    let bytes = write(maker, &items);
    let end = bytes[items.len()];
    for _ in 0..2 {
        let more = 1 + maker.below(5);
        let length = maker.pick(&[end + more, end + 8, 16_384, 16_385, HELD, u32::MAX]);
        maker.length(SCRIPT, length);
        maker.run_script();
    }
}

/// Bytes by chance, or all the same.
fn by_chance(maker: &mut Maker) {
    if maker.once_in(2) {
        maker.scatter(SCRIPT);
    } else {
        let byte = maker.pick(&[0, 1, 1, 3, 255]);
        maker.flood(SCRIPT, byte);
    }
    let some = maker.below(12);
    let length = maker.pick(&[some, some, 16_384, HELD]);
    maker.length(SCRIPT, length);
    if maker.once_in(2) {
        maker.poke(SCRIPT, 0, VERSION);
    }
    maker.run_script();
}
