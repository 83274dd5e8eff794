//! Bytes that no script has where they come: a wrong version, length or kind, first in a delivery,
//! later in it, or behind calls that stand.

use super::missing::before;
use super::{bring, deliver, lend, ready};
use crate::script::{script_of, Item};
use crate::streams::script::items::any_item;
use crate::streams::script::missing::missing;
use crate::streams::script::stopped::{lend_one_wrongly, mend, spoil_state, Spoilt};
use crate::streams::{refusals, Maker, PENDING};

/// The bytes of an item that come before the faulty one, and bytes that are faulty behind them.
const FAULTS: [(&[u8], &[u8]); 4] = [
    (&[], &[1, 2, 3, 255]),
    (&[0], &[0, 2, 4, 5, 255]),
    (&[0, 1], &[0, 1, 2, 5, 6, 8, 255]),
    (&[0, 3], &[0, 3, 4, 7, 8, 255]),
];
const VERSIONS: [u8; 4] = [0, 2, 3, 255];
/// Bytes of the right sort, which a byte by chance must not be.
const RIGHT: [(&[u8], &[u8]); 4] =
    [(&[], &[0]), (&[0], &[1, 3]), (&[0, 1], &[3, 4, 7]), (&[0, 3], &[1, 2, 5, 6])];

/// A few times a script with a faulty byte. Its state and buffers may be bad.
pub fn episode(maker: &mut Maker) {
    for _ in 0..2 {
        let calls = maker.once_in(2);
        let field = if calls { None } else { burden(maker) };
        if maker.once_in(4) {
            version(maker);
        } else {
            let before = if calls { before(maker) } else { Vec::new() };
            item(maker, &before);
        }
        mend(maker, field);
        maker.calm();
        if maker.once_in(2) {
            super::stopped::after(maker);
        }
    }
}

/// A bad state, a bad buffer, a busy chip, or none of these.
fn burden(maker: &mut Maker) -> Option<Spoilt> {
    match maker.below(8) {
        0 | 1 => return Some(spoil_state(maker)),
        2..=4 => lend_one_wrongly(maker),
        5 | 6 => refusals::base(maker),
        _ => (),
    }
    None
}

/// A wrong version, alone or before items.
fn version(maker: &mut Maker) {
    let any = 2 + maker.below(254) as u8;
    let mut bytes = script_of(&some(maker));
    bytes[0] = maker.pick(&[&VERSIONS[..], &[any]].concat());
    lend(maker, &bytes);
    maker.start_reader();
    if maker.once_in(4) {
        deliver(maker, 0, 0);
    }
    bring(maker, 0, bytes.len() as u32);
}

/// A wrong length or kind behind these items, with more bytes behind it or none.
fn item(maker: &mut Maker, before: &[Item]) {
    let place = maker.below(4) as usize;
    let (head, faulty) = FAULTS[place];
    let any = maker.byte();
    let wrong = if RIGHT[place].1.contains(&any) { 255 } else { any };
    let byte = maker.pick(&[faulty, &[wrong]].concat());
    let mut bytes = script_of(before);
    bytes.extend(head);
    let at = bytes.len() as u32;
    bytes.push(byte);
    let behind = some(maker);
    bytes.extend(behind.iter().flat_map(|item| item.bytes()));
    lend(maker, &bytes);
    let (from, end) = (ready(maker), bytes.len() as u32);
    match maker.below(4) {
        0 | 1 => {
            bring(maker, from, at);
            deliver(maker, at, end - at);
        }
        2 => {
            bring(maker, from, at + 1);
            deliver(maker, at + 1, end - at - 1);
        }
        _ => bring(maker, from, end),
    }
}

/// None, one or two items; now and then with a word for a missing register.
fn some(maker: &mut Maker) -> Vec<Item> {
    let mut items: Vec<_> = (0..maker.below(3)).map(|_| any_item(maker)).collect();
    if maker.once_in(8) {
        maker.field(PENDING, 0, 0);
        items.push(missing(maker));
    }
    items
}
