//! End notices wherever a reader may be, and readers that are stopped: deliveries and end notices
//! to them, and starting them anew.

use super::{bring, deliver, is_stopped, ready};
use crate::script::VERSION;
use crate::streams::script::items::any_item;
use crate::streams::script::stopped::{lend_one_wrongly, mend, spoil_state};
use crate::streams::script::write;
use crate::streams::Maker;

/// A few times an item or none, whole or cut after some byte, and the end notice there.
pub fn ended(maker: &mut Maker) {
    for _ in 0..2 {
        maker.calm();
        let item = any_item(maker);
        let end = write(maker, &[item])[1];
        let from = ready(maker);
        let some = maker.below(end + 1);
        let to = maker.pick(&[some, some, some, 1, end]);
        let field = maker.once_in(5).then(|| spoil_state(maker));
        if maker.once_in(5) {
            lend_one_wrongly(maker);
        }
        if to > from {
            bring(maker, from, to);
        }
        maker.end_notice();
        mend(maker, field);
        after(maker);
    }
}

/// What a stopped reader is brought or told, and mostly a start anew.
pub fn after(maker: &mut Maker) {
    if !is_stopped(maker) {
        return;
    }
    for _ in 0..maker.pick(&[0, 1, 2, 2, 3]) {
        told(maker);
    }
    if maker.once_in(5) {
        return;
    }
    maker.start_reader();
    if maker.once_in(2) {
        used_again(maker);
    }
}

/// Bytes of what is lent, no bytes, or the end notice; now and then with another state.
fn told(maker: &mut Maker) {
    let length = maker.machine.script.length as u32;
    let (some, bytes) = (maker.below(length + 1), maker.pick(&[1, 3, 5, 64, u32::MAX]));
    match maker.below(8) {
        0..=2 => {
            let from = maker.pick(&[0, 0, 1, some]);
            deliver(maker, from, bytes);
        }
        3 | 4 => deliver(maker, some, 0),
        5 | 6 => maker.end_notice(),
        _ => {
            maker.fresh(false);
            deliver(maker, 0, bytes);
        }
    }
}

/// What is lent from its version on, as far as a few bytes go.
fn used_again(maker: &mut Maker) {
    let begins = maker.machine.script.lent().first() == Some(&VERSION);
    let bytes = maker.below(12);
    if begins && bytes > 0 {
        deliver(maker, 0, bytes);
    } else {
        deliver(maker, 1, 0);
        maker.end_notice();
    }
}
