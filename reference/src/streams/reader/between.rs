//! What may lie between two deliveries: other calls, a state that is made anew or set by hand, bad
//! states and buffers that are mended again, and bytes of the script that came already.

use super::deliver;
use crate::replay::SCRIPT;
use crate::streams::script::stopped::{lend_one_wrongly, mend, spoil_state};
use crate::streams::{ports, timing, Maker, PENDING};

/// Something between two deliveries, of which the next is to begin at this byte.
pub fn inside(maker: &mut Maker, next: u32) {
    match maker.below(16) {
        0 => nothing(maker),
        1..=3 => maker.fresh(false),
        4 => pending(maker),
        5 | 6 => calls(maker),
        7 | 8 => bad_for_a_while(maker, next),
        9 => over_what_came(maker, next),
        10 => ports::by_hand(maker),
        11 => maker.calm(),
        12 => timing::call(maker),
        13 => maker.digests(),
        14 => maker.emit(21, 0, 0, 0),
        _ => {
            let recorded = maker.machine.recorded;
            maker.recorded(!recorded);
            nothing(maker);
            maker.recorded(recorded);
        }
    }
}

/// A delivery of no bytes, from anywhere.
pub fn nothing(maker: &mut Maker) {
    let length = maker.machine.script.length as u32;
    let some = maker.below(length + 1);
    let (from, bytes) = maker.pick(&[(some, 0), (length, 0), (length, 9), (65_535, u32::MAX)]);
    deliver(maker, from, bytes);
}

/// The flag by hand, by a first half, by a read, or by a state that is made anew.
pub fn pending(maker: &mut Maker) {
    let (word, byte) = (maker.first_half(), maker.byte());
    match maker.below(8) {
        0 => maker.field(PENDING, 0, 1),
        1 => maker.field(PENDING, 0, 0),
        2 | 3 => maker.control(word),
        4 | 5 => maker.control_byte(byte & 0x5F),
        6 => maker.status(),
        _ => maker.fresh(false),
    }
}

/// One or two plain calls.
fn calls(maker: &mut Maker) {
    for _ in 0..1 + maker.below(2) {
        match maker.below(5) {
            0 => maker.status(),
            1 => maker.frame(),
            2 => maker.run(3),
            3 => maker.control(0x8F02),
            _ => maker.access(),
        }
    }
}

/// The state or a buffer is bad and then mended; meanwhile no bytes are brought, or nothing is done.
fn bad_for_a_while(maker: &mut Maker, next: u32) {
    let field = maker.once_in(2).then(|| spoil_state(maker));
    if field.is_none() || maker.once_in(4) {
        lend_one_wrongly(maker);
    }
    match maker.below(3) {
        0 => deliver(maker, next, 0),
        1 => nothing(maker),
        _ => (),
    }
    mend(maker, field);
}

/// A byte that came already is set to another one, and what the reader has of it stays.
fn over_what_came(maker: &mut Maker, next: u32) {
    let at = next.saturating_sub(1 + maker.below(3));
    let byte = maker.byte();
    if at >= next {
        return;
    }
    let old = maker.machine.script.bytes.get(at as usize).copied().unwrap_or(0);
    maker.poke(SCRIPT, at, byte);
    nothing(maker);
    if maker.once_in(2) {
        maker.poke(SCRIPT, at, old);
    }
}
