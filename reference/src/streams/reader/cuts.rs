//! Ways to cut the bytes of a script into deliveries, deliveries of no bytes among them, and
//! deliveries at the end of what is lent and past it.

use super::{between, deliver, is_stopped, items, ready};
use crate::replay::SCRIPT;
use crate::script::reader::Reader;
use crate::streams::script::items::any_item;
use crate::streams::script::{write, HELD};
use crate::streams::Maker;

/// More bytes than these are not brought one by one.
const SINGLY: u32 = 16;

/// Brings the bytes from one of the lent script to another, in one of many cuts.
pub fn bring(maker: &mut Maker, from: u32, to: u32) {
    match maker.below(10) {
        0..=2 => last(maker, from, to),
        3 => {
            let singly = to.min(from + SINGLY);
            pieces(maker, from, singly, &[1]);
            last(maker, singly, to);
        }
        4 | 5 => pieces(maker, from, to, &[0, 1, 2, 3, 4, 5, 7]),
        6 => pieces(maker, from, to, &[3, 5, 8]),
        more => {
            let parts = if more < 9 { 2 } else { 3 };
            in_parts(maker, from, to, parts);
        }
    }
}

/// Pieces of sizes by chance, now and then with something else between two of them.
fn pieces(maker: &mut Maker, from: u32, to: u32, sizes: &[u32]) {
    let mut at = from;
    while at < to && !maker.full() {
        let size = maker.pick(sizes).min(to - at);
        deliver(maker, at, size);
        at += size;
        // A stopped reader takes no more: a few deliveries show it as well as many.
        if is_stopped(maker) && maker.once_in(2) {
            return;
        }
        if maker.once_in(12) {
            between::inside(maker, at);
        }
    }
}

/// Two parts or three, the cuts anywhere.
fn in_parts(maker: &mut Maker, from: u32, to: u32, parts: u32) {
    let mut at = from;
    for _ in 1..parts {
        let size = maker.below(to - at + 1);
        deliver(maker, at, size);
        at += size;
        if maker.once_in(3) {
            between::inside(maker, at);
        }
    }
    last(maker, at, to);
}

/// One delivery. Where the script ends there, more bytes may be asked for than it has.
fn last(maker: &mut Maker, from: u32, to: u32) {
    let left = to.saturating_sub(from);
    let more = left + 1 + maker.below(9);
    let at_the_end = to == maker.machine.script.length as u32;
    let greedy = maker.pick(&[left, left, left + 1, more, u32::MAX]);
    deliver(maker, from, if at_the_end { greedy } else { left });
}

/// One item, cut after each of its bytes.
pub fn each(maker: &mut Maker) {
    maker.calm();
    let item = any_item(maker);
    let end = write(maker, &[item])[1];
    for cut in 2..end {
        let from = ready(maker);
        deliver(maker, from, cut - from);
        if maker.once_in(2) {
            between::inside(maker, cut);
        }
        last(maker, cut, end);
    }
}

/// Deliveries from the last bytes of the lent script, from its end and from past it, with nothing
/// lent too; and a command of the op that has calls in the output.
pub fn ends_of_the_script(maker: &mut Maker) {
    let items = items(maker);
    let end = write(maker, &items)[items.len()];
    if maker.once_in(4) {
        maker.length(SCRIPT, 0);
    }
    for _ in 0..3 {
        if maker.once_in(2) || is_stopped(maker) {
            maker.start_reader();
        }
        let (any, far) = (maker.below(end), maker.pick(&[HELD - 1, HELD, 65_535]));
        let begun = u32::from(maker.machine.reader != Reader::BeforeVersion);
        let from = maker.pick(&[begun, begun, end - 1, end, end, end + 1, far, far, any]);
        let bytes = maker.pick(&[0, 1, 3, end, 16_384, 65_536, 0x8000_0000, u32::MAX]);
        deliver(maker, from, bytes);
    }
    let (word, number) = (maker.word(), maker.number());
    let op = maker.pick(&[21, 21, 23]);
    maker.emit(op, 0, word, number);
}
