//! Batches that are begun anew and built up: equal lines and others, worse, tied and better ones, and
//! refused ones between; batches that are joined with themselves; and batches of any numbers.

use super::captures::{look, spoil, take};
use super::{limits, ready};
use crate::replay::CAPTURE;
use crate::streams::Maker;

/// The fields of a batch, for op 28.
pub const LINES: u8 = 0;
pub const PLACE: u8 = 4;
pub const WORST_DIFFERING: u8 = 5;
pub const WORST: u8 = 6;

/// Sets the batch empty, in some order of its fields.
pub fn empty(maker: &mut Maker) {
    let first = maker.below(7) as u8;
    for field in 0..7 {
        maker.batch_field((first + field) % 7, 0);
    }
}

/// A batch from its first line on.
pub fn episode(maker: &mut Maker) {
    ready(maker);
    empty(maker);
    if maker.once_in(4) {
        maker.tell_batch();
    }
    let line = take(maker);
    if maker.once_in(2) {
        spoil(maker);
    }
    for _ in 0..3 + maker.below(4) {
        one_more(maker, line);
    }
    maker.tell_batch();
    match maker.below(4) {
        0 | 1 => maker.join_batch(),
        2 => {
            maker.fresh(false);
            maker.tell_batch();
        }
        _ => (),
    }
}

/// A line as the one before, worse, equal again, or refused.
fn one_more(maker: &mut Maker, line: u32) {
    match maker.below(6) {
        0 => maker.add_line(u32::MAX),
        1 => {
            maker.length(CAPTURE, 319);
            maker.add_line(line);
            maker.length(CAPTURE, 320);
        }
        2 => {
            maker.copy_pixels();
            maker.add_line(line);
        }
        3 => {
            spoil(maker);
            maker.add_line(line);
        }
        _ => maker.add_line(line),
    }
    if maker.once_in(4) {
        maker.tell_batch();
    }
}

/// Half of 2^32: the least number that passes the limit if it is added to itself.
const HALF: u32 = 1 << 31;

/// The batch as it is, or with one number where joining it with itself just is done or is not.
pub fn joined(maker: &mut Maker) {
    if maker.once_in(2) {
        limits::room(maker);
    }
    for _ in 0..3 {
        match maker.below(5) {
            0 | 1 => total(maker),
            2 | 3 => place(maker),
            _ => maker.join_batch(),
        }
        maker.tell_batch();
    }
    limits::room(maker);
}

fn total(maker: &mut Maker) {
    let field = maker.below(4) as u8;
    let value = maker.pick(&[HALF - 1, HALF, HALF, u32::MAX]);
    maker.batch_field(field, value);
    maker.join_batch();
    maker.batch_field(field, 2);
}

/// The place, moved by the lines: just at the limit or past it, of a worst line that is there or not.
fn place(maker: &mut Maker) {
    let lines = maker.pick(&[0, 1, 9, HALF - 1]);
    maker.batch_field(LINES, lines);
    let there = maker.pick(&[0, 1, 1, 3, u32::MAX]);
    maker.batch_field(WORST, there);
    let more = maker.pick(&[0, 0, 1]);
    let place = (u32::MAX - lines).saturating_add(more);
    maker.batch_field(PLACE, place);
    maker.join_batch();
    maker.batch_field(LINES, 3);
}

/// Numbers that no captures lead to, and lines on top of them. What a worst line has that there is
/// not is shown in the end.
pub fn any_numbers(maker: &mut Maker) {
    ready(maker);
    let line = take(maker);
    if !maker.once_in(3) {
        spoil(maker);
    }
    for _ in 0..3 {
        some_field(maker);
    }
    maker.tell_batch();
    look(maker, line);
    let there = maker.below(2);
    maker.batch_field(WORST, there);
    maker.tell_batch();
    match maker.below(4) {
        0 => maker.join_batch(),
        1 => maker.add_line(u32::MAX),
        _ => maker.add_line(line),
    }
    maker.batch_field(WORST, 1);
    maker.tell_batch();
    limits::room(maker);
}

/// Any number in any field, or in none.
fn some_field(maker: &mut Maker) {
    let (any, none) = (maker.number(), 7 + maker.byte() % 249);
    let field = maker.pick(&[0, 1, 2, 3, PLACE, WORST_DIFFERING, WORST, none, none]);
    let least = maker.below(4);
    let value = maker.pick(&[least, least, 320, 321, HALF, any, any, u32::MAX - 1, u32::MAX]);
    maker.batch_field(field, value);
}
