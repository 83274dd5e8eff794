//! Streams of recorded calls and step backs: inside runs, to the start, past the start,
//! on full and short tapes, over spoilt records.

use super::{
    dma, masking, ports, refusals, shading, timing, Maker, COLLISION, OVERFLOW, PAL, PENDING,
    USED_UP,
};
use crate::replay::{CARTRIDGE, TAPE, VRAM, WORK_RAM};
use crate::state::UNITS_MOST;
use crate::tape::RECORD_BYTES;

pub const WHOLE_TAPE: u32 = 131_072;

pub fn fill(maker: &mut Maker) {
    maker.recorded(true);
    for field in [OVERFLOW, COLLISION, PAL, USED_UP] {
        let value = maker.below(2);
        maker.field(field, 0, value);
    }
    timing::jump(maker);
    maker.scatter(VRAM);
    maker.scatter(WORK_RAM);
    maker.scatter(CARTRIDGE);
    if maker.once_in(2) {
        maker.scatter(TAPE);
    }
    while !maker.full() {
        episode(maker);
    }
}

/// One phrase of recorded calls.
pub fn episode(maker: &mut Maker) {
    match maker.below(39) {
        0..=8 => ports::episode(maker),
        9..=11 => dma::transfer(maker),
        12..=14 => dma::fill_dma(maker),
        15..=17 => dma::copy(maker),
        18..=22 => back(maker),
        23 => short_tape(maker),
        24 | 25 => spoilt(maker),
        26 => {
            for _ in 0..4 {
                crafted(maker);
            }
        }
        27 => over_count(maker),
        28 => refused(maker),
        29 => long_run(maker),
        30 => {
            maker.frame();
            maker.back(1);
        }
        31 => first_of_the_longest(maker),
        32 => flagged_reads(maker),
        33..=35 => timing::there_and_back(maker),
        36 => masking::episode(maker),
        37 => shading::episode(maker),
        _ => maker.back(maker.machine.count),
    }
    if maker.once_in(3) {
        back(maker);
    }
    if maker.once_in(3) {
        maker.calm();
    }
}

/// A step back of none, one, some, all, or more than there are.
pub fn back(maker: &mut Maker) {
    let count = maker.machine.count;
    let some = maker.below(count.min(30) + 1);
    let any = maker.below(count.saturating_add(1));
    let more = count.saturating_add(1);
    let steps = maker.pick(&[0, 1, 1, 2, some, some, some, any, count, more, u32::MAX]);
    maker.back(steps);
}

pub fn capacity(maker: &Maker) -> u32 {
    (maker.machine.tape.length / RECORD_BYTES) as u32
}

/// A step back over the record on top, changed by hand in one of these ways; false if the tape has
/// no such record.
pub fn poked_back(maker: &mut Maker, pokes: &[&[(u32, u8)]]) -> bool {
    let count = maker.machine.count;
    if count == 0 || count > capacity(maker) {
        return false;
    }
    let at = RECORD_BYTES as u32 * (count - 1);
    for (byte, value) in maker.pick(pokes) {
        maker.poke(TAPE, at + byte, *value);
    }
    maker.back(1);
    // A bad record would bar the way back for good.
    if maker.machine.count == count {
        maker.count(count - 1);
    }
    true
}

/// Back to the start, by hand if a record is bad.
pub fn rewind(maker: &mut Maker) {
    maker.back(maker.machine.count);
    if maker.machine.count != 0 {
        maker.count(0);
    }
}

/// A tape of a few records, filled to the brim; bytes past the last whole record stay unused.
fn short_tape(maker: &mut Maker) {
    rewind(maker);
    let records = maker.pick(&[0, 1, 2, 5, 9]);
    let odd = maker.pick(&[0, 0, 1, 31]);
    maker.length(TAPE, 32 * records + odd);
    for _ in 0..2 {
        match maker.below(4) {
            0 => dma::fill_dma(maker),
            1 => dma::copy(maker),
            2 => dma::transfer(maker),
            _ => ports::episode(maker),
        }
        short_calls(maker);
        back(maker);
    }
    if maker.once_in(3) {
        unlent_and_full(maker);
    }
    maker.length(TAPE, WHOLE_TAPE);
    maker.calm();
}

/// A transfer with neither its words lent nor room for its units; the words come first.
fn unlent_and_full(maker: &mut Maker) {
    rewind(maker);
    maker.length(TAPE, 32 * 9);
    maker.register(1, 0x14);
    for (number, value) in [(19, 12), (20, 0), (23, 0x40)] {
        maker.register(number, value);
    }
    maker.point(0x21, 0);
    maker.run(12);
    maker.run(0);
}

/// Each recorded call, met with little or no room.
fn short_calls(maker: &mut Maker) {
    for _ in 0..4 {
        let room = capacity(maker).saturating_sub(maker.machine.count);
        match maker.below(11) {
            0 => maker.run(room),
            1 => maker.run(room + 1),
            2 => maker.run(0),
            3 => maker.frame(),
            4 => maker.status(),
            5 => maker.control(0x8F02),
            6 => maker.control_byte(0x8F),
            7 | 8 => timing::call(maker),
            _ => maker.access(),
        }
    }
}

/// The count, after a phrase of recorded calls if the tape was empty.
fn some_records(maker: &mut Maker) -> Option<u32> {
    if maker.machine.count == 0 {
        ports::episode(maker);
        maker.calm();
    }
    let count = maker.machine.count;
    (count > 0 && count <= capacity(maker)).then_some(count)
}

/// Bytes of a record with values at the edge of their range or just past it.
const BLOTS: [(u32, u8); 42] = [
    (0, 0),
    (0, 1),
    (0, 2),
    (0, 4),
    (1, 1),
    (2, 31),
    (2, 33),
    (3, 5),
    (3, 255),
    (4, 1),
    (5, 23),
    (5, 24),
    (5, 39),
    (5, 40),
    (5, 63),
    (5, 64),
    (6, 1),
    (7, 1),
    (8, 255),
    (9, 255),
    (10, 63),
    (10, 64),
    (11, 1),
    (11, 2),
    (12, 5),
    (13, 1),
    (15, 1),
    (16, 255),
    (18, 1),
    (19, 1),
    (20, 3),
    (20, 4),
    (20, 7),
    (20, 8),
    (21, 1),
    (21, 2),
    (22, 255),
    (23, 255),
    (24, 3),
    (24, 4),
    (25, 1),
    (31, 1),
];

/// Some records spoilt one after the other, then perhaps all the way back.
fn spoilt(maker: &mut Maker) {
    for _ in 0..3 {
        blot(maker);
    }
    if maker.once_in(2) {
        rewind(maker);
    }
}

/// One byte of a record near the top changed, a step back over it, the byte mended.
fn blot(maker: &mut Maker) {
    let Some(count) = some_records(maker) else {
        return;
    };
    let deep = maker.below(count.min(4));
    let record = RECORD_BYTES as u32 * (count - 1 - deep);
    let (byte, wrong) = maker.pick(&BLOTS);
    let at = record + byte;
    let old = maker.machine.tape.bytes.get(at as usize).copied().unwrap_or(0);
    let any = maker.byte();
    let new = maker.pick(&[wrong, wrong, wrong, old ^ 1, any]);
    maker.poke(TAPE, at, new);
    if maker.once_in(2) {
        maker.back(deep);
        maker.back(1);
    } else {
        maker.back(deep + 1);
    }
    maker.poke(TAPE, at, old);
}

/// Cells at the edges of a good record, and just past them: kind, place, content.
const CELLS: [(u8, u16, u16); 16] = [
    (0, 0, 0),
    (0, 0, 1),
    (0, 1, 0),
    (1, 0xFFFE, 0xFFFF),
    (1, 0xFFFF, 0),
    (2, 63, 0x0EEE),
    (2, 64, 0),
    (2, 0, 0x1000),
    (3, 39, 0x03FF),
    (3, 40, 0),
    (3, 0, 0x0400),
    (4, 23, 0xFF),
    (4, 24, 0),
    (4, 0, 0x0100),
    (5, 0, 0),
    (2, 1, 0x0010),
];

/// DMA kind, remaining, source and fill byte at their edges, and just past them.
const PARTS: [(u8, u32, u32, u8); 20] = [
    (0, 0, 0, 0),
    (0, 0, 0, 1),
    (0, 1, 0, 0),
    (1, 0, 0, 0),
    (1, 0, 2, 0),
    (2, UNITS_MOST, 0xFF_FFFE, 0),
    (2, 1, 0xFF_FFFF, 0),
    (2, UNITS_MOST + 1, 0, 0),
    (2, 1, 0, 9),
    (3, 1, 0, 255),
    (3, 1, 1, 255),
    (3, UNITS_MOST, 0, 1),
    (3, UNITS_MOST + 1, 0, 1),
    (4, 2, 0xFFFF, 0),
    (4, 2, 0x1_0000, 0),
    (4, UNITS_MOST, 1, 0),
    (4, UNITS_MOST + 1, 1, 0),
    (4, 0, 0, 0),
    (5, 1, 0, 0),
    (3, 0, 0, 0),
];

/// The top record written by hand, then a step back over it.
fn crafted(maker: &mut Maker) {
    let Some(count) = some_records(maker) else {
        return;
    };
    let at = RECORD_BYTES as u32 * (count - 1);
    if maker.once_in(2) {
        let (kind, place, old) = maker.pick(&CELLS);
        let ([p1, p0], [o1, o0]) = (place.to_be_bytes(), old.to_be_bytes());
        write_bytes(maker, at + 3, &[kind, p1, p0, o1, o0]);
    } else {
        let (kind, remaining, source, fill) = maker.pick(&PARTS);
        let [_, r2, r1, r0] = remaining.to_be_bytes();
        let [_, s2, s1, s0] = source.to_be_bytes();
        write_bytes(maker, at + 12, &[kind, r2, r1, r0, s2, s1, s0, fill]);
    }
    maker.back(1);
    maker.status();
    // A bad record would bar the way back for good.
    if maker.machine.count == count {
        maker.count(count - 1);
    }
}

fn write_bytes(maker: &mut Maker, at: u32, bytes: &[u8]) {
    for (place, byte) in bytes.iter().enumerate() {
        maker.poke(TAPE, at + place as u32, *byte);
    }
}

/// A count above the capacity, and one just at it.
fn over_count(maker: &mut Maker) {
    let count = maker.machine.count;
    let capacity = capacity(maker);
    let wrong = maker.pick(&[capacity, capacity, capacity + 1, capacity + 1, u32::MAX]);
    maker.count(wrong);
    for _ in 0..4 {
        refused_call(maker);
    }
    maker.back(0);
    maker.count(count);
    maker.back(0);
}

/// Status reads with a flag set: one that a full tape or the count refuses, then two that are done,
/// and a step back over one or both.
fn flagged_reads(maker: &mut Maker) {
    rewind(maker);
    maker.raise_flags();
    let wrong = capacity(maker) + maker.below(2);
    maker.count(wrong);
    maker.status();
    maker.count(0);
    maker.status();
    maker.status();
    let steps = 1 + maker.below(2);
    maker.back(steps);
    maker.status();
}

fn refused_call(maker: &mut Maker) {
    refusals::call(maker);
    if maker.once_in(4) {
        back(maker);
    }
}

/// Recorded calls with the faults of the plain ones.
fn refused(maker: &mut Maker) {
    rewind(maker);
    if maker.once_in(2) {
        refusals::base(maker);
    }
    refusals::fault(maker);
    for _ in 0..4 {
        refused_call(maker);
    }
    maker.back(0);
    refusals::mend(maker);
    rewind(maker);
    if maker.once_in(4) {
        maker.field(PENDING, 0, 1);
    }
}

/// A run of many units, then back into its middle and on again.
fn long_run(maker: &mut Maker) {
    maker.calm();
    let copying = maker.once_in(2);
    maker.register(1, 0x14);
    let (low, high) = (maker.byte(), maker.byte() % 3);
    let step = maker.pick(&[1, 1, 2, 255]);
    for (number, value) in [(15, step), (19, low), (20, high), (21, 0xF0), (22, 0xFF)] {
        maker.register(number, value);
    }
    maker.register(23, if copying { 0xC0 } else { 0x80 });
    let address = maker.address();
    maker.point(0x21, address);
    if !copying {
        maker.write(0x5A5A);
    }
    let rest = maker.machine.state.remaining;
    let part = maker.below(rest.min(UNITS_MOST) + 1);
    maker.run(part);
    let steps = maker.below(part + 3);
    maker.back(steps);
    maker.run(rest);
    back(maker);
}

/// The first units of the greatest length, over and back; the tape has no room for them all.
fn first_of_the_longest(maker: &mut Maker) {
    maker.calm();
    dma::begin_longest(maker);
    maker.run(1);
    maker.back(1);
    let some = 1 + maker.below(5);
    maker.run(some);
    maker.run(UNITS_MOST);
    let steps = maker.pick(&[1, some, some, some + 1]);
    maker.back(steps);
}
