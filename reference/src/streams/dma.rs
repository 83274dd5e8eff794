//! Streams of DMA: transfers, fills and copies set up through the registers, run in parts.

use super::{Maker, SOURCE};
use crate::replay::{CARTRIDGE, VRAM, WORK_RAM};
use crate::state::UNITS_MOST;

pub fn fill(maker: &mut Maker) {
    maker.scatter(VRAM);
    maker.scatter(WORK_RAM);
    maker.scatter(CARTRIDGE);
    while !maker.full() {
        match maker.below(40) {
            0..=15 => transfer(maker),
            16..=27 => fill_dma(maker),
            28..=34 => copy(maker),
            35..=38 => not_started(maker),
            _ => longest(maker),
        }
        maker.calm();
    }
}

/// Registers 19 and 20; now and then a length of zero, which is the greatest.
fn set_length(maker: &mut Maker, length: u16) {
    let [upper, lower] = length.to_be_bytes();
    maker.register(19, lower);
    maker.register(20, upper);
}

pub fn some_length(maker: &mut Maker) -> u16 {
    let small = 1 + maker.word() % 12;
    let middling = 13 + maker.word() % 300;
    if maker.once_in(25) {
        maker.pick(&[0, 0xFFFF, 0x8000])
    } else {
        maker.pick(&[1, 2, 3, 4, small, small, small, middling])
    }
}

fn begin(maker: &mut Maker) {
    let other = 0x10 | (maker.byte() & 0x7F);
    let mode = maker.pick(&[0x10, 0x14, 0x14, 0x74, other]);
    maker.register(1, mode);
    let step = maker.step();
    maker.register(15, step);
}

/// A source near the places where something changes.
pub fn some_source(maker: &mut Maker) -> u32 {
    let cartridge = maker.machine.cartridge.length as u32 & !1;
    let near = 2 * maker.below(4);
    let inside = maker.below(cartridge.max(2)) & !1;
    let anywhere = maker.number() & 0xFF_FFFE;
    let end = cartridge.saturating_sub(near);
    let work = (0xE0_0000 + maker.below(0x20_0000)) & !1;
    let turn = 0xFF_FFFE - near;
    let edge = 0xDF_FFFE - near;
    let early = maker.pick(&[0, near, 0xE0_0000]);
    maker.pick(&[
        inside, inside, inside, work, work, work, turn, turn, turn, end, end, edge, anywhere, early,
    ])
}

pub fn transfer(maker: &mut Maker) {
    let (source, length) = (some_source(maker), some_length(maker));
    begin_transfer(maker, source, length);
    runs(maker);
}

pub fn begin_transfer(maker: &mut Maker, source: u32, length: u16) {
    begin(maker);
    set_length(maker, length);
    let [_, page, middle, low] = (source / 2).to_be_bytes();
    maker.register(21, low);
    maker.register(22, middle);
    maker.register(23, page & 0x7F);
    let any = 0x20 | (maker.byte() % 64);
    let code = maker.pick(&[0x21, 0x21, 0x21, 0x23, 0x23, 0x25, 0x25, 0x31, any]);
    let address = maker.address();
    maker.point(code, address);
}

pub fn fill_dma(maker: &mut Maker) {
    let length = some_length(maker);
    begin_fill(maker, length);
    runs(maker);
}

/// A fill up to its first word, with another call now and then while it waits.
pub fn begin_fill(maker: &mut Maker, length: u16) {
    begin(maker);
    set_length(maker, length);
    let mode = 0x80 | (maker.byte() & 0x3F);
    maker.register(23, mode);
    let any = 0x20 | (maker.byte() % 64);
    let code = maker.pick(&[0x21, 0x21, 0x21, 0x21, 0x31, 0x23, 0x25, any]);
    let address = maker.address();
    maker.point(code, address);
    match maker.below(6) {
        0 => maker.run(3),
        1 => maker.read(),
        2 => maker.status(),
        _ => (),
    }
    if maker.once_in(4) {
        let byte = maker.byte();
        maker.write_byte(byte);
    } else {
        let word = maker.word();
        maker.write(word);
    }
}

pub fn copy(maker: &mut Maker) {
    let length = some_length(maker);
    begin_copy(maker, length);
    runs(maker);
}

/// Source and target often overlap, either way round.
pub fn begin_copy(maker: &mut Maker, length: u16) {
    begin(maker);
    set_length(maker, length);
    let address = maker.address();
    let other = maker.word();
    let back = address.wrapping_sub(1 + other % 4);
    let ahead = address.wrapping_add(other % 4);
    let edge = 0xFFFF - other % 4;
    let source = maker.pick(&[back, back, ahead, edge, other]);
    let [upper, lower] = source.to_be_bytes();
    maker.register(21, lower);
    maker.register(22, upper);
    let mode = 0xC0 | (maker.byte() & 0x3F);
    maker.register(23, mode);
    let any = 0x20 | (maker.byte() % 64);
    let code = maker.pick(&[0x30, 0x30, 0x30, 0x20, 0x21, any]);
    maker.point(code, address);
}

/// Any of the three with registers 19 and 20 zero. The cartridge has just the words that a transfer
/// from 0 takes, and one too few from 2.
pub fn begin_longest(maker: &mut Maker) {
    match maker.below(4) {
        0 | 1 => {
            maker.length(CARTRIDGE, 2 * UNITS_MOST);
            let source = maker.pick(&[0, 2, 0xE0_0000, 0xFF_0000, 0xFF_FFFC, 0xFF_FFFE]);
            begin_transfer(maker, source, 0);
        }
        2 => begin_fill(maker, 0),
        _ => begin_copy(maker, 0),
    }
}

/// The greatest length in one run, or all but a unit of it and then the rest.
fn longest(maker: &mut Maker) {
    begin_longest(maker);
    if maker.once_in(2) {
        maker.run(UNITS_MOST - 1);
        maker.status();
    }
    let budget = maker.pick(&[UNITS_MOST, UNITS_MOST + 1, u32::MAX]);
    maker.run(budget);
}

/// DMA asked for while it is off, or not asked for while it is on.
fn not_started(maker: &mut Maker) {
    let on = maker.once_in(2);
    maker.register(1, if on { 0x14 } else { 0x04 });
    let mode = maker.byte();
    maker.register(23, mode);
    let (code, address) = (maker.byte() % 32, maker.address());
    maker.point(if on { code } else { code | 0x20 }, address);
    maker.access();
    maker.run(4);
}

/// A few runs in parts, with other calls between them.
pub fn runs(maker: &mut Maker) {
    for _ in 0..1 + maker.below(4) {
        if maker.once_in(4) {
            between(maker);
        }
        let rest = maker.machine.state.remaining;
        let part = 1 + maker.below(rest.min(20));
        let budget = match maker.below(10) {
            0 => 0,
            1..=4 => part,
            5 => rest,
            6 => rest.saturating_sub(1),
            7 => rest.saturating_add(1),
            8 => u32::MAX,
            _ => 1,
        };
        maker.run(budget);
    }
}

/// Calls that a run under way refuses or bears, and changes of what is lent.
fn between(maker: &mut Maker) {
    match maker.below(8) {
        0 | 1 => maker.status(),
        2 => maker.access(),
        3 => maker.control(0x8F01),
        4 => maker.frame(),
        5 => maker.begins(),
        6 => {
            let source = maker.machine.state.source;
            let near = 2 * maker.below(4);
            maker.length(CARTRIDGE, (source & 0x1_FFFE) + near);
        }
        _ => {
            let length = maker.pick(&[131_072, 131_072, 131_076, 0, 2, 65_536]);
            maker.length(CARTRIDGE, length);
        }
    }
}

/// A transfer under way is moved to the very end of the memory map, by hand.
pub fn to_the_turn(maker: &mut Maker) {
    if maker.machine.state.kind == crate::state::TRANSFER {
        let source = maker.pick(&[0xFF_FFFE, 0xFF_FFFC, 0xDF_FFFE]);
        maker.field(SOURCE, 0, source);
        runs(maker);
    }
}
