//! Streams of port accesses: registers, halves, data writes and reads, status, new frames.

use super::{Maker, CODE, COLLISION, COLOUR, OVERFLOW, PAL, PENDING, REGISTER, SCROLL, USED_UP};
use crate::replay::VRAM;

pub fn fill(maker: &mut Maker) {
    begin(maker);
    while !maker.full() {
        if maker.once_in(4) {
            by_hand(maker);
        } else {
            episode(maker);
        }
        maker.calm();
    }
}

/// VRAM by chance, some colour and scroll words, DMA mostly off.
fn begin(maker: &mut Maker) {
    maker.scatter(VRAM);
    for _ in 0..4 {
        let (place, word) = (maker.word(), maker.number());
        maker.field(COLOUR, place, word & 0x0EEE);
        maker.field(SCROLL, place, word & 0x3FF);
    }
}

/// One phrase of port accesses and runs, with a new frame or a line that begins here and there.
pub fn episode(maker: &mut Maker) {
    match maker.below(15) {
        0..=4 => words(maker),
        5 => noise(maker),
        6 => half(maker),
        7 | 8 => waiting_fill(maker),
        9 => busy(maker),
        10 => scroll_edge(maker),
        11 => turn(maker),
        12 => absent_register(maker),
        13 => registers(maker),
        _ => {
            maker.frame();
            maker.status();
        }
    }
}

/// A step, a code and an address, then some data accesses.
fn words(maker: &mut Maker) {
    if maker.once_in(2) {
        let step = maker.step();
        maker.register(15, step);
    }
    let any = maker.byte() % 32;
    let code = maker.pick(&[1, 1, 1, 3, 3, 5, 0, 0, 8, 4, 17, 16, any, any, any]);
    let address = maker.address();
    maker.point(code, address);
    for _ in 0..1 + maker.below(5) {
        maker.access();
    }
}

/// Control words by chance, with whatever half is awaited; DMA off, so that any code may come.
fn noise(maker: &mut Maker) {
    maker.register(1, 0x04);
    for _ in 0..1 + maker.below(4) {
        if maker.once_in(3) {
            let byte = maker.byte();
            maker.control_byte(byte);
        } else {
            let word = maker.word();
            maker.control(word);
        }
    }
    maker.access();
}

/// A first half, then something else than its second half.
fn half(maker: &mut Maker) {
    let first = maker.first_half();
    maker.settle();
    maker.control(first);
    match maker.below(5) {
        0 => maker.status(),
        1 => maker.access(),
        2 => {
            // Looks like a register write, counts as a second half.
            let word = 0x8000 | maker.word() & 0x1F03;
            maker.control(word);
        }
        3 => maker.begins(),
        _ => maker.frame(),
    }
    maker.access();
}

/// A fill waits; then it is dropped, left waiting, or begun.
fn waiting_fill(maker: &mut Maker) {
    maker.register(1, 0x14);
    let length = maker.pick(&[1, 2, 3, 9]);
    maker.register(19, length);
    maker.register(20, 0);
    let mode = maker.byte() & 0x3F | 0x80;
    maker.register(23, mode);
    let code = maker.pick(&[0x21, 0x21, 0x21, 0x31, 0x20, 0x23, 0x25]);
    let address = maker.address();
    maker.point(code, address);
    while_waiting(maker);
    if maker.once_in(2) {
        let word = maker.word();
        maker.write(word);
    }
}

fn while_waiting(maker: &mut Maker) {
    for _ in 0..1 + maker.below(3) {
        match maker.below(8) {
            0 => maker.read(),
            1 => maker.status(),
            2 => maker.run(5),
            3 => {
                let value = maker.byte();
                maker.register(7, value);
            }
            4 => maker.control(0x4000),
            5 => {
                let number = maker.missing_register();
                maker.register(number, 0x55);
            }
            6 => maker.begins(),
            _ => maker.frame(),
        }
    }
}

/// A copy or transfer under way, and accesses that meet it.
fn busy(maker: &mut Maker) {
    maker.register(1, 0x10);
    maker.register(19, 2);
    maker.register(20, 0);
    let mode = maker.pick(&[0x00, 0xC0, 0x7F, 0xFF]);
    maker.register(23, mode);
    let address = maker.address();
    let code = if mode < 0x80 { 0x23 } else { 0x30 };
    maker.point(code, address);
    for _ in 0..2 {
        match maker.below(6) {
            0 => maker.status(),
            1 => maker.control(0x8F02),
            2 => maker.control_byte(0x40),
            3 => maker.frame(),
            4 => maker.begins(),
            _ => maker.access(),
        }
    }
}

/// The last scroll word and the first absent one.
fn scroll_edge(maker: &mut Maker) {
    let address = maker.pick(&[0x4C, 0x4E, 0x4F, 0x50, 0x51, 0x7E, 0xCE, 0xD0]);
    let step = maker.pick(&[0, 1, 2]);
    maker.register(15, step);
    maker.point(5, address);
    let word = maker.word();
    maker.write(word);
    maker.write(!word);
    maker.point(4, address);
    maker.read();
    maker.read();
}

/// The address turns past FFFFh.
fn turn(maker: &mut Maker) {
    let step = maker.pick(&[1, 2, 3, 0x80, 0xFF]);
    maker.register(15, step);
    let code = maker.pick(&[0, 1, 3, 5, 8, 4]);
    let address = maker.pick(&[0xFFFC, 0xFFFD, 0xFFFE, 0xFFFF, 0xFF80]);
    maker.point(code, address);
    for _ in 0..3 {
        maker.access();
    }
}

fn absent_register(maker: &mut Maker) {
    let address = maker.address();
    maker.point(1, address);
    let number = maker.missing_register();
    let value = maker.byte();
    maker.register(number, value);
    maker.access();
}

/// Registers of every number, as words or as bytes; a byte names its own register.
fn registers(maker: &mut Maker) {
    for _ in 0..4 {
        let (number, value) = (maker.word() % 32, maker.byte());
        if maker.once_in(4) {
            maker.settle();
            maker.control_byte(0x80 | value & 0x3F);
        } else {
            maker.register(number, value);
        }
    }
    maker.access();
}

/// Phrases that set fields by hand, which only plain calls follow well.
pub fn by_hand(maker: &mut Maker) {
    match maker.below(8) {
        0 => {
            for field in [OVERFLOW, COLLISION, PAL, USED_UP] {
                let value = maker.below(2);
                maker.field(field, 0, value);
            }
            maker.clear_flags();
            maker.digests();
        }
        1 => {
            let (word, other) = (maker.word(), maker.byte());
            let register0 = maker.pick(&[0, 4, other]);
            maker.colour(word, register0);
            maker.colour(word ^ 0x0222, register0 ^ 4);
        }
        2 => pending_and_waiting(maker),
        3..=5 => all_codes(maker),
        6 => {
            let value = maker.byte();
            maker.field(REGISTER, 15, u32::from(value));
        }
        _ => {
            if maker.once_in(4) {
                let pal = maker.once_in(2);
                maker.fresh(pal);
                maker.status();
            }
        }
    }
}

/// A waiting fill with a half awaited: a second half keeps it or starts another DMA.
fn pending_and_waiting(maker: &mut Maker) {
    waiting_fill_only(maker);
    maker.field(PENDING, 0, 1);
    let second = maker.pick(&[0x0000, 0x0010, 0x0080, 0x00C0, 0x80F3]);
    maker.control(second);
    maker.access();
}

fn waiting_fill_only(maker: &mut Maker) {
    maker.register(1, 0x14);
    maker.register(19, 3);
    maker.register(20, 0);
    maker.register(23, 0x80);
    maker.point(0x21, 0x0101);
    if maker.once_in(3) {
        maker.field(REGISTER, 23, 0xC0);
    }
}

/// Any of the 64 codes with DMA off: CD5 stays in the code and starts nothing.
fn all_codes(maker: &mut Maker) {
    maker.register(1, 0x04);
    maker.register(15, 2);
    for _ in 0..4 {
        let (code, address) = (maker.byte() % 64, maker.address());
        maker.point(code, address);
        // Only by hand does CD1-CD0 = 10 get into the code.
        if code % 4 == 2 {
            maker.field(CODE, 0, u32::from(code));
        }
        maker.write(0xABCD);
        maker.read();
    }
}
