//! Streams of plain calls on states and buffers at the edge of GOOD, and just past it.

use super::{
    masking, timing, Maker, ADDRESS, CODE, COLOUR, DMA_KIND, FILL_BYTE, LINE, PENDING, REGISTER,
    REMAINING, SCROLL, SOURCE, USED_UP,
};
use crate::replay::{CARTRIDGE, PIXELS, VRAM, WORK_RAM};
use crate::state::{COPY, FILL, TRANSFER, UNITS_MOST};

pub fn fill(maker: &mut Maker) {
    for buffer in [VRAM, WORK_RAM, CARTRIDGE] {
        maker.scatter(buffer);
    }
    while !maker.full() {
        round(maker);
        if maker.once_in(8) {
            refused_read(maker);
        }
        if maker.once_in(8) {
            refused_lines(maker);
        }
    }
}

/// A good state at its edges, up to three faults, some calls, and all well again.
fn round(maker: &mut Maker) {
    base(maker);
    for _ in 0..maker.pick(&[0, 1, 1, 1, 2, 3]) {
        fault(maker);
    }
    for _ in 0..5 {
        call(maker);
    }
    mend(maker);
}

/// A bad code or a transfer refuses a status read, and the flags that it leaves show in the next.
fn refused_read(maker: &mut Maker) {
    maker.raise_flags();
    if maker.once_in(2) {
        maker.field(CODE, 0, 64);
        maker.status();
        maker.field(CODE, 0, 63);
    } else {
        maker.field(DMA_KIND, 0, u32::from(TRANSFER));
        maker.field(REMAINING, 0, 1);
        maker.status();
        maker.calm();
    }
    maker.status();
    maker.status();
}

/// Refused lines leave used up, and the digests after each of them show it. A blanked line that is
/// done clears it.
fn refused_lines(maker: &mut Maker) {
    maker.field(USED_UP, 0, 1);
    for _ in 0..2 {
        masking::refused(maker);
    }
    if maker.once_in(2) {
        maker.field(REGISTER, 1, 0x04);
        maker.line(223);
    }
    maker.fresh(false);
}

/// A good state of any DMA kind, with values at the ends of their ranges.
pub fn base(maker: &mut Maker) {
    let kind = maker.byte() % 5;
    maker.field(DMA_KIND, 0, u32::from(kind));
    if kind >= TRANSFER {
        let remaining = maker.pick(&[1, 2, 7, UNITS_MOST - 1, UNITS_MOST]);
        maker.field(REMAINING, 0, remaining);
    }
    let source = match kind {
        TRANSFER => maker.pick(&[0, 0x10_000, 0x1F_FFE, 0x20_000, 0xDF_FFFE, 0xE0_0000, 0xFF_FFFE]),
        COPY => maker.pick(&[0, 1, 0xFFFF]),
        _ => 0,
    };
    maker.field(SOURCE, 0, source);
    if kind == FILL {
        let byte = maker.pick(&[0, 1, 255]);
        maker.field(FILL_BYTE, 0, byte);
    }
    let place = maker.word();
    match maker.below(5) {
        0 => maker.field(COLOUR, place, 0x0EEE),
        1 => maker.field(SCROLL, place, 0x03FF),
        2 => maker.field(CODE, 0, 63),
        3 => maker.field(PENDING, 0, 1),
        _ => maker.field(ADDRESS, 0, 0xFFFF),
    }
    let code = maker.pick(&[0, 1, 3, 5, 0x21]);
    maker.field(CODE, 0, code);
    maker.field(REGISTER, 15, 2);
    if maker.once_in(3) {
        maker.raise_flags();
    }
    if maker.once_in(2) {
        timing::jump(maker);
    }
}

/// One thing wrong, or in a few cases just at the edge of right.
pub fn fault(maker: &mut Maker) {
    let place = maker.word();
    match maker.below(14) {
        0 => {
            let bit = maker.pick(&[0, 4, 8, 12, 13, 14, 15]);
            maker.field(COLOUR, place, 1 << bit);
        }
        1 => {
            let word = maker.pick(&[0x400, 0x8000, 0xFFFF]);
            maker.field(SCROLL, place, word);
        }
        2 => {
            let code = maker.pick(&[64, 128, 255]);
            maker.field(CODE, 0, code);
        }
        3 => {
            let kind = maker.pick(&[5, 6, 128, 255]);
            maker.field(DMA_KIND, 0, kind);
        }
        4 => {
            let remaining = maker.pick(&[0, 1, UNITS_MOST, UNITS_MOST + 1, u32::MAX]);
            maker.field(REMAINING, 0, remaining);
        }
        5 | 6 => bad_source(maker),
        7 => {
            let byte = maker.pick(&[1, 255]);
            maker.field(FILL_BYTE, 0, byte);
        }
        8 => {
            let line = maker.pick(&[262, 262, 512, 65_535]);
            maker.field(LINE, 0, line);
        }
        _ => bad_length(maker),
    }
}

/// Mostly a source just past what its DMA kind may have.
fn bad_source(maker: &mut Maker) {
    let any = maker.number();
    let source = match maker.machine.state.kind {
        TRANSFER => maker.pick(&[1, 0xFF_FFFD, 0xFF_FFFF, 0x100_0000, 0x100_0000, any]),
        COPY => maker.pick(&[0x1_0000, 0x1_0000, 0x1_FFFF, any]),
        _ => maker.pick(&[1, 2, 0xFFFF, 0x100_0000, any]),
    };
    maker.field(SOURCE, 0, source);
}

fn bad_length(maker: &mut Maker) {
    match maker.below(3) {
        0 => {
            let length = maker.pick(&[65_535, 65_537, 0, 65_540]);
            maker.length(VRAM, length);
        }
        1 => {
            let length = maker.pick(&[65_535, 65_537, 0, 65_534]);
            maker.length(WORK_RAM, length);
        }
        _ => {
            let length = maker.pick(&[131_071, 131_073, 131_075, 1, 0, 2, 65_536, 65_538]);
            maker.length(CARTRIDGE, length);
        }
    }
}

/// One plain call of those that need neither tape nor drawing.
pub fn call(maker: &mut Maker) {
    let (word, byte) = (maker.word(), maker.byte());
    match maker.below(15) {
        0 => maker.control(word),
        1 => maker.control_byte(byte),
        2 => maker.write(word),
        3 => maker.write_byte(byte),
        4 => maker.read(),
        5 | 6 => maker.status(),
        7..=9 => {
            let budget = maker.pick(&[0, 1, 2, 7, UNITS_MOST - 1, UNITS_MOST, u32::MAX]);
            maker.run(budget);
        }
        10 => maker.frame(),
        11..=13 => timing::call(maker),
        _ => maker.colour(word, byte),
    }
}

/// Lengths as at the start.
pub fn mend_lengths(maker: &mut Maker) {
    let machine = &maker.machine;
    for (buffer, length, right) in [
        (VRAM, machine.vram.length, 65_536),
        (WORK_RAM, machine.work_ram.length, 65_536),
        (CARTRIDGE, machine.cartridge.length, 131_072),
        (PIXELS, machine.pixels.length, 320),
    ] {
        if length != right {
            maker.length(buffer, right as u32);
        }
    }
}

/// Lengths and state as at the start.
pub fn mend(maker: &mut Maker) {
    mend_lengths(maker);
    let pal = maker.once_in(2);
    maker.fresh(pal);
}
