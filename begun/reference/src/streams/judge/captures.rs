//! Captures that are judged: of the line as it was drawn, spoilt in a few bytes, of other lines, with
//! used up both ways, of blanked lines, on a busy chip, and while calls are recorded.

use super::ready;
use crate::draw;
use crate::planes::width;
use crate::replay::{CAPTURE, PIXELS};
use crate::streams::masking::{self, Entry};
use crate::streams::script::beside_the_tape;
use crate::streams::{drawing, refusals, Maker, COLLISION, OVERFLOW, PAL, USED_UP};

/// The bytes that the stream holds for a capture.
const HELD: u32 = 324;
/// No pixel byte of a line has this intensity.
const NO_INTENSITY: u8 = 0xC0;

pub fn episode(maker: &mut Maker) {
    ready(maker);
    let line = take(maker);
    look(maker, line);
    for _ in 0..1 + maker.below(4) {
        match maker.below(8) {
            0 => {
                let other = some_line(maker);
                look(maker, other);
            }
            1 => maker.copy_pixels(),
            2 => another_screen(maker),
            _ => spoil(maker),
        }
        look(maker, line);
    }
}

/// A line inside the height.
pub fn some_line(maker: &mut Maker) -> u32 {
    let height = draw::height(&maker.machine.state);
    let any = maker.below(height);
    maker.pick(&[0, 7, 223, height - 1, any, any, any, any])
}

/// Draws a line and copies it. Used up is mostly put back as it stood when the line began.
pub fn take(maker: &mut Maker) -> u32 {
    let line = some_line(maker);
    take_line(maker, line);
    line
}

fn take_line(maker: &mut Maker, line: u32) {
    let used_up = maker.machine.state.used_up;
    maker.line(line);
    maker.copy_pixels();
    if maker.machine.state.used_up != used_up && !maker.once_in(6) {
        maker.field(USED_UP, 0, u32::from(used_up));
    }
}

/// The capture is judged or added, or both. What that leaves is looked at now and then.
pub fn look(maker: &mut Maker, line: u32) {
    let which = maker.below(4);
    if which != 0 {
        maker.judge(line);
    }
    if which != 1 {
        maker.add_line(line);
    }
    match maker.below(8) {
        0 | 1 => maker.digests(),
        2 => maker.tell_batch(),
        _ => (),
    }
}

/// Other bytes in one place or a few: at the edges of what is visible, inside, past the width, and in
/// the bytes that are held beyond the length.
pub fn spoil(maker: &mut Maker) {
    let bits = maker.pick(&[0x01, 0x01, 0x3F, 0x40, 0x40, 0x80, NO_INTENSITY, 0x00]);
    for _ in 0..maker.pick(&[1, 1, 1, 2, 3]) {
        spoil_byte(maker, bits);
    }
}

fn spoil_byte(maker: &mut Maker, bits: u8) {
    let visible = width(&maker.machine.state) as u32;
    let (inside, past) = (maker.below(visible), visible + maker.below(HELD - visible));
    let beyond = 320 + maker.below(4);
    let at = maker.pick(&[0, visible - 1, inside, inside, inside, past, past, beyond]);
    let any = maker.byte();
    let bits = if bits == 0 { any } else { bits };
    let byte = maker.machine.capture.bytes[at as usize] ^ bits;
    let rounds = maker.pick(&[0, 0, 0, 1, 2, 7]);
    maker.poke(CAPTURE, at + rounds * HELD, byte);
}

/// One thing of the screen changed, which may show on the line or not.
fn another_screen(maker: &mut Maker) {
    match maker.below(6) {
        0 | 1 => drawing::either_width(maker),
        2 => drawing::windows(maker),
        3 => drawing::scrolls(maker),
        4 => {
            let backdrop = maker.byte();
            drawing::set(maker, 7, backdrop);
        }
        _ => {
            let used_up = maker.number();
            maker.field(USED_UP, 0, used_up);
        }
    }
}

/// Where the sprites of a line are: X 0 first, twice, or after another X.
const AT_X: [&[bool]; 4] =
    [&[false, true], &[false, true], &[false, false, true], &[true, false, true]];

/// Sprites of X 0 and others, so that used up may decide what shows. The line is drawn with it one
/// way and judged with it both ways.
pub fn masked(maker: &mut Maker) {
    ready(maker);
    masking::ready(maker);
    let line = maker.below(216);
    let mut entries = Vec::new();
    for elsewhere in maker.pick(&AT_X) {
        let (any, size) = (maker.word(), masking::size(1 + maker.below(4), 1 + maker.below(2)));
        let x = if *elsewhere { 128 + maker.word() % 220 } else { 0 };
        entries.push(Entry { line, size, cell: any | 0x8000, x });
    }
    masking::table(maker, &entries, 0);
    for _ in 0..2 {
        let used_up = maker.below(2);
        maker.field(USED_UP, 0, used_up);
        maker.line(line);
        maker.copy_pixels();
        for flag in [used_up, 1 - used_up, used_up] {
            maker.field(USED_UP, 0, flag);
            look(maker, line);
        }
        drawing::either_width(maker);
    }
}

/// A ring of sprites on a line, one after the other to its limit: drawn, it sets flags, which are
/// cleared then or not.
pub fn crowded(maker: &mut Maker) {
    ready(maker);
    masking::ready(maker);
    let line = maker.below(200);
    let mut entries = Vec::new();
    for place in 0..3 {
        let off = if place == 0 { 16 } else { 0 };
        let (cell, x) = (maker.word(), 1 + maker.word() % 400);
        let size = masking::size(maker.pick(&[1, 2, 2, 4]), 1);
        entries.push(Entry { line: line + off, size, cell, x });
    }
    masking::table(maker, &entries, 1);
    take_line(maker, line);
    for _ in 0..3 {
        for field in [OVERFLOW, COLLISION, USED_UP] {
            let flag = maker.pick(&[0, 0, 1]);
            maker.field(field, 0, flag);
        }
        look(maker, line);
        maker.digests();
        spoil(maker);
    }
    // None of them is on the line after these.
    look(maker, line + 8);
}

/// Register 1 bit 6 cleared: the backdrop alone, at normal intensity.
pub fn blanked(maker: &mut Maker) {
    ready(maker);
    let mode = maker.machine.state.registers[1];
    drawing::set(maker, 1, mode & !0x40);
    drawing::either_width(maker);
    let line = if maker.once_in(2) {
        maker.flood(CAPTURE, maker.machine.state.registers[7] & 0x3F);
        some_line(maker)
    } else {
        take(maker)
    };
    let used_up = maker.number();
    maker.field(USED_UP, 0, used_up);
    look(maker, line);
    spoil(maker);
    look(maker, line);
    drawing::set(maker, 1, mode);
    look(maker, line);
}

/// A waiting fill, or a run under way, and a half that is awaited, or PAL: none of it refuses.
pub fn busy(maker: &mut Maker) {
    ready(maker);
    let line = take(maker);
    refusals::base(maker);
    let (pal, pending) = (maker.number(), maker.number());
    maker.field(PAL, 0, pal);
    maker.field(crate::streams::PENDING, 0, pending);
    look(maker, line);
    spoil(maker);
    look(maker, line);
    maker.digests();
    maker.calm();
}

/// Nothing of this is recorded, whether the tape has room or not.
pub fn never_recorded(maker: &mut Maker) {
    ready(maker);
    let line = take(maker);
    beside_the_tape(maker, |maker| {
        maker.digests();
        for _ in 0..2 {
            maker.judge(line);
            maker.add_line(line);
            spoil(maker);
        }
        maker.judge(240);
        maker.add_line(240);
        maker.join_batch();
        maker.digests();
    });
}

/// The capture by the commands that set buffers, judged against any line. The pixel buffer may have
/// another length, which is not asked.
pub fn by_hand(maker: &mut Maker) {
    ready(maker);
    let (any, wrong) = (maker.byte(), maker.pick(&[0, 319, 321, HELD]));
    match maker.below(6) {
        0 => maker.scatter(CAPTURE),
        1 => maker.flood(CAPTURE, NO_INTENSITY | any),
        2 => maker.flood(CAPTURE, any),
        3 => maker.length(CAPTURE, wrong),
        4 => no_buffer(maker),
        _ => maker.length(PIXELS, wrong),
    }
    let line = some_line(maker);
    look(maker, line);
    if maker.machine.capture.length != 320 {
        // Copied whole, though it is lent at another length.
        maker.copy_pixels();
        maker.length(CAPTURE, 320);
        look(maker, line);
    }
    refusals::mend_lengths(maker);
}

/// A buffer that there is not: the capture, which is the last one, stays.
fn no_buffer(maker: &mut Maker) {
    let (number, byte) = (maker.pick(&[8, 9, 0x107, 0xFFFF]), maker.byte());
    match maker.below(4) {
        0 => maker.poke(number, 0, byte),
        1 => maker.scatter(number),
        2 => maker.length(number, 9),
        _ => maker.flood(number, byte),
    }
}
