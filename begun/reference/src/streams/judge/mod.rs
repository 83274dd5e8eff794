//! Streams of captured lines: lines that are drawn, copied into the capture and judged, as they are
//! and spoilt, against their own line and others; captures that are refused; and batches of them,
//! small ones and ones with numbers near the limit.

mod batches;
mod captures;
mod limits;
mod refused;

use super::{drawing, ports, refusals, timing, Maker};
use crate::replay::{CAPTURE, CARTRIDGE, PIXELS, WORK_RAM};

pub fn fill(maker: &mut Maker) {
    for buffer in [PIXELS, CAPTURE, WORK_RAM, CARTRIDGE] {
        maker.scatter(buffer);
    }
    drawing::scene(maker);
    while !maker.full() {
        episode(maker);
        between(maker);
    }
}

/// One capture or a few that go together.
fn episode(maker: &mut Maker) {
    match maker.below(32) {
        0..=6 => captures::episode(maker),
        7..=9 => captures::masked(maker),
        10 | 11 => captures::crowded(maker),
        12 | 13 => captures::blanked(maker),
        14 | 15 => captures::busy(maker),
        16 => captures::never_recorded(maker),
        17 | 18 => captures::by_hand(maker),
        19..=22 => refused::episode(maker),
        23..=25 => batches::episode(maker),
        26 => batches::joined(maker),
        27 => batches::any_numbers(maker),
        _ => limits::episode(maker),
    }
    maker.tell_batch();
}

/// Another screen, other calls, or nothing, so that a capture is judged once more.
fn between(maker: &mut Maker) {
    match maker.below(24) {
        0..=2 => drawing::layout(maker),
        3 => drawing::scrolls(maker),
        4 => drawing::windows(maker),
        5..=7 => drawing::either_width(maker),
        8 => maker.raise_flags(),
        9 => timing::jump(maker),
        10 => ports::by_hand(maker),
        11 => {
            let pal = maker.once_in(2);
            maker.fresh(pal);
            captures::look(maker, 0);
        }
        12 if maker.once_in(3) => drawing::scene(maker),
        _ => (),
    }
}

/// Lines are drawn, and the buffers are lent at their lengths.
fn ready(maker: &mut Maker) {
    maker.calm();
    refusals::mend_lengths(maker);
    drawing::sane(maker);
}

/// The calls on captured lines, by name. What they do not look at is anything.
impl Maker {
    fn judge(&mut self, line: u32) {
        let (any, more) = (self.byte(), self.word());
        self.emit(25, any, more, line);
    }

    fn add_line(&mut self, line: u32) {
        let (any, more) = (self.byte(), self.word());
        self.emit(26, any, more, line);
    }

    fn join_batch(&mut self) {
        let (any, more, line) = (self.byte(), self.word(), self.number());
        self.emit(27, any, more, line);
    }

    fn batch_field(&mut self, field: u8, value: u32) {
        let any = self.word();
        self.emit(28, field, any, value);
    }

    fn tell_batch(&mut self) {
        let (any, more, line) = (self.byte(), self.word(), self.number());
        self.emit(29, any, more, line);
    }

    fn copy_pixels(&mut self) {
        let (any, more, line) = (self.byte(), self.word(), self.number());
        self.emit(40, any, more, line);
    }
}
