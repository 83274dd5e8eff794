//! Captures that are refused, for one reason or for two, also where the batch is full, and lines that
//! are counted behind them.

use super::captures::{look, take};
use super::{limits, ready};
use crate::draw;
use crate::replay::{CAPTURE, PIXELS, VRAM};
use crate::streams::script::stopped::{mend, spoil_state};
use crate::streams::{drawing, Maker};

/// One thing that is wrong.
#[derive(Clone, Copy, PartialEq, Eq)]
enum Fault {
    BadState,
    Vram,
    Capture,
    Line,
    NotModelled,
}

use Fault::{BadState, Capture, Line, NotModelled, Vram};

/// Each alone, and two or all of them, for their order.
const FAULTS: [&[Fault]; 22] = [
    &[BadState],
    &[BadState],
    &[Vram],
    &[Vram],
    &[Capture],
    &[Capture],
    &[Capture],
    &[Line],
    &[Line],
    &[NotModelled],
    &[NotModelled],
    &[NotModelled],
    &[NotModelled],
    &[BadState, Vram],
    &[BadState, Capture],
    &[BadState, Line],
    &[BadState, NotModelled],
    &[Vram, Line],
    &[Capture, Line],
    &[Capture, NotModelled],
    &[Line, NotModelled],
    &[BadState, Vram, Capture, Line, NotModelled],
];

/// A line, refused ones, and the line again.
pub fn episode(maker: &mut Maker) {
    ready(maker);
    let line = take(maker);
    let full = maker.once_in(3);
    if full {
        limits::no_room(maker);
    }
    for _ in 0..3 {
        refused(maker, line);
        if maker.once_in(2) {
            maker.add_line(line);
        }
    }
    if full {
        limits::room(maker);
    }
    look(maker, line);
}

fn refused(maker: &mut Maker, line: u32) {
    let faults = maker.pick(&FAULTS);
    let height = draw::height(&maker.machine.state);
    let past = maker.pick(&[height, height, 240, 256, 0x1_0000, u32::MAX]);
    let line = if faults.contains(&Line) { past } else { line };
    let register = faults.contains(&NotModelled).then(|| not_modelled(maker));
    let field = faults.contains(&BadState).then(|| spoil_state(maker));
    lend_wrongly(maker, faults);
    look(maker, line);
    if maker.once_in(4) {
        maker.digests();
    }
    mend(maker, field);
    if let Some((register, value)) = register {
        drawing::set(maker, register, value);
    }
}

/// Registers for what is not modelled, now and then on a blanked line; gives the one and its value.
fn not_modelled(maker: &mut Maker) -> (u16, u8) {
    let (register, value) = maker.pick(&drawing::UNMODELLED);
    let old = maker.machine.state.registers[usize::from(register)];
    drawing::set(maker, register, value);
    (register, old)
}

/// Lengths just off, with the pixel buffer right or wrong: it is not asked.
fn lend_wrongly(maker: &mut Maker, faults: &[Fault]) {
    if faults.contains(&Vram) {
        let length = maker.pick(&[65_535, 65_537, 0]);
        maker.length(VRAM, length);
    }
    if faults.contains(&Capture) {
        let length = maker.pick(&[319, 319, 321, 321, 0, 256, 324]);
        maker.length(CAPTURE, length);
    }
    if maker.once_in(6) {
        maker.length(PIXELS, 319);
    }
}
