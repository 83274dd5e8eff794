//! Streams of frames: lines that begin, levels offered and acknowledged, the V counter and the
//! status, with the registers of the interrupts changed between frames and inside them.

use super::{
    dma, refusals, tape, Maker, COUNTER, HORIZONTAL, LINE, PAL, REGISTER, USED_UP, VERTICAL,
};
use crate::replay::{CARTRIDGE, TAPE, VRAM, WORK_RAM};
use crate::timing;

/// So many records have to fit before a phrase, or the tape is rewound.
const ROOM: u32 = 600;

pub fn fill(maker: &mut Maker) {
    for buffer in [VRAM, WORK_RAM, CARTRIDGE] {
        maker.scatter(buffer);
    }
    let recorded = maker.once_in(2);
    maker.recorded(recorded);
    for _ in 0..2 {
        frame(maker);
    }
    while !maker.full() {
        if maker.once_in(60) {
            frame(maker);
        } else {
            episode(maker);
        }
    }
}

/// One phrase of lines.
pub fn episode(maker: &mut Maker) {
    ready(maker);
    match maker.below(34) {
        0..=8 => near_an_edge(maker),
        9..=12 => some_lines(maker),
        13..=15 => levels(maker),
        16..=20 => there_and_back(maker),
        21 | 22 => full_tape(maker),
        23 | 24 => over_count(maker),
        25..=27 => poked_record(maker),
        28 => with_pal(maker),
        29 => bad_line(maker),
        30 => bad_state(maker),
        31 => under_dma(maker),
        32 => beside_dma(maker),
        _ => {
            let recorded = !maker.machine.recorded;
            maker.recorded(recorded);
        }
    }
}

/// Mostly without PAL, so that lines begin, and with room on the tape for some.
fn ready(maker: &mut Maker) {
    if maker.machine.state.pal && !maker.once_in(4) {
        maker.field(PAL, 0, 0);
    }
    let room = tape::capacity(maker).saturating_sub(maker.machine.count);
    if maker.machine.recorded && room < ROOM {
        tape::rewind(maker);
    }
}

/// From here on the calls are recorded.
fn record(maker: &mut Maker) {
    if !maker.machine.recorded {
        maker.recorded(true);
    }
}

/// By a port where the ports are free, else by hand.
fn set(maker: &mut Maker, register: u16, value: u8) {
    if maker.machine.state.running() {
        maker.field(REGISTER, register, u32::from(value));
    } else {
        maker.register(register, value);
    }
}

/// Register 0 bit 4 and register 1 bit 5; the other bits let lines be drawn, and DMA begin.
fn enables(maker: &mut Maker) {
    let mode = maker.pick(&[0x14, 0x14, 0x14, 0x04]);
    set(maker, 0, mode);
    let mode = maker.pick(&[0x64, 0x74, 0x64, 0x44, 0x54]);
    set(maker, 1, mode);
}

/// After how many lines the counter expires; 224 is the last line on which it can.
fn interval(maker: &mut Maker) {
    let (any, few) = (maker.byte(), maker.byte() % 12);
    let lines = maker.pick(&[0, 1, 2, 50, 223, 224, 225, 255, any, few]);
    set(maker, 10, lines);
}

/// All 262 lines of a frame, with nothing between them, with what a program asks and answers, or
/// with any other calls.
fn frame(maker: &mut Maker) {
    ready(maker);
    enables(maker);
    interval(maker);
    if maker.once_in(2) && maker.machine.state.line != 261 {
        maker.field(LINE, 0, 261);
    }
    let sort = maker.below(3);
    for _ in 0..262 {
        maker.begins();
        match sort {
            1 => serve(maker),
            2 if maker.once_in(8) => between(maker),
            _ => (),
        }
    }
}

/// As a program does it: a level that is offered is mostly acknowledged on its line.
fn serve(maker: &mut Maker) {
    let offered = timing::level(&maker.machine.state);
    if offered != timing::NO_LEVEL && !maker.once_in(3) {
        maker.acknowledge(offered);
    } else if maker.once_in(8) {
        look(maker);
    }
}

/// One of the calls of the timing.
pub fn call(maker: &mut Maker) {
    match maker.below(6) {
        0 | 1 => maker.begins(),
        2 | 3 => acknowledge(maker),
        4 => maker.v_counter(),
        _ => maker.level(),
    }
}

/// What a program asks about the line.
fn look(maker: &mut Maker) {
    match maker.below(6) {
        0 => maker.v_counter(),
        1 => maker.level(),
        2 | 3 => maker.status(),
        _ => acknowledge(maker),
    }
}

/// Mostly the level offered, else any.
pub fn acknowledge(maker: &mut Maker) {
    let offered = timing::level(&maker.machine.state);
    let any = maker.byte();
    let level = maker.pick(&[offered, offered, offered, offered, 0, 2, 4, 6, offered | 8, any]);
    maker.acknowledge(level);
}

/// Something between two lines: a register, a port access, a run, a drawn line, a new frame.
fn between(maker: &mut Maker) {
    match maker.below(14) {
        0 | 1 => enables(maker),
        2..=4 => interval(maker),
        5 => maker.access(),
        6 => {
            let address = maker.address();
            maker.point(1, address);
        }
        7 => maker.run(9),
        8 => {
            let line = maker.machine.state.line;
            maker.line(u32::from(line));
        }
        9 => {
            maker.frame();
            maker.status();
        }
        _ => look(maker),
    }
}

/// Sets the line by hand, mostly to one after which something changes, and perhaps the rest.
pub fn jump(maker: &mut Maker) {
    let any = maker.below(262);
    let line =
        maker.pick(&[261, 261, 222, 223, 223, 223, 224, 224, 233, 234, 258, 259, 260, any, any]);
    maker.field(LINE, 0, line);
    if maker.once_in(2) {
        let any = maker.number();
        let counter = maker.pick(&[0, 0, 1, 2, 255, any]);
        maker.field(COUNTER, 0, counter);
    }
    if maker.once_in(3) {
        waiting(maker);
    }
}

/// Vertical and horizontal by hand, and used up, which the timing does not ask for.
fn waiting(maker: &mut Maker) {
    for field in [VERTICAL, HORIZONTAL, USED_UP] {
        let value = maker.number();
        maker.field(field, 0, value);
    }
}

/// A few lines from an edge on. The counter is shown by the digests alone, so they are asked for.
fn near_an_edge(maker: &mut Maker) {
    if maker.once_in(2) {
        enables(maker);
    }
    if maker.once_in(2) {
        interval(maker);
    }
    jump(maker);
    look(maker);
    for _ in 0..2 + maker.below(3) {
        maker.begins();
        if maker.once_in(3) {
            maker.digests();
        }
        look(maker);
    }
}

/// Some lines from where the display is.
fn some_lines(maker: &mut Maker) {
    if maker.once_in(2) {
        interval(maker);
    }
    for _ in 0..4 + maker.below(20) {
        maker.begins();
        if maker.once_in(4) {
            between(maker);
        }
    }
}

/// What is offered, whatever waits and whatever is asked for.
fn levels(maker: &mut Maker) {
    waiting(maker);
    enables(maker);
    maker.level();
    for _ in 0..3 {
        acknowledge(maker);
    }
    maker.level();
    maker.status();
}

/// Recorded lines and what is asked about them, some of it or all taken back, and on again. Nothing
/// is set by hand unless the tape is empty, so that a book can follow.
pub fn there_and_back(maker: &mut Maker) {
    record(maker);
    if maker.once_in(2) {
        tape::rewind(maker);
        jump(maker);
    }
    if maker.once_in(2) {
        enables(maker);
        interval(maker);
    }
    for _ in 0..2 {
        for _ in 0..1 + maker.below(8) {
            maker.begins();
            if maker.once_in(2) {
                look(maker);
            }
        }
        tape::back(maker);
        maker.level();
        look(maker);
    }
}

/// Room for a line or two, then for none. A level that is not offered and a line with PAL do not
/// even come to the tape.
fn full_tape(maker: &mut Maker) {
    tape::rewind(maker);
    record(maker);
    let (records, odd) = (maker.below(4), maker.below(32));
    maker.length(TAPE, 32 * records + odd);
    for _ in 0..3 {
        maker.begins();
        call(maker);
    }
    waiting(maker);
    for _ in 0..3 {
        acknowledge(maker);
    }
    if maker.once_in(2) {
        maker.field(PAL, 0, 1);
        maker.begins();
        call(maker);
        maker.field(PAL, 0, 0);
    }
    tape::back(maker);
    maker.length(TAPE, tape::WHOLE_TAPE);
}

/// A count above the capacity bars the recorded calls and no others.
fn over_count(maker: &mut Maker) {
    let (recorded, count) = (maker.machine.recorded, maker.machine.count);
    record(maker);
    let above = tape::capacity(maker) + 1;
    let wrong = maker.pick(&[above, above, u32::MAX]);
    maker.count(wrong);
    if maker.once_in(2) {
        maker.field(PAL, 0, 1);
    }
    maker.begins();
    for _ in 0..3 {
        call(maker);
    }
    if maker.once_in(4) {
        maker.field(LINE, 0, 262);
        maker.begins();
        acknowledge(maker);
        maker.field(LINE, 0, 261);
    }
    maker.recorded(false);
    for _ in 0..2 {
        call(maker);
    }
    maker.count(count);
    maker.recorded(recorded);
}

/// Bytes for the record of a line: of other versions, and its timing at its edges and just past
/// them.
const POKES: [&[(u32, u8)]; 20] = [
    &[(0, 1)],
    &[(0, 1), (20, 0), (21, 0), (22, 0), (23, 0), (24, 0)],
    &[(0, 2)],
    &[(0, 4)],
    &[(21, 1), (22, 5)],
    &[(21, 1), (22, 6)],
    &[(21, 0xFF), (22, 0xFF)],
    &[(21, 0), (22, 223)],
    &[(23, 255)],
    &[(24, 1)],
    &[(24, 2)],
    &[(24, 3)],
    &[(24, 4)],
    &[(25, 1)],
    &[(26, 1)],
    &[(27, 0x80)],
    &[(28, 1)],
    &[(29, 1)],
    &[(30, 0x80)],
    &[(31, 1)],
];

/// A recorded line whose record is changed by hand, then a step back over it.
fn poked_record(maker: &mut Maker) {
    record(maker);
    maker.begins();
    if !tape::poked_back(maker, &POKES) {
        return;
    }
    look(maker);
    maker.begins();
}

/// With PAL no line begins, and all else is as ever.
fn with_pal(maker: &mut Maker) {
    maker.field(PAL, 0, 1);
    jump(maker);
    maker.begins();
    for _ in 0..4 {
        look(maker);
    }
    maker.field(PAL, 0, 0);
    look(maker);
}

/// Lines that no frame has, also where PAL would refuse a line anyhow.
fn bad_line(maker: &mut Maker) {
    let any = maker.number();
    let line = maker.pick(&[262, 262, 263, 511, 65_535, 65_535, any]);
    maker.field(LINE, 0, line);
    if maker.once_in(2) {
        maker.field(PAL, 0, 1);
    }
    for _ in 0..4 {
        call(maker);
    }
    look(maker);
    jump(maker);
    look(maker);
}

/// Something else wrong, or a buffer that these calls are not lent.
fn bad_state(maker: &mut Maker) {
    refusals::fault(maker);
    if maker.once_in(3) {
        maker.field(PAL, 0, 1);
    }
    for _ in 0..5 {
        call(maker);
    }
    refusals::mend(maker);
}

/// Lines while DMA of any kind is under way, set by hand; they are never busy.
fn under_dma(maker: &mut Maker) {
    maker.calm();
    refusals::base(maker);
    waiting(maker);
    for _ in 0..3 {
        maker.begins();
        acknowledge(maker);
        look(maker);
    }
    maker.calm();
}

/// The same with DMA that the ports began, some of it made before the lines and the rest after.
fn beside_dma(maker: &mut Maker) {
    maker.calm();
    match maker.below(3) {
        0 => dma::transfer(maker),
        1 => dma::fill_dma(maker),
        _ => dma::copy(maker),
    }
    for _ in 0..3 {
        call(maker);
    }
    maker.calm();
}
