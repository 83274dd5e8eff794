//! Streams of everything together: plain and recorded calls, drawing, refusals, scripts.

use super::{
    dma, drawing, masking, ports, refusals, script, shading, tape, timing, Maker, USED_UP,
};
use crate::replay::{CARTRIDGE, TAPE, WORK_RAM};

pub fn fill(maker: &mut Maker) {
    maker.scatter(WORK_RAM);
    maker.scatter(CARTRIDGE);
    let start = maker.once_in(3);
    maker.recorded(!start);
    drawing::scene(maker);
    while !maker.full() {
        episode(maker);
    }
}

fn episode(maker: &mut Maker) {
    match maker.below(34) {
        0..=3 => ports::episode(maker),
        4..=6 => tape::episode(maker),
        7..=13 => drawing_episode(maker),
        14 => dma::transfer(maker),
        15 => dma::fill_dma(maker),
        16 => dma::copy(maker),
        17 => {
            dma::transfer(maker);
            dma::to_the_turn(maker);
        }
        18 => {
            let recorded = !maker.machine.recorded;
            maker.recorded(recorded);
        }
        19 => recorded_anew(maker),
        20 => one_off(maker),
        21 => ports::by_hand(maker),
        22 => brim(maker),
        23..=25 => timing::episode(maker),
        26 | 27 => masking::episode(maker),
        28 | 29 => shading::episode(maker),
        30..=32 => {
            let steps = maker.below(maker.machine.count.min(40) + 1);
            maker.back(steps);
        }
        _ => scripts(maker),
    }
    if maker.once_in(2) {
        maker.calm();
    }
}

fn drawing_episode(maker: &mut Maker) {
    maker.calm();
    if !maker.once_in(5) {
        drawing::sane(maker);
    }
    drawing::episode(maker);
    if maker.machine.recorded && maker.once_in(2) {
        let steps = maker.below(maker.machine.count.min(6) + 1);
        maker.back(steps);
    }
}

/// A script mostly ends what a book follows, so the tape is rewound for another to begin.
fn scripts(maker: &mut Maker) {
    script::episode(maker);
    tape::rewind(maker);
}

/// Recorded from a count of 0 on, so that a book can begin.
fn recorded_anew(maker: &mut Maker) {
    maker.back(maker.machine.count);
    if maker.machine.count != 0 {
        maker.count(0);
    }
    maker.recorded(true);
    maker.calm();
    for _ in 0..3 {
        drawing::sane(maker);
        let line = maker.below(224);
        maker.line(line);
        ports::episode(maker);
        maker.calm();
        maker.line(line);
        let steps = maker.below(maker.machine.count.min(12) + 1);
        maker.back(steps);
    }
}

/// A fault, some calls, and all well again.
fn one_off(maker: &mut Maker) {
    refusals::fault(maker);
    for _ in 0..3 {
        refusals::call(maker);
    }
    maker.line(0);
    maker.back(1);
    refusals::mend(maker);
    drawing::scene(maker);
}

/// A line, a frame and the timing on a tape with no room, and with a count above the capacity; none
/// of them clears used up.
fn brim(maker: &mut Maker) {
    let was = maker.machine.tape.length as u32;
    maker.recorded(true);
    let used_up = maker.number();
    maker.field(USED_UP, 0, used_up);
    let full = maker.machine.count.min(4_096) * 32;
    maker.length(TAPE, full);
    maker.line(10);
    maker.frame();
    timing::call(maker);
    maker.line(300);
    let short = maker.machine.count.min(4_096) * 32;
    maker.length(TAPE, short.saturating_sub(1));
    maker.line(10);
    timing::call(maker);
    maker.back(0);
    maker.length(TAPE, was);
}
