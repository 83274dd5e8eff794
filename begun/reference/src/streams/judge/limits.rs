//! Batches with a total near the limit, and lines that bring it just there, or would bring it past.

use super::batches::{LINES, PLACE, WORST, WORST_DIFFERING};
use super::captures::{spoil, take};
use super::ready;
use crate::judge::Batch;
use crate::planes::width;
use crate::streams::Maker;

/// A line, and totals that it just fits or does not. Each total is small again after it.
pub fn episode(maker: &mut Maker) {
    ready(maker);
    let line = take(maker);
    if !maker.once_in(3) {
        spoil(maker);
    }
    room(maker);
    for _ in 0..4 {
        let field = maker.below(4) as u8;
        let fits = u32::MAX - adds(maker, line)[usize::from(field)];
        let past = fits.saturating_add(1);
        let value = maker.pick(&[fits - 1, fits, fits, past, past, u32::MAX]);
        maker.batch_field(field, value);
        maker.add_line(line);
        if maker.once_in(2) {
            maker.tell_batch();
        }
        if maker.once_in(3) {
            maker.add_line(line);
        }
        let small = maker.below(9);
        maker.batch_field(field, small);
        maker.add_line(line);
    }
}

/// What the capture adds to the four totals.
fn adds(maker: &Maker, line: u32) -> [u32; 4] {
    let machine = &maker.machine;
    let mut own = Batch::default();
    let added = own.add(&machine.state, machine.vram.lent(), line, machine.capture.lent());
    match added {
        Ok(()) => [own.lines, own.equal, own.differing, own.visible],
        Err(_) => [1, 0, 0, width(&machine.state) as u32],
    }
}

/// No line can be added.
pub fn no_room(maker: &mut Maker) {
    maker.batch_field(LINES, u32::MAX);
}

/// Every total is small.
pub fn room(maker: &mut Maker) {
    let worst = maker.number();
    let batch = maker.machine.batch.batch;
    let totals = [batch.lines, batch.equal, batch.differing, batch.visible];
    for (field, total) in (LINES..).zip(totals) {
        if total > 1 << 24 {
            let small = maker.below(9);
            maker.batch_field(field, small);
        }
    }
    if maker.once_in(3) {
        maker.batch_field(WORST, worst);
        let (place, differing) = (maker.below(40), maker.below(4));
        maker.batch_field(PLACE, place);
        maker.batch_field(WORST_DIFFERING, differing);
    }
}
