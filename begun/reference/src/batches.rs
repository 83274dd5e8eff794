//! Tests of captures that are added to batches, worked out by hand: counted and refused lines, the
//! worst line, totals at the limit, and batches of any numbers (definition, Batches; Adding a line).

use crate::answer::{BAD_BUFFER, BAD_STATE, NOT_MODELLED, NO_SUCH_PLACE, PAST_THE_LIMIT};
use crate::bench::Bench;
use crate::captures::{plain, WIDTHS};
use crate::judge::{Batch, Worst};

/// The limit.
pub const MOST: u32 = u32::MAX;

/// The four totals, and the worst line's place and differing pixels.
pub fn batch(totals: [u32; 4], worst: Option<(u32, u32)>) -> Batch {
    let [lines, equal, differing, visible] = totals;
    let worst = worst.map(|(place, differing)| Worst { place, differing });
    Batch { lines, equal, differing, visible, worst }
}

pub const EMPTY: Batch = Batch { lines: 0, equal: 0, differing: 0, visible: 0, worst: None };

/// Adds a capture of a line of 25h that differs on this many columns.
fn add(bench: &Bench, batch: &mut Batch, differing: usize) -> Result<(), u8> {
    let mut capture = [0x25; 320];
    capture[..differing].fill(0x65);
    batch.add(&bench.0.state, bench.0.vram.lent(), 0, &capture)
}

/// The batch of captures that differ on so many columns each, at 320.
pub fn batch_of(differing: &[usize]) -> Batch {
    let mut batch = EMPTY;
    for columns in differing {
        assert_eq!(add(&plain(0x81), &mut batch, *columns), Ok(()));
    }
    batch
}

#[test]
fn an_empty_batch_has_no_worst_line() {
    assert_eq!(Batch::default(), EMPTY);
    assert_eq!(EMPTY.join(&EMPTY), Ok(EMPTY));
}

/// The first line is the worst so far, even if it is equal; a worse one takes its place, and at a
/// tie the earlier one stays.
#[test]
fn the_worst_line_is_the_earliest_of_the_worst() {
    for (differing, expected) in [
        (&[0][..], batch([1, 1, 0, 320], Some((0, 0)))),
        (&[5], batch([1, 0, 5, 320], Some((0, 5)))),
        (&[320], batch([1, 0, 320, 320], Some((0, 320)))),
        (&[0, 0], batch([2, 2, 0, 640], Some((0, 0)))),
        (&[0, 1], batch([2, 1, 1, 640], Some((1, 1)))),
        (&[1, 0], batch([2, 1, 1, 640], Some((0, 1)))),
        (&[3, 3, 3], batch([3, 0, 9, 960], Some((0, 3)))),
        (&[2, 7, 0, 7, 6], batch([5, 1, 22, 1_600], Some((1, 7)))),
        (&[2, 7, 0, 7, 8], batch([5, 1, 24, 1_600], Some((4, 8)))),
    ] {
        assert_eq!(batch_of(differing), expected, "{differing:?}");
    }
}

/// At 256 a line adds 256 visible pixels, and what differs past them is not counted: 10 columns of
/// the first capture, and the 64 bytes of the second that are not visible.
#[test]
fn the_rate_is_two_whole_numbers() {
    let [wide, narrow] = WIDTHS.map(|(register_12, _)| plain(register_12));
    let mut batch = EMPTY;
    assert_eq!(add(&narrow, &mut batch, 10), Ok(()));
    assert_eq!((batch.differing, batch.visible), (10, 256));
    assert_eq!(add(&narrow, &mut batch, 320), Ok(()));
    assert_eq!((batch.differing, batch.visible), (266, 512));
    assert_eq!(add(&wide, &mut batch, 54), Ok(()));
    // 320 of 832: they have 64 in common, and are not reduced.
    assert_eq!((batch.differing, batch.visible), (320, 832));
    assert_eq!(batch.worst, Some(Worst { place: 1, differing: 256 }));
}

/// Each drawing refusal between two lines: it is passed on and not counted, so the next line has the
/// place just after the one before.
#[test]
fn a_refused_line_is_not_counted() {
    for (code, length, line, register_1, number) in [
        (64, 320, 0, 0x44, BAD_STATE),
        (0, 319, 0, 0x44, BAD_BUFFER),
        (0, 321, 0, 0x44, BAD_BUFFER),
        (0, 320, 224, 0x44, NO_SUCH_PLACE),
        (0, 320, 0, 0x40, NOT_MODELLED),
    ] {
        let mut batch = batch_of(&[1, 2]);
        let mut bench = plain(0x81);
        bench.state().code = code;
        bench.state().registers[1] = register_1;
        let (before, capture) = (batch, vec![0; length]);
        let refused = batch.add(&bench.0.state, bench.0.vram.lent(), line, &capture);
        assert_eq!((refused, batch), (Err(number), before));
        assert_eq!(add(&plain(0x81), &mut batch, 9), Ok(()));
        assert_eq!(batch, batch_of(&[1, 2, 9]));
    }
}

/// A total that is to be added to, what the line adds to it, and a line that adds just that. The
/// limit itself is allowed, one more is not, and after a refusal the batch goes on.
#[test]
fn each_total_at_the_limit() {
    for (total, adds, differing) in [(0, 1, 4), (0, 1, 0), (1, 1, 0), (2, 4, 4), (3, 320, 4)] {
        let bench = plain(0x81);
        for (short_of, expected) in [(adds + 1, Ok(())), (adds, Ok(()))] {
            let mut batch = with_total(total, MOST - short_of);
            assert_eq!(add(&bench, &mut batch, differing), expected);
            assert_eq!(total_of(&batch, total), MOST - short_of + adds);
        }
        for short_of in [adds - 1, 0] {
            let mut batch = with_total(total, MOST - short_of);
            let before = batch;
            assert_eq!(add(&bench, &mut batch, differing), Err(PAST_THE_LIMIT));
            assert_eq!(batch, before);
            // It goes on, with another total or with less in this one.
            batch = with_total(total, 0);
            assert_eq!(add(&bench, &mut batch, differing), Ok(()));
        }
    }
}

/// Two lines are in the batch, and the worst is the second.
fn with_total(total: usize, value: u32) -> Batch {
    let mut totals = [2, 1, 3, 640];
    totals[total] = value;
    batch(totals, Some((1, 3)))
}

pub fn total_of(batch: &Batch, total: usize) -> u32 {
    [batch.lines, batch.equal, batch.differing, batch.visible][total]
}

/// "each total is asked by what this line adds to it": a line that differs adds no equal line, and
/// one that is equal adds no differing pixel. The same batch refuses the other line and goes on.
#[test]
fn a_total_at_the_limit_to_which_the_line_adds_nothing() {
    let bench = plain(0x81);
    let mut full = with_total(1, MOST);
    assert_eq!(add(&bench, &mut full, 0), Err(PAST_THE_LIMIT));
    assert_eq!(add(&bench, &mut full, 5), Ok(()));
    assert_eq!(full, batch([3, MOST, 8, 960], Some((2, 5))));
    let mut full = with_total(2, MOST);
    assert_eq!(add(&bench, &mut full, 1), Err(PAST_THE_LIMIT));
    assert_eq!(add(&bench, &mut full, 0), Ok(()));
    assert_eq!(full, batch([3, 2, MOST, 960], Some((1, 3))));
}

/// At 256 a line adds 64 visible pixels less, so it may fit where one of 320 does not.
#[test]
fn visible_pixels_at_the_limit_by_the_width() {
    let [wide, narrow] = WIDTHS.map(|(register_12, _)| plain(register_12));
    let mut full = with_total(3, MOST - 256);
    assert_eq!(add(&wide, &mut full, 0), Err(PAST_THE_LIMIT));
    assert_eq!(add(&narrow, &mut full, 0), Ok(()));
    assert_eq!(full.visible, MOST);
    assert_eq!(add(&narrow, &mut full, 0), Err(PAST_THE_LIMIT));
}

/// "15 ... after it": with every total full, a drawing refusal is still the one that is answered.
#[test]
fn a_drawing_refusal_comes_before_the_limit() {
    let full = batch([MOST; 4], Some((MOST, MOST)));
    for (code, length, line, register_1, number) in [
        (64, 320, 0, 0x44, BAD_STATE),
        (0, 319, 0, 0x44, BAD_BUFFER),
        (0, 320, 224, 0x44, NO_SUCH_PLACE),
        (0, 320, 0, 0x40, NOT_MODELLED),
        (0, 320, 0, 0x44, PAST_THE_LIMIT),
    ] {
        let mut bench = plain(0x81);
        bench.state().code = code;
        bench.state().registers[1] = register_1;
        let mut batch = full;
        let refused = batch.add(&bench.0.state, bench.0.vram.lent(), line, &vec![0; length]);
        assert_eq!((refused, batch), (Err(number), full));
    }
}

/// Any numbers: lines and no worst line, a worst line whose place is not below the lines, and more
/// differing pixels than a line has.
#[test]
fn a_batch_of_any_numbers() {
    let bench = plain(0x81);
    for (before, differing, worst) in [
        (batch([6, 0, 0, 0], None), 0, (6, 0)),
        (batch([6, 9, 0, 0], None), 2, (6, 2)),
        (batch([MOST - 1, 0, 0, 0], None), 2, (MOST - 1, 2)),
        (batch([6, 0, 0, 0], Some((MOST, 2))), 2, (MOST, 2)),
        (batch([6, 0, 0, 0], Some((MOST, 2))), 3, (6, 3)),
        (batch([0, 0, 0, 0], Some((50, 0))), 0, (50, 0)),
        (batch([0, 0, 0, 0], Some((50, 0))), 1, (0, 1)),
        (batch([6, 0, 0, 0], Some((6, MOST))), 320, (6, MOST)),
        (batch([6, 0, 0, 0], Some((7, 319))), 320, (6, 320)),
    ] {
        let mut batch = before;
        assert_eq!(add(&bench, &mut batch, differing), Ok(()));
        let expected = Worst { place: worst.0, differing: worst.1 };
        assert_eq!((batch.lines, batch.worst), (before.lines + 1, Some(expected)));
    }
}
