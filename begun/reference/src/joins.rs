//! Tests of batches that are joined, worked out by hand and on lists by chance: sums, the worst line
//! of the two, totals and places at the limit, and joins of three (definition, Joining batches).

use crate::answer::PAST_THE_LIMIT;
use crate::batches::{batch, batch_of, total_of, EMPTY, MOST};
use crate::captures::{plain, WIDTHS};
use crate::judge::Batch;
use crate::streams::{Kind, Maker};

#[test]
fn joined_batches_have_the_sums_and_the_worst_line() {
    let first = batch([3, 1, 20, 900], Some((2, 11)));
    for (worst, expected) in [
        (None, (2, 11)),
        (Some((4, 12)), (7, 12)),
        (Some((4, 11)), (2, 11)),
        (Some((4, 10)), (2, 11)),
        (Some((0, 12)), (3, 12)),
    ] {
        let second = batch([5, 2, 30, 1_280], worst);
        let joined = batch([8, 3, 50, 2_180], Some(expected));
        assert_eq!(first.join(&second), Ok(joined), "{worst:?}");
    }
    let second = batch([5, 2, 30, 1_280], Some((4, 0)));
    let none = batch([3, 1, 20, 900], None);
    assert_eq!(none.join(&second), Ok(batch([8, 3, 50, 2_180], Some((7, 0)))));
    assert_eq!(none.join(&none), Ok(batch([6, 2, 40, 1_800], None)));
}

/// On either side an empty batch changes nothing, whatever the other holds.
#[test]
fn joined_with_an_empty_batch() {
    for other in [
        EMPTY,
        batch_of(&[0, 3, 1]),
        batch([MOST; 4], Some((MOST, MOST))),
        batch([MOST; 4], None),
        batch([0, 5, 6, 7], Some((9, 0))),
    ] {
        assert_eq!((EMPTY.join(&other), other.join(&EMPTY)), (Ok(other), Ok(other)));
    }
}

/// Each total by itself: the limit is allowed, and one more is not. Both stay as they came.
#[test]
fn each_joined_total_at_the_limit() {
    for total in 0..4 {
        for (one, other) in [(MOST, 0), (0, MOST), (MOST - 7, 7), (1 << 31, (1 << 31) - 1)] {
            let [first, second] = [one, other].map(|value| {
                let mut totals = [0; 4];
                totals[total] = value;
                batch(totals, None)
            });
            let joined = first.join(&second).expect("the limit itself");
            assert_eq!(total_of(&joined, total), MOST);
            let mut more = [0; 4];
            more[total] = 1;
            let more = batch(more, None);
            assert_eq!(joined.join(&more), Err(PAST_THE_LIMIT));
            assert_eq!(more.join(&joined), Err(PAST_THE_LIMIT));
        }
    }
}

/// The second's place, moved by the first's lines: 4 and MOST - 4 make the limit.
#[test]
fn the_second_s_place_at_the_limit() {
    let first = |worst| batch([4, 0, 0, 0], worst);
    let second = |worst| batch([0, 0, 0, 0], worst);
    for (one, differing, place) in
        [(None, 0, MOST), (Some((2, 8)), 9, MOST), (Some((2, 8)), 8, 2), (Some((2, 8)), 7, 2)]
    {
        let joined = first(one).join(&second(Some((MOST - 4, differing))));
        assert_eq!(joined.map(|batch| batch.worst.map(|worst| worst.place)), Ok(Some(place)));
        // Asked also where the second's line is not the worse.
        let past = first(one).join(&second(Some((MOST - 3, differing))));
        assert_eq!(past, Err(PAST_THE_LIMIT));
    }
    // The first's place is not moved, and a worst line that there is not has none.
    let joined = first(Some((MOST, 1))).join(&second(Some((0, 1))));
    assert_eq!(joined, Ok(batch([4, 0, 0, 0], Some((MOST, 1)))));
    assert_eq!(first(None).join(&second(None)), Ok(first(None)));
    let lines = batch([MOST, 0, 0, 0], None);
    assert_eq!(lines.join(&second(None)), Ok(lines));
    assert_eq!(lines.join(&second(Some((0, 0)))), Ok(batch([MOST, 0, 0, 0], Some((MOST, 0)))));
    assert_eq!(lines.join(&second(Some((1, 0)))), Err(PAST_THE_LIMIT));
}

/// A capture by chance: its width, its line number, which may be too great, and a buffer that
/// differs on a few columns or has a wrong length.
type Capture = (u8, u32, Vec<u8>);

fn some_captures(maker: &mut Maker) -> Vec<Capture> {
    let count = maker.below(7);
    let capture = |_| {
        let mut bytes = vec![0x25; maker.pick(&[320, 320, 320, 320, 320, 319])];
        for _ in 0..maker.pick(&[0, 0, 1, 2, 2, 3]) {
            let column = maker.pick(&[0, 7, 90, 255, 256, 300]);
            bytes[column] ^= maker.pick(&[1, 0x40, 0x80]);
        }
        let (register_12, _) = maker.pick(&WIDTHS);
        (register_12, maker.pick(&[0, 9, 223, 9, 223, 224]), bytes)
    };
    (0..count).map(capture).collect()
}

/// What adding the captures leaves, to an empty batch and one after the other, and how many were
/// refused.
fn report(captures: &[Capture]) -> (Batch, usize) {
    let mut batch = EMPTY;
    let mut refused = 0;
    for (register_12, line, bytes) in captures {
        let bench = plain(*register_12);
        let added = batch.add(&bench.0.state, bench.0.vram.lent(), *line, bytes);
        refused += usize::from(added.is_err());
    }
    (batch, refused)
}

/// `JoinedAsOne`: two batches joined are the batch of the two lists put together.
#[test]
fn joined_batches_are_the_batch_of_both_lists() {
    let mut maker = Maker::new(1, Kind::Judge, 0);
    let (mut refused, mut second_worse, mut tied) = (0, 0, 0);
    for _ in 0..150 {
        let [one, other] = [some_captures(&mut maker), some_captures(&mut maker)];
        let ((first, _), (second, _)) = (report(&one), report(&other));
        let (together, not_counted) = report(&[one, other].concat());
        assert_eq!(first.join(&second), Ok(together));
        refused += not_counted;
        if let (Some(one), Some(other)) = (first.worst, second.worst) {
            second_worse += usize::from(other.differing > one.differing);
            tied += usize::from(other.differing == one.differing);
        }
    }
    assert!(refused > 50 && second_worse > 10 && tied > 10);
}

/// Numbers near the limit and small ones; `led_to` asks for a place below the lines.
fn some_batch(maker: &mut Maker, led_to: bool) -> Batch {
    let mut number = |most: u32| {
        let any = maker.number();
        let half = 1 << 31;
        maker.pick(&[0, 1, 2, most - 2, most - 1, most, half - 1, half, any, any / 3, any / 4])
    };
    let totals = [number(MOST), number(MOST), number(MOST), number(MOST)];
    let (place, differing) = (number(MOST), number(2));
    let totals = totals.map(|total| if total % 2 == 0 { total / 3 } else { total });
    let place = if led_to { place.checked_rem(totals[0]) } else { Some(place) };
    let worst = place.filter(|_| !maker.once_in(4)).map(|place| (place, differing % 3));
    batch(totals, worst)
}

/// `JoiningAssociates`, from the left to the right for any batches.
#[test]
fn joining_associates() {
    let mut maker = Maker::new(2, Kind::Judge, 0);
    let (mut joined, mut refused) = (0, 0);
    for _ in 0..60_000 {
        let [a, b, c] = [0; 3].map(|_| some_batch(&mut maker, false));
        match a.join(&b).and_then(|ab| ab.join(&c)) {
            Ok(left) => {
                assert_eq!(b.join(&c).and_then(|bc| a.join(&bc)), Ok(left));
                joined += 1;
            }
            Err(number) => {
                assert_eq!(number, PAST_THE_LIMIT);
                refused += 1;
            }
        }
    }
    assert!(joined > 1_000 && refused > 1_000, "{joined} {refused}");
}

/// The other way round, where the places of the second and the third are below their lines.
#[test]
fn joining_associates_the_other_way() {
    let mut maker = Maker::new(3, Kind::Judge, 0);
    let mut joined = 0;
    for _ in 0..60_000 {
        let a = some_batch(&mut maker, false);
        let [b, c] = [0; 2].map(|_| some_batch(&mut maker, true));
        if let Ok(right) = b.join(&c).and_then(|bc| a.join(&bc)) {
            assert_eq!(a.join(&b).and_then(|ab| ab.join(&c)), Ok(right));
            joined += 1;
        }
    }
    assert!(joined > 1_000, "{joined}");
    // Not so for any places: the second's is asked only if it is the second of a join by itself.
    let [a, b, c] = [
        batch([5, 0, 0, 0], None),
        batch([0, 0, 0, 0], Some((MOST, 1))),
        batch([0, 0, 0, 0], Some((0, 2))),
    ];
    let right = b.join(&c).and_then(|bc| a.join(&bc));
    assert_eq!(right, Ok(batch([5, 0, 0, 0], Some((5, 2)))));
    assert_eq!(a.join(&b), Err(PAST_THE_LIMIT));
}
