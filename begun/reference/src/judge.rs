//! Captured lines: a line as something else drew it, beside the line that is drawn here, and the
//! report on many of them (definition, Captured lines).

use crate::answer::{need, Answer, PAST_THE_LIMIT};
use crate::calls;
use crate::planes::width;
use crate::state::State;

/// No total and no place of a batch passes this.
pub const LIMIT: u64 = 4_294_967_295;

/// What a capture is found to be, unless judging it is refused.
#[derive(Clone, Copy, Debug, PartialEq, Eq)]
pub enum Verdict {
    Equal,
    /// It differs, first on this column.
    Differs(u32),
}

/// A capture beside its line: the visible columns that differ, from the left, and how many columns
/// are visible.
struct Compared {
    differing: Vec<u32>,
    visible: u32,
}

/// The visible pixels of a line. A copy of the state is drawn from, so that no flag of it changes,
/// into a buffer as long as the capture, so that it is refused as drawing is.
fn drawn(state: &State, vram: &[u8], line: u32, length: usize) -> Result<Vec<u8>, Answer> {
    let mut own = state.clone();
    let mut pixels = vec![0; length];
    calls::draw_line(&mut own, vram, &mut pixels, None, line)?;
    pixels.truncate(width(state));
    Ok(pixels)
}

/// The whole byte counts, its intensity too; what the capture has past the width does not.
fn compare(state: &State, vram: &[u8], line: u32, capture: &[u8]) -> Result<Compared, Answer> {
    let pixels = drawn(state, vram, line, capture.len())?;
    let columns = (0..).zip(pixels.iter().zip(capture));
    let differing = columns.filter(|(_, (own, captured))| own != captured);
    Ok(Compared {
        differing: differing.map(|(column, _)| column).collect(),
        visible: pixels.len() as u32,
    })
}

/// Judges one capture. Used up is asked as it stands, and stays.
pub fn judge(state: &State, vram: &[u8], line: u32, capture: &[u8]) -> Result<Verdict, Answer> {
    let compared = compare(state, vram, line, capture)?;
    Ok(match compared.differing.first() {
        None => Verdict::Equal,
        Some(column) => Verdict::Differs(*column),
    })
}

/// A line of a batch: its place among those judged, from 0, and its differing pixels.
#[derive(Clone, Copy, Debug, Default, PartialEq, Eq)]
pub struct Worst {
    pub place: u32,
    pub differing: u32,
}

/// The report on captures that were judged. It may hold any numbers; an empty one has 0 everywhere
/// and no worst line. The rate is its differing and its visible pixels, as they are.
#[derive(Clone, Copy, Debug, Default, PartialEq, Eq)]
pub struct Batch {
    pub lines: u32,
    pub equal: u32,
    pub differing: u32,
    pub visible: u32,
    pub worst: Option<Worst>,
}

impl Batch {
    /// Judges one capture and counts it. A refused line is not counted, and the batch stays.
    pub fn add(
        &mut self,
        state: &State,
        vram: &[u8],
        line: u32,
        capture: &[u8],
    ) -> Result<(), Answer> {
        let compared = compare(state, vram, line, capture)?;
        *self = self.with_line(&compared)?;
        Ok(())
    }

    /// The batch with one line more. Its place is the lines before it, so it passes the limit only
    /// where the lines do too.
    fn with_line(&self, line: &Compared) -> Result<Batch, Answer> {
        let differing = line.differing.len() as u32;
        let stays = self.worst.filter(|worst| worst.differing >= differing);
        Ok(Batch {
            lines: added(self.lines, 1)?,
            equal: added(self.equal, u32::from(differing == 0))?,
            differing: added(self.differing, differing)?,
            visible: added(self.visible, line.visible)?,
            worst: stays.or(Some(Worst { place: self.lines, differing })),
        })
    }

    /// The report on this batch's lines with the second's behind them. Refused, neither changes.
    pub fn join(&self, second: &Batch) -> Result<Batch, Answer> {
        Ok(Batch {
            lines: added(self.lines, second.lines)?,
            equal: added(self.equal, second.equal)?,
            differing: added(self.differing, second.differing)?,
            visible: added(self.visible, second.visible)?,
            worst: earliest_worst(self.worst, second.moved_worst(self.lines)?),
        })
    }

    /// The worst line, if there is one, with so many lines before this batch. Its place has to be in
    /// the limit also where another line is worse.
    fn moved_worst(&self, lines_before: u32) -> Result<Option<Worst>, Answer> {
        let moved = |worst: Worst| {
            let place = added(lines_before, worst.place)?;
            Ok(Worst { place, ..worst })
        };
        self.worst.map(moved).transpose()
    }
}

/// The worse of two lines, and the first if they are tied.
fn earliest_worst(first: Option<Worst>, second: Option<Worst>) -> Option<Worst> {
    match (first, second) {
        (Some(one), Some(other)) if other.differing > one.differing => second,
        (None, _) => second,
        _ => first,
    }
}

/// A number and what is added to it, unless that passes the limit, which itself does not.
fn added(number: u32, more: u32) -> Result<u32, Answer> {
    let sum = u64::from(number) + u64::from(more);
    need(sum <= LIMIT, PAST_THE_LIMIT)?;
    Ok(sum as u32)
}
