//! Counts of DMA that is cut: a run leaves units, and a later one ends it, with nothing but runs
//! between the two (definition, What a run equals).

use super::runs::kind_name;
use super::{Before, Tally};
use crate::answer::{Answer, DONE};
use crate::replay::Machine;
use crate::state::{COPY, FILL, TRANSFER};

pub fn rules() -> Vec<String> {
    [TRANSFER, FILL, COPY].map(cut_and_ended).to_vec()
}

fn cut_and_ended(kind: u8) -> String {
    format!("{} cut into runs to its end", kind_name(kind))
}

/// The runs of one stream, followed from call to call.
#[derive(Default)]
pub struct Cuts {
    /// The runs just before made units and left some.
    left: bool,
}

impl Cuts {
    /// A set-up between two runs may change the chip or what is lent.
    pub fn set_up(&mut self) {
        self.left = false;
    }

    pub fn count(&mut self, tally: &mut Tally, before: &Before, after: &Machine, number: Answer) {
        let (then, now) = (&before.machine.state, &after.state);
        if before.command.op != 7 || number != DONE {
            self.left = false;
        } else if then != now {
            // A run that makes no unit changes nothing, so this one made some.
            tally.meet_if(self.left && !now.running(), &cut_and_ended(then.kind));
            self.left = now.running();
        }
    }
}

#[cfg(test)]
mod tests {
    use super::*;
    use crate::cover::tests::met_of;

    /// Which of this file's rules these calls meet, op and c, with three units remaining.
    fn met(kind: u8, calls: &[(u8, u32)]) -> Vec<String> {
        let begun = [(32, 6, u32::from(kind)), (32, 7, 3)];
        let calls: Vec<_> = calls.iter().map(|(op, c)| (*op, 0, *c)).collect();
        met_of(rules(), &[begun.as_slice(), &calls].concat())
    }

    #[test]
    fn two_runs_of_units_to_the_end() {
        for (kind, rule) in [
            (TRANSFER, "transfer cut into runs to its end"),
            (FILL, "fill cut into runs to its end"),
            (COPY, "copy cut into runs to its end"),
        ] {
            assert_eq!(met(kind, &[(7, 1), (7, 2)]), [rule]);
            assert_eq!(met(kind, &[(7, 2), (7, 0), (7, 9)]), [rule]);
        }
    }

    /// One run of units is no cut, two may leave a unit, and another call, a refused one too, or a
    /// set-up may lie between.
    #[test]
    fn no_cut_or_no_end() {
        for calls in [
            [(7, 3), (7, 3), (7, 0)],
            [(7, 0), (7, 3), (7, 0)],
            [(7, 1), (7, 1), (7, 0)],
            [(7, 1), (9, 0), (7, 2)],
            [(7, 1), (3, 0), (7, 2)],
            [(7, 1), (37, 0), (7, 2)],
            [(7, 1), (17, 0), (7, 2)],
            [(7, 1), (18, 0), (7, 2)],
        ] {
            assert!(met(COPY, &calls).is_empty(), "{calls:?}");
        }
    }
}
