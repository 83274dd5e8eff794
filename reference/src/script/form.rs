//! Whether a script is well formed, and where it is not (definition, The form).

use super::{read_item, Item, ITEMS_FROM, VERSION};

/// The items of a well formed script; else the place of the first faulty one, or 0 if the version
/// is wrong or missing. What follows a faulty item is not looked at.
pub fn items(script: &[u8]) -> Result<Vec<Item>, u32> {
    if script.first() != Some(&VERSION) {
        return Err(0);
    }
    let mut items = Vec::new();
    let mut at = ITEMS_FROM;
    while at < script.len() {
        let (item, next) = read_item(script, at).ok_or(items.len() as u32)?;
        items.push(item);
        at = next;
    }
    Ok(items)
}

#[cfg(test)]
mod tests {
    use super::*;
    use crate::answer::DONE;
    use crate::script::tests::judged_clear as judged;
    use crate::script::{script_of, write_item};
    use crate::streams::script::items::any_item;
    use crate::streams::{Kind, Maker};

    /// Each kind with its one length.
    const LENGTHS: [(u8, u16); 7] = [(1, 3), (2, 3), (3, 1), (4, 1), (5, 3), (6, 3), (7, 1)];

    #[test]
    fn versions() {
        for (script, report) in [
            (&[][..], (11, 0)),
            (&[0], (11, 0)),
            (&[1], (0, 0)),
            (&[2], (11, 0)),
            (&[255], (11, 0)),
            (&[1, 0, 1, 4], (0, 1)),
            (&[0, 0, 1, 4], (11, 0)),
            (&[2, 0, 1, 4], (11, 0)),
            (&[0, 1, 4], (11, 0)),
        ] {
            assert_eq!(judged(script), report, "{script:?}");
        }
    }

    /// The item alone, after two others, and before another.
    fn assert_judged(item: &[u8], good: bool) {
        let others = [0, 1, 4, 0, 3, 1, 0x8F, 0x02];
        let after = [&[1], &others[..], item].concat();
        let expected = if good { [(0, 1), (0, 3)] } else { [(11, 0), (11, 2)] };
        assert_eq!(judged(&[&[1], item].concat()), expected[0], "{item:?}");
        assert_eq!(judged(&after), expected[1], "{item:?}");
    }

    /// With as many bytes as its length says, an item of every kind and length.
    #[test]
    fn every_kind_with_every_length() {
        for kind in 0..=255 {
            for length in (0..=8).chain([0x0100, 0x0101, 0x0103, 0x0300, 0x8001, 0xFFFF]) {
                let [upper, lower] = u16::to_be_bytes(length);
                let content = vec![0; usize::from(length.saturating_sub(1))];
                let item = [&[upper, lower, kind], &content[..]].concat();
                assert_judged(&item, LENGTHS.contains(&(kind, length)));
            }
        }
    }

    /// Of all scripts of up to six bytes below 9: a version, one and an item of three bytes, of which
    /// there are three kinds, one and an item of five, with 4 kinds and 9 x 9 contents.
    #[test]
    fn how_many_short_scripts_are_well_formed() {
        for (bytes, expected) in [(0, 0), (1, 1), (2, 0), (3, 0), (4, 3), (5, 0), (6, 324)] {
            let digits =
                |number: u32| (0..bytes).map(move |place| (number / 9u32.pow(place) % 9) as u8);
            let well = |number: &u32| judged(&digits(*number).collect::<Vec<_>>()).0 == DONE;
            assert_eq!((0..9u32.pow(bytes)).filter(well).count(), expected);
        }
    }

    /// Every proper beginning of an item is cut, unless it is empty. A byte more begins another.
    #[test]
    fn cut_items() {
        for (kind, length) in LENGTHS {
            let whole = [&[0, length as u8, kind], &vec![9; usize::from(length) - 1][..]].concat();
            assert_judged(&whole, true);
            for bytes in 1..whole.len() {
                assert_judged(&whole[..bytes], false);
            }
            assert_eq!(judged(&[&[1], &whole[..], &[0]].concat()), (11, 1));
        }
    }

    /// What follows a faulty item is not looked at, and a script has no limit here. Item 5,462
    /// begins at byte 16,387.
    #[test]
    fn the_first_faulty_item_counts() {
        assert_eq!(judged(&[1, 0, 1, 4, 0, 1, 8, 0, 1, 9]), (11, 1));
        assert_eq!(judged(&[1, 0, 1, 4, 0, 1, 8, 0, 1, 4]), (11, 1));
        let mut long = [&[1][..], &[0, 1, 4].repeat(6_000)].concat();
        assert_eq!(judged(&long), (0, 6_000));
        long[16_387 + 2] = 0;
        assert_eq!(judged(&long), (11, 5_462));
    }

    /// `ReadsBack`: what is written is well formed, and its items are read again.
    #[test]
    fn written_scripts_are_read_back() {
        let mut maker = Maker::new(1, Kind::Script, usize::MAX);
        for _ in 0..300 {
            let many = maker.below(40);
            let written: Vec<Item> = (0..many).map(|_| any_item(&mut maker)).collect();
            let mut script = vec![0xAA; script_of(&written).len()];
            script[0] = VERSION;
            let mut at = 1;
            for item in &written {
                at = write_item(&mut script, at as usize, *item).unwrap_or(0);
            }
            assert_eq!((at as usize, &script), (script.len(), &script_of(&written)));
            assert_eq!(items(&script), Ok(written));
        }
    }

    /// `WritesBack`: bytes made by the table alone are what writing their items gives.
    #[test]
    fn read_scripts_are_written_back() {
        let mut maker = Maker::new(2, Kind::Script, usize::MAX);
        for _ in 0..300 {
            let mut script = vec![1];
            let many = maker.below(40);
            for _ in 0..many {
                let (kind, length) = maker.pick(&LENGTHS);
                script.extend([0, length as u8, kind]);
                script.extend((1..length).map(|_| maker.byte()));
            }
            assert_eq!(items(&script).map(|items| items.len()), Ok(many as usize));
            assert_eq!(items(&script).map(|items| script_of(&items)), Ok(script));
        }
    }
}
