//! Script files for the program `script`: some by chance, each with all its beginnings and with
//! each of its bytes changed, some at the edges of what the program takes, and some with words for
//! missing registers.

use super::program::{self, MOST_BYTES};
use super::{script_of, Item, VERSION};
use crate::streams::script::items::{all, any_item, done, look, phrase, sprites, written_and_read};
use crate::streams::script::missing::{missing, put_among};
use crate::streams::script::stopped;
use crate::streams::{Kind, Maker};

/// A script by chance has about as many items, more or less.
const LEAST_ITEMS: usize = 5;
const MOST_ITEMS: usize = 22;

/// A file's name and its bytes.
pub type File = (String, Vec<u8>);

/// So many scripts by chance with all that is made of them, the edges and the missing registers; the
/// same for a seed. Every fourth of those by chance has a word for a missing register.
pub fn files(seed: u64, count: usize) -> Vec<File> {
    let mut maker = Maker::new(seed, Kind::Script, usize::MAX);
    maker.machine = program::start();
    let mut files = edges(&mut maker);
    files.extend(missing_registers(&mut maker));
    for number in 1..=count {
        let mut items = some_items(&mut maker);
        if number % 4 == 0 {
            put_among(&mut maker, &mut items);
        }
        files.extend(around(&mut maker, &format!("random-{number:04}"), &script_of(&items)));
    }
    files
}

/// Calls from the program's start on: all of them done, or with a refused one among them.
fn some_items(maker: &mut Maker) -> Vec<Item> {
    if maker.once_in(3) {
        let mut items = stopped::by_calls(maker, written_and_read);
        items.extend((0..3).map(|_| any_item(maker)));
        return items;
    }
    let first = maker.pick(&[written_and_read, phrase, phrase, sprites]);
    let calls = maker.rehearse(|maker| {
        first(maker);
        while maker.kept() < LEAST_ITEMS {
            phrase(maker);
        }
        maker.calm();
        look(maker);
    });
    let mut items = if maker.once_in(4) { all(calls) } else { done(calls) };
    items.truncate(MOST_ITEMS);
    items
}

/// A script, its proper beginnings, and copies with one byte changed.
fn around(maker: &mut Maker, name: &str, script: &[u8]) -> Vec<File> {
    let mut files = vec![(format!("{name}-whole.script"), script.to_vec())];
    for (at, byte) in script.iter().enumerate() {
        files.push((format!("{name}-first-{at:04}-bytes.script"), script[..at].to_vec()));
        let mut changed = script.to_vec();
        changed[at] = byte.wrapping_add(1 + maker.below(255) as u8);
        files.push((format!("{name}-byte-{at:04}-changed.script"), changed));
    }
    files
}

/// Versions with few items or none, and lengths about the most that the program takes.
fn edges(maker: &mut Maker) -> Vec<File> {
    let with_version = |version: u8| {
        let mut script = script_of(&[Item::ControlWrite(0x8F02), Item::StatusRead]);
        script[0] = version;
        script
    };
    let (most, more) = (of_size(maker, MOST_BYTES), of_size(maker, MOST_BYTES + 1));
    let edges = [
        ("empty", Vec::new()),
        ("version-alone", vec![VERSION]),
        ("version-0-alone", vec![0]),
        ("version-0", with_version(0)),
        ("version-2", with_version(2)),
        ("version-255", with_version(255)),
        ("well-formed-16384", most.clone()),
        ("well-formed-16385", more.clone()),
        ("last-item-cut-16384", more[..MOST_BYTES].to_vec()),
        ("last-kind-wrong-16384", with_last_kind_wrong(most)),
        ("last-kind-wrong-16385", with_last_kind_wrong(more)),
        ("well-formed-20000", of_size(maker, 20_000)),
        ("zeros-16384", vec![0; MOST_BYTES]),
        ("zeros-16385", vec![0; MOST_BYTES + 1]),
    ];
    numbered("edge", &edges)
}

/// Files of one sort, in this order.
fn numbered(sort: &str, scripts: &[(&str, Vec<u8>)]) -> Vec<File> {
    let file = |(number, (name, bytes)): (i32, &(&str, Vec<u8>))| {
        (format!("{sort}-{number:02}-{name}.script"), bytes.clone())
    };
    (1..).zip(scripts).map(file).collect()
}

/// Words for missing registers: some are turned down, and some are second halves.
fn missing_registers(maker: &mut Maker) -> Vec<File> {
    let (word, another) = (missing(maker), missing(maker));
    let [half, second, lines] = [maker.first_half(), maker.word(), 0x8144].map(Item::ControlWrite);
    let after = |item: Item| script_of(&[lines, half, item, word, Item::StatusRead]);
    let words = [
        ("alone", script_of(&[word])),
        ("two", script_of(&[lines, word, another])),
        ("after-a-first-half", script_of(&[lines, half, word, Item::StatusRead])),
        ("after-a-second-half", after(second)),
        ("after-a-second-half-like-it", after(another)),
        ("after-a-data-write", after(Item::DataWrite(0x1234))),
        ("after-a-data-read", after(Item::DataRead)),
        ("after-a-status-read", after(Item::StatusRead)),
        ("after-a-run", after(Item::Run(1))),
        ("after-a-line", after(Item::Line(0))),
        ("after-a-new-frame", after(Item::NewFrame)),
        ("after-a-call-that-is-refused", script_of(&[lines, Item::Line(240), word])),
        ("before-a-call-that-is-refused", script_of(&[lines, word, Item::Line(240)])),
    ];
    [numbered("missing", &words), beside_more(maker, word), each_register(maker)].concat()
}

/// The last register that there is and each missing one, with bit 13 clear and set, at place 0.
fn each_register(maker: &mut Maker) -> Vec<File> {
    let mut files = Vec::new();
    for number in 23..32 {
        for (bit_13, flag) in [(0, "clear"), (0x2000, "set")] {
            let word = 0x8000 | bit_13 | number << 8 | u16::from(maker.byte());
            let script = script_of(&[Item::ControlWrite(word), Item::StatusRead]);
            files.push((format!("register-{number}-bit-13-{flag}.script"), script));
        }
    }
    files
}

/// A word for a missing register in scripts that are faulty, and in ones of the most bytes.
fn beside_more(maker: &mut Maker, word: Item) -> Vec<File> {
    let (alone, no_kind) = (script_of(&[word]), [0, 1, 8]);
    let last_of = |size: usize, maker: &mut Maker| {
        [of_size(maker, size - word.bytes().len()), word.bytes()].concat()
    };
    let scripts = [
        ("faulty-item-before", [&[VERSION], &no_kind[..], &word.bytes()].concat()),
        ("faulty-item-behind", [&alone[..], &no_kind].concat()),
        ("cut", alone[..alone.len() - 1].to_vec()),
        ("cut-item-behind", [&alone[..], &no_kind[..1]].concat()),
        ("version-2", [&[2], &alone[1..]].concat()),
        ("last-of-16384", last_of(MOST_BYTES, maker)),
        ("last-of-16385", last_of(MOST_BYTES + 1, maker)),
    ];
    numbered("missing-with-more", &scripts)
}

/// A well formed script of so many bytes, at least 36, whose calls are all done. It ends with items
/// of three bytes: one or two of five make up what those leave.
fn of_size(maker: &mut Maker, size: usize) -> Vec<u8> {
    let to_vram = [0x8F02, 0x4000, 0x0000].map(Item::ControlWrite);
    let mut script = script_of(&to_vram);
    while script.len() < size {
        let (left, word) = (size - script.len(), maker.word());
        let five = if left > 20 { maker.once_in(2) } else { left % 3 != 0 };
        let item = if five {
            maker.pick(&[Item::DataWrite(word), Item::Run(word)])
        } else {
            maker.pick(&[Item::DataRead, Item::StatusRead, Item::NewFrame])
        };
        script.extend(item.bytes());
    }
    script
}

/// The last byte is the kind of an item without a content.
fn with_last_kind_wrong(mut script: Vec<u8>) -> Vec<u8> {
    if let Some(kind) = script.last_mut() {
        *kind = 8;
    }
    script
}

#[cfg(test)]
mod tests {
    use std::collections::BTreeSet;

    use super::*;
    use crate::answer::{DONE, MISSING_REGISTER};
    use crate::script::form;
    use crate::script::judge::first_missing;
    use crate::script::program::told;
    use crate::script::tests::judged_clear as judged;

    fn find<'a>(files: &'a [File], name: &str) -> &'a [u8] {
        let file = files.iter().find(|(file, _)| file == name);
        file.map(|(_, bytes)| &bytes[..]).unwrap_or_else(|| panic!("no {name}"))
    }

    #[test]
    fn the_same_for_a_seed() {
        assert_eq!(files(5, 3), files(5, 3));
        assert_ne!(files(5, 3), files(6, 3));
        let mut names: Vec<_> = files(5, 3).into_iter().map(|(name, _)| name).collect();
        names.sort();
        names.dedup();
        assert_eq!(names.len(), files(5, 3).len());
    }

    /// Each script has all its proper beginnings, and a copy for each byte with that byte changed.
    #[test]
    fn all_that_is_made_of_a_script() {
        let files = files(1, 4);
        for number in 1..=4 {
            let whole = find(&files, &format!("random-{number:04}-whole.script"));
            for at in 0..whole.len() {
                let cut = find(&files, &format!("random-{number:04}-first-{at:04}-bytes.script"));
                assert_eq!(cut, &whole[..at]);
                let name = format!("random-{number:04}-byte-{at:04}-changed.script");
                let changed = find(&files, &name);
                assert_eq!((changed.len(), changed[at] != whole[at]), (whole.len(), true));
                assert_eq!(changed[..at], whole[..at]);
                assert_eq!(changed[at + 1..], whole[at + 1..]);
            }
            let made_of_it = |(name, _): &&File| name.starts_with(&format!("random-{number:04}-"));
            assert_eq!(files.iter().filter(made_of_it).count(), 1 + 2 * whole.len());
        }
    }

    /// Some end done, some with a refused call that is neither the first nor the last item, and some
    /// are turned down, at this place and that.
    #[test]
    fn scripts_by_chance_are_well_formed() {
        let (mut done, mut refused, mut places) = (0, 0, BTreeSet::new());
        for (name, bytes) in files(2, 60).iter().filter(|(name, _)| name.ends_with("-whole.script"))
        {
            let items = form::items(bytes).unwrap_or_default().len();
            assert!((3..=33).contains(&items), "{name}: {items} items");
            let (number, place) = judged(bytes);
            let told = told(bytes);
            let called = number == DONE;
            assert!(called || number == MISSING_REGISTER, "{name}: {number}");
            done += u32::from(told.done);
            refused += u32::from(called && !told.done && (2..items).contains(&told.lines.len()));
            places.extend((!called).then_some(place));
        }
        assert!(done > 15 && refused > 10, "{done} and {refused}");
        assert!(places.len() > 5, "{places:?}");
    }

    /// What is made of a script with such a word is often faulty as well.
    #[test]
    fn scripts_by_chance_that_are_faulty_and_name_missing_registers() {
        let both_due = |script: &[u8]| {
            let whole = (0..script.len()).rev().find_map(|end| form::items(&script[..end]).ok());
            form::items(script).is_err()
                && whole.is_some_and(|items| first_missing(&items, false).is_some())
        };
        let files = files(4, 8);
        let random = files.iter().filter(|(name, _)| name.starts_with("random-"));
        let (faulty, named) = random.fold((0, 0), |(faulty, named), (_, script)| {
            let (number, _) = judged(script);
            (faulty + u32::from(both_due(script)), named + u32::from(number == MISSING_REGISTER))
        });
        assert!(faulty > 20 && named > 20, "{faulty} and {named}");
    }

    /// The one line of each script that is refused before its calls. What a word stands after has a
    /// register write and a first half before it.
    const ONE_LINE: [(&str, &str); 15] = [
        ("missing-01-alone", "0 12 0000"),
        ("missing-02-two", "1 12 0000"),
        ("missing-04-after-a-second-half", "3 12 0000"),
        ("missing-05-after-a-second-half-like-it", "3 12 0000"),
        ("missing-06-after-a-data-write", "3 12 0000"),
        ("missing-07-after-a-data-read", "3 12 0000"),
        ("missing-08-after-a-status-read", "3 12 0000"),
        ("missing-12-after-a-call-that-is-refused", "2 12 0000"),
        ("missing-13-before-a-call-that-is-refused", "1 12 0000"),
        ("missing-with-more-01-faulty-item-before", "0 11 0000"),
        ("missing-with-more-02-faulty-item-behind", "1 11 0000"),
        ("missing-with-more-03-cut", "0 11 0000"),
        ("missing-with-more-04-cut-item-behind", "1 11 0000"),
        ("missing-with-more-05-version-2", "0 11 0000"),
        ("missing-with-more-07-last-of-16385", "0 2 0000"),
    ];

    /// The calls of each script whose word is a second half.
    const SECOND_HALVES: [(&str, usize); 4] = [
        ("missing-03-after-a-first-half", 4),
        ("missing-09-after-a-run", 5),
        ("missing-10-after-a-line", 5),
        ("missing-11-after-a-new-frame", 5),
    ];

    #[test]
    fn missing_registers_for_the_program() {
        for seed in 1..=20 {
            let files = files(seed, 0);
            let told = |name: &str| told(find(&files, &format!("{name}.script")));
            for (name, line) in ONE_LINE {
                assert_eq!(told(name).lines, [line], "{name}");
            }
            for (name, calls) in SECOND_HALVES {
                assert_eq!((told(name).lines.len(), told(name).done), (calls, true), "{name}");
            }
            for number in 23..32 {
                let line = if number == 23 { "1 0 3600" } else { "0 12 0000" };
                for flag in ["clear", "set"] {
                    let lines = told(&format!("register-{number}-bit-13-{flag}")).lines;
                    assert_eq!(lines.last().map(String::as_str), Some(line));
                }
            }
            let last = find(&files, "missing-with-more-06-last-of-16384.script");
            let items = form::items(last).unwrap_or_default().len();
            assert_eq!((last.len(), judged(last)), (16_384, (12, items as u32 - 1)));
        }
    }

    /// The bytes, the first line and how many lines there are, for each of the edges.
    #[test]
    fn edges_of_the_program() {
        let files = files(3, 0);
        assert_eq!(files.iter().filter(|(name, _)| name.starts_with("edge-")).count(), 14);
        let last_place = |name: &str| judged(find(&files, name)).1.to_string() + " 11 0000";
        let (cut, wrong) = ("edge-09-last-item-cut-16384", "edge-10-last-kind-wrong-16384");
        let (cut, wrong) = (format!("{cut}.script"), format!("{wrong}.script"));
        for (name, bytes, line) in [
            ("edge-01-empty.script", 0, "0 11 0000"),
            ("edge-03-version-0-alone.script", 1, "0 11 0000"),
            ("edge-04-version-0.script", 9, "0 11 0000"),
            ("edge-05-version-2.script", 9, "0 11 0000"),
            ("edge-06-version-255.script", 9, "0 11 0000"),
            ("edge-08-well-formed-16385.script", 16_385, "0 2 0000"),
            (&cut, 16_384, &last_place(&cut)),
            (&wrong, 16_384, &last_place(&wrong)),
            ("edge-11-last-kind-wrong-16385.script", 16_385, "0 2 0000"),
            ("edge-12-well-formed-20000.script", 20_000, "0 2 0000"),
            ("edge-13-zeros-16384.script", 16_384, "0 11 0000"),
            ("edge-14-zeros-16385.script", 16_385, "0 2 0000"),
        ] {
            let file = find(&files, name);
            assert_eq!((file.len(), &told(file).lines[..]), (bytes, &[line.to_string()][..]));
        }
        assert!(told(find(&files, "edge-02-version-alone.script")).lines.is_empty());
        let most = find(&files, "edge-07-well-formed-16384.script");
        assert_eq!((most.len(), told(most).done), (16_384, true));
        for name in ["edge-08-well-formed-16385.script", "edge-12-well-formed-20000.script"] {
            assert_eq!(judged(find(&files, name)).0, DONE);
        }
        assert!(judged(find(&files, &cut)).1 > 3_000 && judged(find(&files, &wrong)).1 > 3_000);
    }
}
