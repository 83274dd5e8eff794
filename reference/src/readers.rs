//! Tests of the reader (definition, The reader): scripts in every cut beside one delivery and beside
//! running, bytes that no script has, words for missing registers, and stopped readers.

use crate::answer::{Answer, Reply, BAD_SCRIPT, DONE, MISSING_REGISTER};
use crate::replay::{Machine, VRAM};
use crate::script::form;
use crate::script::judge::judged;
use crate::script::reader::{Delivery, Reader};
use crate::script::run;
use crate::script::tests::{with_words, FIRST, MISSING};
use crate::script::{script_of, Item};
use crate::state::State;
use crate::streams::script::items::{all, any_item, phrase};
use crate::streams::script::stopped;
use crate::streams::{Kind, Maker};

/// A call with its reply, and the state that it left.
type Logged = (Item, Reply, State);

/// Brings bytes by `deliver`, which makes one call at most, and goes on with the rest.
fn bring(machine: &mut Machine, bytes: &[u8], log: &mut Vec<Logged>) -> Answer {
    let mut reader = machine.reader.clone();
    let mut rest = bytes;
    loop {
        let (made, taken) = reader.deliver(&mut machine.lent().0, rest);
        log.extend(made.map(|(item, reply)| (item, reply, machine.state.clone())));
        rest = &rest[taken..];
        if rest.is_empty() || taken == 0 {
            machine.reader = reader;
            return machine.reader.number();
        }
    }
}

/// What deliveries of these parts leave, and then the end notice or not: the last answer, the calls
/// and the machine.
fn brought(machine: &Machine, parts: &[&[u8]], end: bool) -> (Answer, Vec<Logged>, Machine) {
    let (mut machine, mut log) = (machine.clone(), Vec::new());
    let mut number = DONE;
    for part in parts {
        number = bring(&mut machine, part, &mut log);
    }
    if end {
        number = machine.reader.end();
    }
    (number, log, machine)
}

fn assert_same(one: &(Answer, Vec<Logged>, Machine), other: &(Answer, Vec<Logged>, Machine)) {
    assert_eq!((one.0, &one.1), (other.0, &other.1));
    assert_eq!((&one.2.reader, &one.2.state), (&other.2.reader, &other.2.state));
    assert!(one.2.vram.bytes == other.2.vram.bytes && one.2.pixels.bytes == other.2.pixels.bytes);
}

/// Scripts that are done, refused, faulty, turned down and cut: a transfer of two words and a line;
/// a line that is not modelled; a wrong kind behind two items; register 24 behind a second half.
fn scripts() -> Vec<Vec<u8>> {
    let transfer = [0x8110, 0x8F02, 0x9302, 0x4000, 0x0080];
    let runs = [Item::Run(1), Item::Run(9), Item::ControlWrite(0x8144), Item::Line(7)];
    let done = script_of(&with_words(&transfer, &runs));
    let stored = with_words(&[0x8F02, 0x4000, 0x0000], &[Item::DataWrite(0x1234)]);
    let refused = [&stored[..], &[Item::Line(0), Item::StatusRead]].concat();
    let faulty = [script_of(&stored), vec![0, 1, 5, 0, 1, 4]].concat();
    let missing = [FIRST, MISSING, Item::DataRead, MISSING, Item::NewFrame];
    let cut = script_of(&stored)[..19].to_vec();
    vec![done, script_of(&refused), faulty, script_of(&missing), cut, vec![2, 0, 1, 4], vec![]]
}

/// A machine with words in its cartridge.
fn machine() -> Machine {
    let mut machine = Machine::new();
    machine.cartridge.bytes[..4].copy_from_slice(&[0xA1, 0xA2, 0xA3, 0xA4]);
    machine.pixels.bytes.fill(0x55);
    machine
}

/// `CutAnywhere`: two deliveries and three, with none of them empty and with empty ones between.
#[test]
fn every_cut_gives_what_one_delivery_gives() {
    let machine = machine();
    for (script, end) in scripts().iter().flat_map(|script| [(script, false), (script, true)]) {
        let one = brought(&machine, &[script], end);
        for first in 0..=script.len() {
            let (head, tail) = script.split_at(first);
            assert_same(&one, &brought(&machine, &[head, tail], end));
            for second in (0..=tail.len()).step_by(if end { 5 } else { 1 }) {
                let (middle, tail) = tail.split_at(second);
                assert_same(&one, &brought(&machine, &[head, middle, tail], end));
            }
        }
        let single: Vec<&[u8]> = std::iter::once(&[][..]).chain(script.chunks(1)).collect();
        let mut with_empty: Vec<&[u8]> = script.chunks(1).flat_map(|byte| [byte, &[]]).collect();
        with_empty.insert(0, &[]);
        assert_same(&one, &brought(&machine, &single, end));
        assert_same(&one, &brought(&machine, &with_empty, end));
    }
}

/// What each of the scripts answers with the end notice, and how many calls it makes, a refused one
/// with them.
#[test]
fn what_the_scripts_answer() {
    let expected = [(0, 9), (4, 5), (11, 4), (12, 3), (11, 3), (11, 0), (11, 0)];
    for (script, (number, calls)) in scripts().iter().zip(expected) {
        let (answer, log, _) = brought(&machine(), &[script], true);
        assert_eq!((answer, log.len()), (number, calls), "{script:?}");
    }
}

/// One delivery is all its bytes by `deliver`, and its calls are told in order.
#[test]
fn a_delivery_goes_on() {
    for script in scripts() {
        let (number, log, after) = brought(&machine(), &[&script], false);
        let mut machine = machine();
        let Delivery { number: answer, calls } = machine.deliver(&script);
        let logged: Vec<_> = log.iter().map(|(item, reply, _)| (*item, *reply)).collect();
        assert_eq!((answer, calls), (number, logged));
        assert!(machine.state == after.state && machine.reader == after.reader);
    }
}

/// `deliver` ends behind the byte that makes an item whole or is faulty.
#[test]
fn one_call_at_most() {
    let mut machine = Machine::new();
    let mut reader = Reader::default();
    let script = [1, 0, 1, 4, 0, 1, 7, 0, 3, 1, 0x98, 0, 0];
    let mut deliver = |from: usize| reader.deliver(&mut machine.lent().0, &script[from..]);
    // The status of a fresh chip has the upper bits of 3400h and the empty FIFO's 200h.
    assert_eq!(deliver(0), (Some((Item::StatusRead, Ok(0x3600))), 4));
    assert_eq!(deliver(4), (Some((Item::NewFrame, Ok(0))), 3));
    assert_eq!(deliver(7), (None, 5));
    assert_eq!(deliver(12), (None, 0));
    assert_eq!(reader, Reader::Stopped(MISSING_REGISTER));
    let mut reader = Reader::default();
    assert_eq!(reader.deliver(&mut machine.lent().0, &[1, 0, 1, 9, 0]), (None, 4));
    assert_eq!(reader, Reader::Stopped(BAD_SCRIPT));
}

/// `AsRun`, for scripts by chance that are judged with 0.
#[test]
fn a_script_that_is_judged_with_0_gives_what_running_it_gives() {
    let mut maker = Maker::new(3, Kind::Script, usize::MAX);
    maker.scatter(VRAM);
    maker.register(1, 0x44);
    let (mut done, mut refused) = (0, 0);
    for round in 0..150 {
        let items = match round % 3 {
            0 => stopped::by_calls(&mut maker, phrase),
            1 => all(maker.rehearse(phrase)),
            _ => (0..8).map(|_| any_item(&mut maker)).collect(),
        };
        let script = script_of(&items);
        if judged(&script, maker.machine.state.pending).0 != DONE {
            continue;
        }
        let (number, log, after) = brought(&maker.machine, &[&script], true);
        let mut other = maker.machine.clone();
        let (expected, place) = run::script(&mut other.lent().0, &script);
        assert_eq!(number, expected);
        assert_eq!(log.len() as u32, place + u32::from(number != DONE));
        assert!(other.state == after.state && other.vram.bytes == after.vram.bytes);
        assert_eq!(other.pixels.bytes, after.pixels.bytes);
        assert_calls(&maker.machine, &script, &log);
        done += u32::from(number == DONE);
        refused += u32::from(number != DONE);
    }
    assert!(done > 30 && refused > 30, "{done} done, {refused} refused");
}

/// The calls are those of the items, one after the other.
fn assert_calls(machine: &Machine, script: &[u8], log: &[Logged]) {
    let (mut machine, mut at) = (machine.clone(), 1);
    for (_, reply, state) in log {
        let (expected, next) = run::item(&mut machine.lent().0, script, at);
        assert_eq!((*reply, state), (expected, &machine.state));
        at = next;
    }
}

/// All strings of up to four of these bytes, which are enough to end any item.
fn tails() -> Vec<Vec<u8>> {
    let mut all = vec![Vec::new()];
    let mut longest = all.clone();
    for _ in 0..4 {
        let more = |tail: &Vec<u8>| [0, 1, 3, 4].map(|byte| [&tail[..], &[byte]].concat());
        longest = longest.iter().flat_map(more).collect();
        all.extend(longest.clone());
    }
    all
}

/// `FirstFaultyByte`, for each byte at each position of an item. No item has more than five bytes, so
/// the beginning of a script is ended by at most four more.
#[test]
fn eleven_at_the_first_byte_that_no_script_has_there() {
    let tails = tails();
    let heads: [&[u8]; 8] = [
        &[],
        &[1],
        &[1, 0],
        &[1, 0, 1],
        &[1, 0, 3],
        &[1, 0, 3, 5],
        &[1, 0, 3, 2, 9],
        &[1, 0, 1, 4, 0, 1],
    ];
    for (head, byte) in heads.iter().flat_map(|head| (0..=255).map(move |byte| (head, byte))) {
        let bytes = [head, &[byte][..]].concat();
        let well = |tail: &Vec<u8>| form::items(&[&bytes[..], tail].concat()).is_ok();
        let expected = if tails.iter().any(well) { DONE } else { BAD_SCRIPT };
        let mut machine = Machine::new();
        assert_eq!(machine.deliver(head).number, DONE);
        let delivery = machine.deliver(&[byte]);
        assert_eq!(delivery.number, expected, "{byte} behind {head:?}");
        assert_eq!(machine.reader == Reader::Stopped(BAD_SCRIPT), expected == BAD_SCRIPT);
        assert!(expected == DONE || delivery.calls.is_empty());
    }
}

/// How many bytes are right where they come: 1; 0; 1 and 3; 3, 4 and 7; 1, 2, 5 and 6; any.
#[test]
fn how_many_bytes_are_right() {
    for (head, right) in [
        (&[][..], 1),
        (&[1], 1),
        (&[1, 0], 2),
        (&[1, 0, 1], 3),
        (&[1, 0, 3], 4),
        (&[1, 0, 3, 6], 256),
    ] {
        let taken = |byte: &u8| {
            let mut machine = Machine::new();
            machine.deliver(&[head, &[*byte]].concat()).number == DONE
        };
        assert_eq!((0..=255).filter(taken).count(), right, "{head:?}");
    }
}

/// What a machine answers that is brought these bytes, and how many calls it made.
fn answers(machine: &mut Machine, bytes: &[u8]) -> (Answer, usize) {
    let delivery = machine.deliver(bytes);
    (delivery.number, delivery.calls.len())
}

/// Four bytes of the item answer 0; with the fifth the flag counts that the state has then.
#[test]
fn twelve_once_the_item_is_whole() {
    let word = MISSING.bytes();
    for (first, last) in [(false, false), (false, true), (true, false), (true, true)] {
        let mut machine = Machine::new();
        machine.state.pending = first;
        assert_eq!(answers(&mut machine, &[1]), (0, 0));
        for byte in &word[..4] {
            assert_eq!(answers(&mut machine, &[*byte]), (0, 0));
        }
        machine.state.pending = last;
        let state = machine.state.clone();
        let expected = if last { (0, 1) } else { (12, 0) };
        assert_eq!(answers(&mut machine, &word[4..]), expected);
        assert_eq!(machine.state == state, !last);
    }
}

/// Earlier calls stand, with the flag as they left it: a first half makes the word a second one.
#[test]
fn twelve_behind_calls() {
    let mut machine = Machine::new();
    let items = [FIRST, MISSING, Item::ControlWrite(0x8F02), MISSING, Item::NewFrame];
    assert_eq!(answers(&mut machine, &script_of(&items)), (12, 3));
    assert_eq!(machine.state.registers[15], 2);
    assert_eq!(machine.reader, Reader::Stopped(12));
    assert_eq!(answers(&mut machine, &Item::NewFrame.bytes()), (12, 0));
}

/// What is done to a machine before a delivery.
type Spoil = fn(&mut Machine);

/// A bad state, a copy under way and buffers of wrong lengths: 12 comes before all of them, and a
/// register that there is meets 1 and 3.
#[test]
fn twelve_before_the_refusals_of_the_call() {
    let bad_state = |machine: &mut Machine| machine.state.code = 64;
    let busy = |machine: &mut Machine| (machine.state.kind, machine.state.remaining) = (4, 1);
    let buffers = |machine: &mut Machine| {
        (machine.vram.length, machine.pixels.length, machine.work_ram.length) = (9, 9, 9);
    };
    let spoils: [(Spoil, Answer); 3] = [(bad_state, 1), (busy, 3), (buffers, 0)];
    for (spoil, number) in spoils {
        let mut machine = Machine::new();
        spoil(&mut machine);
        let before = machine.clone();
        assert_eq!(answers(&mut machine, &script_of(&[MISSING])), (12, 0));
        assert_eq!(machine.state, before.state);
        let mut machine = before;
        let word = script_of(&[Item::ControlWrite(0x9700)]);
        assert_eq!(answers(&mut machine, &word), (number, 1));
    }
}

/// Each number that a script's calls can answer, with what leads to it and the item that meets it.
fn refusals() -> [(Answer, Machine, Item); 6] {
    let with = |spoil: Spoil| {
        let mut machine = Machine::new();
        spoil(&mut machine);
        machine
    };
    let transfer = |machine: &mut Machine| {
        (machine.state.kind, machine.state.remaining) = (2, 1);
        machine.state.source = 0x20_0000;
    };
    [
        (1, with(|machine| machine.state.line = 262), Item::NewFrame),
        (2, with(|machine| machine.vram.length = 65_535), Item::DataRead),
        (3, with(transfer), Item::StatusRead),
        (4, Machine::new(), Item::Line(0)),
        (5, Machine::new(), Item::Line(224)),
        (7, with(transfer), Item::Run(1)),
    ]
}

#[test]
fn a_refused_call_stops_the_reader() {
    for (number, before, item) in refusals() {
        let mut machine = before.clone();
        let script = script_of(&[item, Item::NewFrame]);
        let Delivery { number: answer, calls } = machine.deliver(&script);
        assert_eq!((answer, calls), (number, vec![(item, Err(number))]));
        assert_eq!(machine.reader, Reader::Stopped(number));
        assert!(machine.state == before.state && machine.vram.bytes == before.vram.bytes);
    }
}

/// Calls before the refused one stand: register 1 is written, and then line 240 is not there.
#[test]
fn calls_before_a_refused_one_stand() {
    let mut machine = Machine::new();
    let items = [Item::ControlWrite(0x814C), Item::Line(240), Item::ControlWrite(0x8F02)];
    assert_eq!(answers(&mut machine, &script_of(&items)), (5, 2));
    assert_eq!((machine.state.registers[1], machine.state.registers[15]), (0x4C, 0));
}

/// Readers that are stopped in each way, each on a machine that is well again.
fn stopped_readers() -> Vec<(Answer, Reader)> {
    let mut readers = Vec::new();
    for (number, mut machine, item) in refusals() {
        machine.deliver(&script_of(&[item]));
        readers.push((number, machine.reader));
    }
    for (number, bytes) in [(11, &[1, 0, 2][..]), (12, &script_of(&[MISSING]))] {
        let mut machine = Machine::new();
        assert_eq!(machine.deliver(bytes).number, number);
        readers.push((number, machine.reader));
    }
    for (number, bytes) in [(0, &[1][..]), (11, &[]), (11, &[1, 0])] {
        let mut machine = Machine::new();
        assert_eq!(machine.deliver(bytes).number, DONE);
        assert_eq!(machine.reader.end(), number);
        readers.push((number, machine.reader));
    }
    readers
}

/// No byte is taken, no call made, and the number stays; a start anew makes it a reader like any.
#[test]
fn a_stopped_reader_gives_its_number_until_it_is_started_anew() {
    let script = script_of(&[Item::ControlWrite(0x8F02), MISSING]);
    for (number, reader) in stopped_readers() {
        assert_eq!(reader, Reader::Stopped(number));
        let mut machine = Machine::new();
        machine.reader = reader.clone();
        for bytes in [&script[..], &[], &[1], &[0], &script[1..], &[9]] {
            assert_eq!(answers(&mut machine, bytes), (number, 0));
            assert_eq!(machine.reader.deliver(&mut Machine::new().lent().0, bytes), (None, 0));
            assert_eq!(machine.reader.end(), number);
            assert_eq!((&machine.reader, &machine.state), (&reader, &State::fresh(false)));
        }
        machine.reader = Reader::default();
        assert_eq!(answers(&mut machine, &script[..6]), (0, 1));
        assert_eq!((machine.state.registers[15], machine.reader.end()), (2, 0));
    }
}

/// The end notice before the version, behind it, at each byte of an item, and behind items.
#[test]
fn end_notices() {
    let items = [Item::Run(0), Item::StatusRead];
    let script = script_of(&items);
    // The version and the two items end behind bytes 1, 6 and 9.
    for bytes in 0..=script.len() {
        let mut machine = Machine::new();
        assert_eq!(machine.deliver(&script[..bytes]).number, DONE);
        let expected = if [1, 6, 9].contains(&bytes) { DONE } else { BAD_SCRIPT };
        assert_eq!(machine.reader.end(), expected, "behind {bytes} bytes");
        assert_eq!(machine.reader, Reader::Stopped(expected));
    }
}

/// With a bad state and buffers of wrong lengths: no bytes, a version and parts of an item answer 0,
/// and only the whole item's call is refused.
#[test]
fn a_delivery_by_itself_asks_for_nothing() {
    let mut machine = Machine::new();
    machine.state.code = 64;
    for buffer in [&mut machine.vram, &mut machine.pixels, &mut machine.work_ram] {
        buffer.length = 1;
    }
    machine.cartridge.length = 1;
    let script = script_of(&[Item::DataWrite(0x1234)]);
    for byte in &script[..5] {
        assert_eq!(answers(&mut machine, &[]), (0, 0));
        assert_eq!(answers(&mut machine, &[*byte]), (0, 0));
    }
    let mut mended = machine.clone();
    assert_eq!(answers(&mut machine, &script[5..]), (1, 1));
    mended.state.code = 0;
    let mut with_vram = mended.clone();
    assert_eq!(answers(&mut mended, &script[5..]), (2, 1));
    with_vram.vram.length = 65_536;
    assert_eq!(answers(&mut with_vram, &script[5..]), (0, 1));
    assert_eq!(with_vram.reader.end(), DONE);
}

/// 60,000 items in one delivery, the last of them for register 15, and then as many again.
#[test]
fn there_is_no_limit_on_length() {
    let mut items = vec![Item::NewFrame; 60_000];
    items.push(Item::ControlWrite(0x8F02));
    let script = script_of(&items);
    let mut machine = Machine::new();
    assert_eq!(answers(&mut machine, &script), (0, 60_001));
    assert_eq!(machine.state.registers[15], 2);
    assert_eq!(answers(&mut machine, &script[1..]), (0, 60_001));
    assert_eq!(answers(&mut machine, &[0, 1, 0]), (11, 0));
}

/// Numbers that no call answers, whole items and bytes that begin none: such a reader answers 1 and
/// stays as it came. All the numbers that a call may answer are in range.
#[test]
fn a_reader_outside_its_ranges() {
    let kept = |bytes: &[u8]| Reader::InItems(bytes.to_vec());
    let outside = [
        Reader::Stopped(9),
        Reader::Stopped(13),
        Reader::Stopped(255),
        kept(&[1]),
        kept(&[0, 2]),
        kept(&[0, 1, 4]),
        kept(&[0, 3, 4]),
        kept(&[0, 3, 1, 0x8F, 2]),
        kept(&[0, 3, 1, 0x8F, 2, 0]),
    ];
    for reader in outside {
        let mut machine = Machine::new();
        machine.reader = reader.clone();
        for bytes in [&[][..], &[1], &[0], &[4]] {
            assert_eq!(answers(&mut machine, bytes), (1, 0));
            assert_eq!(machine.reader.end(), 1);
        }
        assert_eq!((machine.reader, machine.state), (reader, State::fresh(false)));
    }
    for number in (0..9).chain(10..13) {
        assert_eq!(Reader::Stopped(number).number(), number);
        assert_eq!(Reader::Stopped(number).end(), number);
    }
}
