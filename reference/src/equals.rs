//! Tests of what a run equals (definition, What a run equals): a transfer is its port writes, and a
//! run may be cut. Both are tried on GOOD states and memories by chance, the same ones each time.

use std::array::from_fn;
use std::collections::BTreeMap;

use crate::answer::{Reply, BAD_BUFFER, SOURCE_NOT_LENT};
use crate::calls;
use crate::dma::{word_from, Memories};
use crate::replay::{CARTRIDGE, VRAM, WORK_RAM};
use crate::state::{
    State, COLOUR_BITS, COPY, FILL, IDLE, LAST_LINE, SCROLL_MOST, TRANSFER, UNITS_MOST,
};
use crate::streams::dma::{some_length, some_source};
use crate::streams::{Kind, Maker};

/// Tries of the first claim, and of the second in each of the kinds 2, 3 and 4.
const TRIES: u32 = 3_000;
/// Each sort of try that a test names must come up this often.
const LEAST: u32 = 10;

const WORK_RAM_FROM: u32 = 0xE0_0000;

/// A state and the VRAM that is lent with it.
#[derive(Clone)]
struct Chip {
    state: State,
    vram: Vec<u8>,
}

impl Chip {
    fn run(&mut self, memories: Memories, budget: u32) -> Reply {
        calls::run(&mut self.state, &mut self.vram, memories, None, budget)
    }

    fn write(&mut self, word: u16) -> Reply {
        calls::data_write(&mut self.state, &mut self.vram, None, word)
    }

    fn assert_same(&self, other: &Chip) {
        assert_eq!(self.state, other.state);
        assert!(self.vram == other.vram, "VRAM differs, and the state is {:?}", self.state);
    }
}

/// How often each sort of try came up; one that never did stands at 0.
#[derive(Default)]
struct Met(BTreeMap<&'static str, u32>);

impl Met {
    fn count(&mut self, sorts: &[(&'static str, bool)]) {
        for (sort, holds) in sorts {
            *self.0.entry(sort).or_insert(0) += u32::from(*holds);
        }
    }

    /// A claim that is tried on no chip shows nothing.
    fn assert_enough(&self) {
        let rare: Vec<_> = self.0.iter().filter(|(_, times)| **times < LEAST).collect();
        assert!(rare.is_empty(), "too few of {rare:?} in {:?}", self.0);
        assert!(self.0["done"] > TRIES / 2, "too many are refused: {:?}", self.0);
    }
}

/// A maker of numbers, whose machine has memories with bytes by chance. Its stream is not used.
fn board(seed: u64) -> Maker {
    let mut maker = Maker::new(seed, Kind::Dma, usize::MAX);
    for buffer in [VRAM, WORK_RAM, CARTRIDGE] {
        maker.scatter(buffer);
    }
    maker
}

/// A chip with DMA of this kind under way.
fn begun(maker: &mut Maker, kind: u8) -> Chip {
    let chip = Chip { state: under_way(maker, kind), vram: maker.machine.vram.lent().to_vec() };
    assert!(chip.state.good());
    chip
}

/// Lends any even length of the cartridge, and all of work RAM or too little of it.
fn lend(maker: &mut Maker, too_little: bool) {
    let any = 2 * maker.below(65_537);
    let length = maker.pick(&[131_072, 131_072, 131_072, 65_536, any, any, 2, 0]);
    maker.length(CARTRIDGE, length);
    maker.length(WORK_RAM, if too_little { 65_534 } else { 65_536 });
}

/// Anything that GOOD allows in this kind, with edges more often than chance would have them.
fn under_way(maker: &mut Maker, kind: u8) -> State {
    let any = maker.byte() % 64;
    let stores = any & 0x30 | maker.pick(&[1, 3, 5]);
    let (address, step) = (maker.address(), maker.step());
    let mut state = State {
        registers: from_fn(|_| maker.byte()),
        colours: from_fn(|_| maker.word() & COLOUR_BITS),
        scrolls: from_fn(|_| maker.word() & SCROLL_MOST),
        address,
        code: maker.pick(&[stores, stores, any]),
        pending: maker.once_in(2),
        kind,
        remaining: length(maker),
        source: source(maker, kind, address),
        fill: if kind == FILL { maker.byte() } else { 0 },
        overflow: maker.once_in(2),
        collision: maker.once_in(2),
        used_up: maker.once_in(2),
        line: maker.word() % (LAST_LINE + 1),
        counter: maker.byte(),
        vertical: maker.once_in(2),
        horizontal: maker.once_in(2),
        pal: maker.once_in(2),
    };
    state.registers[15] = step;
    state
}

/// A length of 0 stands for 65,536 units.
fn length(maker: &mut Maker) -> u32 {
    match some_length(maker) {
        0 => UNITS_MOST,
        units => u32::from(units),
    }
}

/// A copy's source often lies just before its address, so that the copy spreads.
fn source(maker: &mut Maker, kind: u8, address: u16) -> u32 {
    let (any, before) = (maker.word(), address.wrapping_sub(1 + maker.word() % 4));
    match kind {
        TRANSFER => some_source(maker),
        COPY => u32::from(maker.pick(&[any, before])),
        _ => 0,
    }
}

/// "The words are as many as units remain: that at the source, that at the next source, and so on."
/// There is no such list if one of them lies in no lent memory.
fn words(state: &State, memories: Memories) -> Option<Vec<u16>> {
    let word = |unit| word_from(nth_source(state.source, unit), memories);
    (0..state.remaining).map(word).collect()
}

/// Past FFFFFEh a source goes round the 65,536 bytes from FF0000h on.
fn nth_source(first: u32, unit: u32) -> u32 {
    let straight = first + 2 * unit;
    if straight > 0xFF_FFFE {
        0xFF_0000 + straight % 65_536
    } else {
        straight
    }
}

/// Data writes of the words, "from the same chip with only the DMA made idle".
fn written(begun: &Chip, words: &[u16]) -> Chip {
    let idle = State { kind: IDLE, remaining: 0, source: 0, ..begun.state.clone() };
    let mut chip = Chip { state: idle, vram: begun.vram.clone() };
    for word in words {
        assert_eq!(chip.write(*word), Ok(0));
    }
    chip
}

/// All is the same "but for pending, which a data write clears and a unit leaves".
#[test]
fn a_transfer_is_its_port_writes() {
    let (mut maker, mut met) = (board(1), Met::default());
    for _ in 0..TRIES {
        lend(&mut maker, false);
        let begun = begun(&mut maker, TRANSFER);
        let remaining = begun.state.remaining;
        let budget = maker.pick(&[remaining, remaining, remaining + 1, u32::MAX]);
        let memories = maker.machine.memories();
        let mut ran = begun.clone();
        let reply = ran.run(memories, budget);
        met.count(&[("done", reply.is_ok()), ("refused", reply.is_err())]);
        let Some(words) = words(&begun.state, memories) else {
            assert_eq!(reply, Err(SOURCE_NOT_LENT));
            continue;
        };
        assert_eq!(reply, Ok(remaining));
        let mut wrote = written(&begun, &words);
        assert!(!wrote.state.pending);
        wrote.state.pending = begun.state.pending;
        ran.assert_same(&wrote);
        met.count(&sorts_of_transfer(&begun, &ran));
        met.count(&[("budget just", budget == remaining), ("budget above", budget > remaining)]);
    }
    met.assert_enough();
}

/// Which memory a transfer changed and from where, and what else may matter to it.
fn sorts_of_transfer(begun: &Chip, ran: &Chip) -> [(&'static str, bool); 15] {
    let (before, after) = (&begun.state, &ran.state);
    let cartridge = before.source < WORK_RAM_FROM;
    let vram = begun.vram != ran.vram;
    let colours = before.colours != after.colours;
    let scrolls = before.scrolls != after.scrolls;
    let odd = before.address % 2 == 1;
    [
        ("VRAM from the cartridge", vram && cartridge),
        ("VRAM from work RAM", vram && !cartridge),
        ("colours from the cartridge", colours && cartridge),
        ("colours from work RAM", colours && !cartridge),
        ("scroll words from the cartridge", scrolls && cartridge),
        ("scroll words from work RAM", scrolls && !cartridge),
        ("a code that stores nothing", !matches!(before.code & 15, 1 | 3 | 5)),
        ("VRAM from an odd address on", vram && odd),
        ("VRAM from an even address on", vram && !odd),
        ("VRAM at odd addresses alone", vram && odd && before.registers[15] % 2 == 0),
        ("pending set", before.pending),
        ("pending clear", !before.pending),
        ("from E00000h on", before.source == WORK_RAM_FROM),
        ("from FFFFFEh to FF0000h", before.source + 2 * (before.remaining - 1) > 0xFF_FFFE),
        ("65,536 words", before.remaining == UNITS_MOST),
    ]
}

/// "Any list of budgets; it may be empty, and a budget in it may be 0."
fn budgets(maker: &mut Maker, remaining: u32) -> Vec<u32> {
    let (mut list, mut rest) = (Vec::new(), remaining);
    for _ in 0..maker.below(6) {
        let part = maker.below(rest + 1);
        let budget = maker.pick(&[0, 1, part, part, part, rest, rest + 1, u32::MAX]);
        list.push(budget);
        rest = rest.saturating_sub(budget);
    }
    list
}

#[test]
fn a_run_may_be_cut() {
    for kind in [TRANSFER, FILL, COPY] {
        let (mut maker, mut met) = (board(u64::from(kind)), Met::default());
        for _ in 0..TRIES {
            let too_little = maker.once_in(8);
            lend(&mut maker, too_little);
            let begun = begun(&mut maker, kind);
            let budgets = budgets(&mut maker, begun.state.remaining);
            try_cut(&begun, maker.machine.memories(), &budgets, &mut met);
        }
        met.assert_enough();
    }
}

/// Where none of the runs is refused, they are held against one run with the sum.
fn try_cut(begun: &Chip, memories: Memories, budgets: &[u32], met: &mut Met) {
    let mut cut = begun.clone();
    let replies: Vec<Reply> = budgets.iter().map(|budget| cut.run(memories, *budget)).collect();
    let units: Reply = replies.iter().copied().sum();
    met.count(&[("done", units.is_ok()), ("refused", units.is_err())]);
    let Ok(units) = units else {
        assert!(replies.iter().all(|it| matches!(it, Ok(_) | Err(BAD_BUFFER | SOURCE_NOT_LENT))));
        return;
    };
    let sum: u64 = budgets.iter().map(|budget| u64::from(*budget)).sum();
    let mut whole = begun.clone();
    // No more than 65,536 units remain, so the greatest budget does for a sum that none can hold.
    let one = whole.run(memories, u32::try_from(sum).unwrap_or(u32::MAX));
    assert!(budgets.is_empty() || one.is_ok(), "the one run answers {one:?}");
    // A refused call gives 0 as its result.
    assert_eq!(units, one.unwrap_or(0));
    cut.assert_same(&whole);
    let remaining = u64::from(begun.state.remaining);
    assert_eq!(cut.state.kind == IDLE, sum >= remaining);
    met.count(&[("VRAM changes", cut.vram != begun.vram)]);
    met.count(&sorts_of_sum(sum, remaining));
    met.count(&sorts_of_list(budgets, &replies, one, remaining));
}

fn sorts_of_sum(sum: u64, remaining: u64) -> [(&'static str, bool); 5] {
    [
        ("sum below: not idle", sum < remaining),
        ("sum just: idle", sum == remaining),
        ("sum above: idle", sum > remaining),
        ("sum of more than 32 bits", sum > u64::from(u32::MAX)),
        ("65,536 units remain", remaining == u64::from(UNITS_MOST)),
    ]
}

fn sorts_of_list(
    budgets: &[u32],
    replies: &[Reply],
    one: Reply,
    remaining: u64,
) -> [(&'static str, bool); 5] {
    let before_zero: u64 = budgets.iter().take_while(|it| **it != 0).map(|it| u64::from(*it)).sum();
    let zero = budgets.contains(&0) && before_zero < remaining;
    let after_last = replies.last() == Some(&Ok(0)) && budgets.last() != Some(&0);
    let runs_of_units = replies.iter().filter(|reply| matches!(reply, Ok(1..))).count();
    [
        ("a budget of 0 while units remain", zero),
        ("two or more runs of units", runs_of_units >= 2),
        ("a run after the last unit", after_last),
        ("an empty list", budgets.is_empty()),
        ("an empty list, and the one run is refused", budgets.is_empty() && one.is_err()),
    ]
}
