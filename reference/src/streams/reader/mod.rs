//! Streams of a reader that is brought scripts: whole ones in every kind of cut, ones with a faulty
//! byte, ones with a word for a missing register or with a call that is refused, and end notices;
//! and what a reader that is stopped does with all that.

mod between;
mod cuts;
mod faulty;
mod missing;
mod refused;
mod stopped;

use super::script::items::{any_item, done};
use super::script::{self, beside_the_tape, some_items, write, HELD};
use super::{dma, Maker};
use crate::replay::SCRIPT;
use crate::script::reader::Reader;
use crate::script::Item;
use cuts::bring;

pub fn fill(maker: &mut Maker) {
    script::fill_with(maker, episode);
}

/// One script that is brought, or a few that go together.
fn episode(maker: &mut Maker) {
    match maker.below(128) {
        0..=15 => whole(maker),
        16..=23 => cuts::each(maker),
        24..=45 => faulty::episode(maker),
        46..=67 => missing::episode(maker),
        68..=97 => refused::episode(maker),
        98..=111 => stopped::ended(maker),
        112..=115 => cuts::ends_of_the_script(maker),
        116 => long(maker),
        117 | 118 => beside_a_run(maker),
        _ => never_recorded(maker),
    }
    if !maker.once_in(4) {
        stopped::after(maker);
    }
}

/// Brings bytes of the lent script. What a line of theirs has drawn is looked at.
fn deliver(maker: &mut Maker, from: u32, bytes: u32) {
    let machine = &maker.machine;
    let (state, pixels) = (machine.state.clone(), machine.pixels.bytes.clone());
    maker.deliver(from, bytes);
    let drawn = maker.machine.pixels.bytes != pixels;
    let changed = maker.machine.state != state;
    if drawn || changed && maker.once_in(6) {
        maker.digests();
    }
}

/// The byte to begin a script from: its version, or its first item if one just came to its end.
fn ready(maker: &mut Maker) -> u32 {
    let as_it_is = !maker.once_in(3);
    match &maker.machine.reader {
        Reader::InItems(kept) if kept.is_empty() && as_it_is => 1,
        Reader::BeforeVersion if as_it_is => 0,
        _ => {
            maker.start_reader();
            0
        }
    }
}

fn is_stopped(maker: &Maker) -> bool {
    matches!(maker.machine.reader, Reader::Stopped(_))
}

/// Items that mostly are done; often a few, so that a stream has many scripts.
fn items(maker: &mut Maker) -> Vec<Item> {
    if maker.once_in(5) {
        return transfer(maker);
    }
    let mut items = some_items(maker);
    let most = maker.pick(&[2, 6, 12, 40, 40]);
    items.truncate(most);
    items
}

/// A transfer of a few words from the cartridge or work RAM, in one run or two.
fn transfer(maker: &mut Maker) -> Vec<Item> {
    maker.calm();
    let (inside, length) = (maker.below(0x1_0000) & !1, 1 + maker.word() % 40);
    let source = maker.pick(&[inside, inside, 0xE0_0000 + inside]);
    let calls = maker.rehearse(|maker| {
        dma::begin_transfer(maker, source, length);
        let part = maker.below(u32::from(length));
        maker.run(part);
        maker.run(u32::from(length));
    });
    done(calls)
}

/// A script that is brought to its end, or almost, and perhaps the end notice.
fn whole(maker: &mut Maker) {
    let items = items(maker);
    let end = write(maker, &items)[items.len()];
    let from = ready(maker);
    let less = maker.pick(&[0, 0, 0, 1, 2]);
    bring(maker, from, end - less);
    if maker.once_in(3) {
        maker.end_notice();
    } else if less > 0 && !is_stopped(maker) {
        // The rest, after something else.
        between::inside(maker, end - less);
        deliver(maker, end - less, less);
    }
}

/// The same items again and again, to more bytes than the stream holds for a script.
fn long(maker: &mut Maker) {
    maker.calm();
    let mut all = Vec::new();
    for _ in 0..60 {
        let word = maker.word();
        let easy = [Item::StatusRead, Item::NewFrame, Item::DataRead, Item::DataWrite(word)];
        let register = Item::ControlWrite(0x8F00 | word & 0xFF);
        all.push(maker.pick(&[&easy[..], &[register, Item::Run(word), register]].concat()));
    }
    let end = write(maker, &all)[all.len()];
    maker.start_reader();
    deliver(maker, 0, end);
    let mut brought = end;
    while brought <= HELD && !is_stopped(maker) && !maker.full() {
        deliver(maker, 1, u32::MAX);
        brought += end - 1;
    }
    maker.end_notice();
}

/// A script that is run while another lies half in the reader: the two do not know of each other.
fn beside_a_run(maker: &mut Maker) {
    let items = items(maker);
    let bytes = write(maker, &items);
    let from = ready(maker);
    let cut = bytes[items.len() - 1] + 1 + maker.below(2);
    bring(maker, from, cut);
    let other = [any_item(maker), any_item(maker)];
    write(maker, &other);
    maker.run_script();
    write(maker, &items);
    deliver(maker, cut, u32::MAX);
}

/// The calls of a reader are never recorded.
fn never_recorded(maker: &mut Maker) {
    beside_the_tape(maker, |maker| match maker.below(6) {
        0 => refused::episode(maker),
        1 => missing::episode(maker),
        2 => faulty::episode(maker),
        3 => stopped::ended(maker),
        _ => whole(maker),
    });
}

/// Sets bytes of the script from its first one on, and lends it up to a few more at most.
fn lend(maker: &mut Maker, bytes: &[u8]) {
    script::faulty::poke_all(maker, 0, bytes);
    let end = bytes.len() as u32;
    let length = maker.pick(&[end, end, end + 1, HELD]);
    maker.length(SCRIPT, length);
}
