//! Streams of scripts: well formed ones, ones with a call that is refused, faulty ones, ones with a
//! word for a missing register, and items written where there is room for them and where there is
//! none.

pub mod faulty;
pub mod items;
pub mod missing;
mod rooms;
pub mod stopped;

use super::{drawing, ports, refusals, tape, timing, Maker};
use crate::replay::{CARTRIDGE, PIXELS, SCRIPT, VRAM, WORK_RAM};
use crate::script::{Item, VERSION};
use items::{all, any_item, bytes_of, done, phrase};
use stopped::spoil_state;

/// A script has no more items than these, so that a stream has many scripts.
const MOST_ITEMS: usize = 40;
/// The bytes that the stream holds for a script.
pub const HELD: u32 = 16_388;

pub fn fill(maker: &mut Maker) {
    fill_with(maker, episode);
}

/// Episodes over a scene to draw and memory to move, with plain calls between them.
pub fn fill_with(maker: &mut Maker, episode: fn(&mut Maker)) {
    for buffer in [PIXELS, WORK_RAM, CARTRIDGE] {
        maker.scatter(buffer);
    }
    drawing::scene(maker);
    while !maker.full() {
        episode(maker);
        between(maker);
    }
}

/// One script or a few that go together.
pub fn episode(maker: &mut Maker) {
    match maker.below(50) {
        0..=8 => whole(maker),
        9..=20 => stopped::episode(maker),
        21..=30 => faulty::episode(maker),
        31..=35 => rooms::episode(maker),
        36..=38 => no_items(maker),
        39 => halves(maker),
        40 | 41 => never_recorded(maker),
        _ => missing::episode(maker),
    }
}

/// Plain calls between scripts, or none, so that one script goes on where another ended.
pub fn between(maker: &mut Maker) {
    match maker.below(24) {
        0 | 1 => maker.calm(),
        2 | 3 => {
            maker.calm();
            drawing::sane(maker);
        }
        4 | 5 => maker.raise_flags(),
        6 | 7 => timing::jump(maker),
        8 | 9 => ports::by_hand(maker),
        10 => drawing::scene(maker),
        _ => (),
    }
}

/// Items of a phrase or two. Mostly they are done, as far as can be told here.
pub fn some_items(maker: &mut Maker) -> Vec<Item> {
    let phrases = 1 + maker.below(2);
    let calls = maker.rehearse(|maker| (0..phrases).for_each(|_| phrase(maker)));
    let mut items = if maker.once_in(5) { all(calls) } else { done(calls) };
    items.truncate(MOST_ITEMS);
    if items.is_empty() {
        items.push(any_item(maker));
    }
    items
}

/// A script of these items, each written just after the other; its length is theirs. Gives the byte
/// of each item and that after the last one.
pub fn write(maker: &mut Maker, items: &[Item]) -> Vec<u32> {
    let bytes = bytes_of(items);
    let end = bytes[items.len()];
    let before = maker.pick(&[end, end, end + 1, HELD]);
    maker.length(SCRIPT, before);
    if maker.machine.script.bytes[0] != VERSION {
        maker.poke(SCRIPT, 0, VERSION);
    }
    for (item, at) in items.iter().zip(&bytes) {
        maker.write_item(*item, *at);
    }
    if before != end {
        maker.length(SCRIPT, end);
    }
    bytes
}

/// A place among the items, often the first or the last one.
pub fn some_place(maker: &mut Maker, items: &[Item]) -> usize {
    let last = items.len() - 1;
    let any = maker.below(items.len() as u32) as usize;
    maker.pick(&[0, 0, any, any, last])
}

/// The script is run, now and then with a bad state or with VRAM of a wrong length.
pub fn run_with_any(maker: &mut Maker) {
    let field = maker.once_in(5).then(|| spoil_state(maker));
    if maker.once_in(8) {
        maker.length(VRAM, 65_535);
    }
    maker.run_script();
    refusals::mend_lengths(maker);
    if let Some((field, value)) = field {
        maker.field(field, 0, value);
    }
}

/// A well formed script, run once or twice: the second time it may be refused where the first left
/// the chip busy.
fn whole(maker: &mut Maker) {
    let items = some_items(maker);
    write(maker, &items);
    maker.run_script();
    if maker.once_in(4) {
        maker.run_script();
    }
}

/// A command whose first half ends one script and whose second half begins the next.
fn halves(maker: &mut Maker) {
    maker.calm();
    maker.settle();
    let calls = maker.rehearse(|maker| {
        let (code, address) = (maker.pick(&[0, 1, 3, 5, 0x21]), maker.address());
        maker.point(code, address);
        maker.access();
    });
    let items = all(calls);
    let (first, second) = items.split_at(1);
    for part in [first, second] {
        write(maker, part);
        maker.run_script();
    }
}

/// No byte at all, or a version and nothing else.
fn no_items(maker: &mut Maker) {
    let length = maker.pick(&[0, 1, 1]);
    maker.length(SCRIPT, length);
    let version = maker.pick(&[VERSION, VERSION, VERSION, 0, 2]);
    maker.poke(SCRIPT, 0, version);
    run_with_any(maker);
    maker.calm();
    refusals::base(maker);
    maker.run_script();
    maker.calm();
}

/// A script is never recorded.
fn never_recorded(maker: &mut Maker) {
    beside_the_tape(maker, |maker| {
        if maker.once_in(3) {
            stopped::episode(maker);
        } else {
            whole(maker);
        }
    });
}

/// Calls that are never recorded, whether the tape has room or not. Recorded calls lie around them,
/// and a step back goes over those alone.
pub fn beside_the_tape(maker: &mut Maker, calls: impl FnOnce(&mut Maker)) {
    let recorded = maker.machine.recorded;
    if tape::capacity(maker) < maker.machine.count.saturating_add(100) {
        tape::rewind(maker);
    }
    maker.recorded(true);
    maker.frame();
    maker.status();
    let (count, no_room) = (maker.machine.count, maker.once_in(2));
    if no_room {
        let wrong = tape::capacity(maker) + maker.below(2);
        maker.count(wrong);
    }
    calls(maker);
    if no_room {
        maker.count(count);
    }
    tape::back(maker);
    maker.recorded(recorded);
}
