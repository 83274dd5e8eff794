//! Phrases of sprites with an X of 0 and of lines that use up their pixels. Two bands of sprites
//! lie apart on the screen; a line of the one and then a line of the other are drawn, with
//! something between them. Recorded, nearly all of it is done by calls, so that a book can follow.

use super::{drawing, tape, timing, Maker, CODE, USED_UP};
use crate::replay::{PIXELS, VRAM};

/// So many records have to fit before a phrase, or the tape is rewound.
const ROOM: u32 = 200;

/// Where a sprite is: at X 0, on the screen, or left or right of it.
#[derive(Clone, Copy)]
enum At {
    Zero,
    Shown,
    Left,
    Right,
}

/// A sprite for the table: its line, the bits of its width and height, its cell and its X word.
pub struct Entry {
    pub line: u32,
    pub size: u8,
    pub cell: u16,
    pub x: u16,
}

/// The first lines of the two bands, and where the table has the sprite whose width decides
/// whether a line of the first one is used up.
struct Bands {
    users: u32,
    maskers: u32,
    tuned: u16,
}

/// Bands of sprites, drawn in a few rounds.
pub fn episode(maker: &mut Maker) {
    ready(maker);
    let bands = match maker.below(8) {
        0 | 1 => chain(maker),
        2 => one_band(maker),
        _ => ring(maker),
    };
    for _ in 0..3 + maker.below(4) {
        round(maker, &bands);
    }
    if maker.machine.recorded && maker.once_in(2) {
        poked_record(maker, &bands);
    }
}

/// Lines are drawn, at either width, and words can be written to VRAM. A rewind would take back
/// what is set here, so it comes first.
pub fn ready(maker: &mut Maker) {
    let room = tape::capacity(maker).saturating_sub(maker.machine.count);
    if maker.machine.recorded && (room < ROOM || maker.once_in(2)) {
        tape::rewind(maker);
    }
    maker.calm();
    drawing::sane(maker);
    drawing::either_width(maker);
    drawing::set(maker, 15, 2);
}

fn wide(maker: &Maker) -> bool {
    maker.machine.state.registers[12] & 1 != 0
}

/// An X word; the bits above the low 9 are unused.
fn x_word(maker: &mut Maker, at: At) -> u16 {
    let columns = if wide(maker) { 320 } else { 256 };
    let inside = 128 + maker.word() % (columns - 8);
    let x = match at {
        At::Zero => 0,
        At::Shown => maker.pick(&[256, inside, inside, inside]),
        At::Left => maker.pick(&[1, 64, 96]),
        At::Right => maker.pick(&[448, 500, 511]),
    };
    let unused = maker.word() & 0xFE00;
    x | maker.pick(&[0, 0, unused])
}

/// Sprites that mask, or do not, and sprites to be seen after them.
const MASKERS: [&[At]; 14] = [
    &[At::Zero, At::Shown],
    &[At::Zero, At::Shown],
    &[At::Zero, At::Shown, At::Shown],
    &[At::Zero, At::Zero, At::Shown],
    &[At::Zero, At::Zero, At::Shown],
    &[At::Zero, At::Shown, At::Zero, At::Shown],
    &[At::Zero, At::Shown, At::Zero, At::Shown],
    &[At::Zero, At::Right, At::Zero, At::Shown],
    &[At::Zero, At::Left, At::Zero, At::Shown],
    &[At::Shown, At::Zero, At::Shown],
    &[At::Left, At::Zero, At::Shown],
    &[At::Right, At::Zero, At::Shown],
    &[At::Right, At::Left, At::Zero, At::Shown],
    &[At::Shown, At::Shown],
];

/// Width and height in cells less one, as the table has them.
pub fn size(cells_wide: u32, cells_high: u32) -> u8 {
    (4 * (cells_wide - 1) + cells_high - 1) as u8
}

/// A sprite at such a place, with a cell by chance, mostly a high one.
fn entry(maker: &mut Maker, line: u32, size: u8, at: At) -> Entry {
    let any = maker.word();
    let cell = maker.pick(&[any, any | 0x8000, any | 0x8000]);
    Entry { line, size, cell, x: x_word(maker, at) }
}

fn maskers(maker: &mut Maker, line: u32) -> Vec<Entry> {
    let mut list = Vec::new();
    for at in maker.pick(&MASKERS) {
        let size = size(1 + maker.below(4), 1 + maker.below(4));
        list.push(entry(maker, line, size, *at));
    }
    list
}

/// Sprites of these widths in cells that use up pixels: anywhere, off the screen alone, all at
/// X 0, or the second at X 0, which masks those after it.
fn users(maker: &mut Maker, line: u32, widths: &[u32]) -> Vec<Entry> {
    let sort = maker.below(4);
    let mut list = Vec::new();
    for (place, cells_wide) in widths.iter().enumerate() {
        let any = maker.pick(&[At::Zero, At::Shown, At::Shown, At::Left, At::Right]);
        let off = maker.pick(&[At::Left, At::Right]);
        let at = match (sort, place) {
            (0, _) => any,
            (1, _) => off,
            (2, _) => At::Zero,
            (_, 1) => At::Zero,
            _ => At::Shown,
        };
        let size = size(*cells_wide, 1 + maker.below(4));
        list.push(entry(maker, line, size, at));
    }
    list
}

/// The first lines of the bands, that of the users below the other one. Line 0 is common.
fn lines(maker: &mut Maker) -> (u32, u32) {
    let users = 100 + maker.below(80);
    let any = maker.below(60);
    (users, maker.pick(&[0, 0, any, any]))
}

/// As many sprites as fit on a line, met again and again: 16 pixels wide but for the first, which
/// makes it 8 pixels less than the width, just the width, or more. Then there is one too many.
fn ring(maker: &mut Maker) -> Bands {
    let (line, mask_line) = lines(maker);
    let mut entries = maskers(maker, mask_line);
    let again = entries.len() + 1;
    let widths = [1 + maker.below(4), 2, 2];
    let few = maker.pick(&[2, 3]);
    entries.extend(users(maker, line, &widths[..few]));
    let tuned = table(maker, &entries, again);
    Bands { users: line, maskers: mask_line, tuned }
}

/// Few sprites, all of them kept: some of 32 pixels, one of 16, and the first, which makes it just
/// the width if it has 16 too.
fn chain(maker: &mut Maker) -> Bands {
    let (line, mask_line) = lines(maker);
    let fours = if wide(maker) { 9 } else { 7 };
    let widths = [vec![1 + maker.below(4)], vec![4; fours], vec![2]].concat();
    let mut entries = maskers(maker, mask_line);
    entries.extend(users(maker, line, &widths));
    let tuned = table(maker, &entries, 0);
    Bands { users: line, maskers: mask_line, tuned }
}

/// All on one band: sprites at X 0 use up the pixels, and those after them have none left.
fn one_band(maker: &mut Maker) -> Bands {
    let line = maker.pick(&[0, 30, 100]);
    let fours = if wide(maker) { 10 } else { 8 };
    let mut entries = Vec::new();
    for _ in 0..fours {
        entries.push(entry(maker, line, size(4, 1), At::Zero));
    }
    for at in [At::Shown, At::Zero, At::Shown] {
        entries.push(entry(maker, line, size(2, 1), at));
    }
    let tuned = table(maker, &entries, 0);
    Bands { users: line, maskers: line, tuned }
}

/// Writes the table by the data port, each sprite linked to the next and the last one back. Gives
/// the place of the first sprite of the last band.
pub fn table(maker: &mut Maker, entries: &[Entry], back: usize) -> u16 {
    let base = drawing::sprite_base(maker) as u16;
    maker.point(1, base);
    for (number, entry) in entries.iter().enumerate() {
        let link = if number + 1 == entries.len() { back } else { number + 1 };
        let unused = maker.word() & 0xFE00;
        maker.write((128 + entry.line) as u16 | unused);
        maker.write(256 * u16::from(entry.size) + link as u16);
        maker.write(entry.cell);
        maker.write(entry.x);
    }
    let last = entries.last().map(|entry| entry.line);
    let first = entries.iter().position(|entry| Some(entry.line) == last);
    base + 8 * first.unwrap_or(0) as u16
}

/// A line of the one band, something between, a line of the other.
fn round(maker: &mut Maker, bands: &Bands) {
    by_hand(maker);
    if maker.once_in(2) {
        tune(maker, bands);
    }
    if !maker.once_in(5) {
        use_up(maker, bands);
    }
    between(maker);
    mask(maker, bands);
    if maker.machine.recorded && !maker.once_in(3) {
        back(maker, bands);
    }
}

/// A line of the band that uses up pixels, or leaves 8 of them. It may be taken back, or drawn
/// again with another width.
fn use_up(maker: &mut Maker, bands: &Bands) {
    let line = bands.users + maker.below(8);
    maker.line(line);
    if maker.machine.recorded && maker.once_in(3) {
        maker.back(1);
    } else if maker.once_in(4) {
        tune(maker, bands);
        maker.line(line);
    }
}

/// The flag by hand, but seldom where a book may follow.
fn by_hand(maker: &mut Maker) {
    let book = maker.machine.recorded && maker.machine.count != 0;
    if maker.once_in(if book { 12 } else { 3 }) {
        let set = maker.number();
        maker.field(USED_UP, 0, set);
    }
}

/// Another width for the sprite that decides.
fn tune(maker: &mut Maker, bands: &Bands) {
    let at = bands.tuned + 2;
    let link = maker.machine.vram.bytes[usize::from(at) + 1];
    let size = size(maker.pick(&[1, 1, 2, 2, 3, 4]), 1 + maker.below(4));
    if maker.machine.recorded {
        maker.point(1, at);
        maker.write(256 * u16::from(size) + u16::from(link));
    } else {
        maker.poke(VRAM, u32::from(at), size);
    }
}

/// A line of the band that masks, mostly its first one.
fn mask(maker: &mut Maker, bands: &Bands) {
    let any = maker.below(8);
    let line = bands.maskers + maker.pick(&[0, 0, any]);
    maker.line(line);
}

/// What may clear the flag, and what leaves it.
fn between(maker: &mut Maker) {
    match maker.below(11) {
        0 | 1 => blanked(maker),
        2 | 3 => maker.frame(),
        4 | 5 => maker.status(),
        6 | 7 => refused(maker),
        8 => timing::call(maker),
        9 => maker.access(),
        _ => (),
    }
    if maker.once_in(3) {
        maker.digests();
    }
}

/// Register 1 bit 6 cleared, a line, which may be taken back, and the bit set again.
pub fn blanked(maker: &mut Maker) {
    let mode = maker.machine.state.registers[1];
    drawing::set(maker, 1, mode & !0x40);
    let line = maker.below(224);
    maker.line(line);
    if maker.machine.recorded && maker.once_in(3) {
        maker.back(1);
    }
    drawing::set(maker, 1, mode);
}

/// A line with another value in a register, which is then as it was.
pub fn line_with(maker: &mut Maker, register: u16, value: u8, line: u32) {
    let old = maker.machine.state.registers[usize::from(register)];
    drawing::set(maker, register, value);
    maker.line(line);
    drawing::set(maker, register, old);
}

/// A line that is refused; its pixels and the state stay.
pub fn refused(maker: &mut Maker) {
    let line = maker.below(224);
    match maker.below(5) {
        0 => {
            let code = maker.machine.state.code;
            maker.field(CODE, 0, 64);
            maker.line(line);
            maker.field(CODE, 0, u32::from(code));
        }
        1 => {
            maker.length(PIXELS, 319);
            maker.line(line);
            maker.length(PIXELS, 320);
        }
        2 => line_with(maker, 16, 0x02, line),
        3 if maker.machine.recorded => {
            let count = maker.machine.count;
            let wrong = tape::capacity(maker) + maker.below(2);
            maker.count(wrong);
            maker.line(line);
            maker.count(count);
        }
        _ => {
            let beyond = maker.pick(&[240, 256, u32::MAX]);
            maker.line(beyond);
        }
    }
}

/// Over one line or a few steps, and the line again.
fn back(maker: &mut Maker, bands: &Bands) {
    let steps = maker.pick(&[1, 1, 1, 2, 2, 3, 5]);
    maker.back(steps.min(maker.machine.count));
    mask(maker, bands);
}

/// Bytes for the record of a line: of other versions, with what those held or with more, and the
/// flags up to their greatest and just past it.
const POKES: [&[(u32, u8)]; 16] = [
    &[(0, 1)],
    &[(0, 1), (20, 0), (21, 0), (22, 0), (23, 0), (24, 0)],
    &[(0, 2)],
    &[(0, 2), (20, 0)],
    &[(0, 2), (20, 3)],
    &[(0, 4)],
    &[(20, 0)],
    &[(20, 3)],
    &[(20, 4)],
    &[(20, 5)],
    &[(20, 6)],
    &[(20, 7)],
    &[(20, 8)],
    &[(20, 12)],
    &[(20, 0x80)],
    &[(20, 0xFF)],
];

/// Recorded lines whose records are changed by hand, each with a step back over it and a line
/// that shows the flag.
fn poked_record(maker: &mut Maker, bands: &Bands) {
    for _ in 0..3 {
        mask(maker, bands);
        if !tape::poked_back(maker, &POKES) {
            return;
        }
        mask(maker, bands);
    }
}
