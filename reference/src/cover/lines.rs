//! Counts of the drawing rules: planes, window, scroll, sprites, what is in front, and pattern rows.

use super::{names, Before, Tally};
use crate::planes::{self, Dot, Plane, View};
use crate::replay::Machine;
use crate::sprites::{self, Kept, Walk};
use crate::state::State;

const FRONTS: [&str; 7] = [
    "front: high sprite",
    "front: high A",
    "front: high B",
    "front: low sprite",
    "front: low A",
    "front: low B",
    "front: backdrop",
];

const RULES: &[&str] = &[
    "blanked line",
    "line at width 320",
    "line at width 256",
    "line 223",
    "line 239",
    "window by line, above",
    "window by line, below",
    "window by column, left",
    "window by column, right",
    "window and plane A on one line",
    "window at width 256",
    "vertical scroll, whole",
    "vertical scroll, by two cells",
    "horizontal scrolls of A and B differ",
    "vertical scrolls of A and B differ",
    "window's clear pixel where plane A has a solid one",
    "line while DMA runs",
    "walk ends at link 0",
    "walk ends at a link too great",
    "walk ends at a link just too great",
    "walk goes to the last sprite",
    "walk ends after all visits",
    "walk ends by overflow",
    "as many sprites as fit on a line",
    "overflow flag set",
    "collision flag set",
    "solid pixels meet beside the screen alone",
    "flag set before stays",
    "masked sprite",
    "mask off this line ignored",
    "sprite cut short by used-up pixels",
    "sprite cut short and flipped across",
    "sprite with no pixels left",
    "sprite used up while off the screen",
    "sprite partly left of the screen",
    "sprite partly right of the screen",
    "sprite flipped across",
    "sprite flipped down",
    "sprite name turns past 2,047",
    "sprite met twice",
    "early low sprite keeps a later high one out",
    "low sprite under a high plane",
    "plane A at E000h with 4,096 cells",
    "plane B at E000h with 4,096 cells",
    "plane A shows its cell at FFFEh",
    "plane B shows its cell at FFFEh",
    "cell at FFFEh shows the pattern row at FFFCh",
    "window at its highest base, width 320",
    "window at its highest base, width 256",
    "sprite table at its highest base, width 320",
    "sprite table at its highest base, width 256",
    "walk goes to the sprite at FFF8h",
    "scroll table at FC00h, entry of line 223",
    "scroll table at FC00h, entry of line 239",
    "pattern name 2,047",
    "pattern row though the state is bad",
    "pattern row while DMA runs",
];

pub fn rules() -> Vec<String> {
    let mut rules = names(RULES);
    rules.extend(FRONTS.iter().map(|front| front.to_string()));
    rules.extend((0..4).map(|mode| format!("horizontal scroll mode {mode}")));
    rules.extend((0..8).map(|row| format!("pattern row {row}")));
    rules.extend((1..5).map(|cells| format!("sprite {cells} cells wide")));
    rules.extend((1..5).map(|cells| format!("sprite {cells} cells high")));
    for (wide, high) in [(32, 32), (32, 64), (32, 128), (64, 32), (64, 64), (128, 32)] {
        rules.push(format!("plane {wide} by {high}"));
    }
    rules
}

pub fn count(tally: &mut Tally, before: &Before, after: &Machine) {
    let machine = &before.machine;
    let Some(view) = before.shown() else {
        tally.meet("blanked line");
        return;
    };
    tally.meet_if(machine.state.running(), "line while DMA runs");
    shape(tally, &view);
    windows(tally, &view);
    let walk = sprites::walk(&view);
    walked(tally, &view, &walk);
    for kept in &walk.kept {
        kept_sprite(tally, &view, kept);
    }
    let (dots, collision) = sprites::layer(&view, &walk);
    let beside = !collision && meet_beside(&view, &walk);
    tally.meet_if(beside, "solid pixels meet beside the screen alone");
    highest(tally, &view, &walk);
    early_and_late(tally, &view, &walk);
    fronts(tally, &view, &dots);
    flags(tally, &machine.state, &after.state);
}

/// A pattern row asks for no state.
pub fn count_row(tally: &mut Tally, before: &Before) {
    let (state, command) = (&before.machine.state, &before.command);
    tally.meet(&format!("pattern row {}", command.c));
    tally.meet_if(command.b == 2_047, "pattern name 2,047");
    tally.meet_if(!state.good(), "pattern row though the state is bad");
    tally.meet_if(state.good() && state.running(), "pattern row while DMA runs");
}

fn shape(tally: &mut Tally, view: &View) {
    let registers = &view.state.registers;
    tally.meet_if(view.wide(), "line at width 320");
    tally.meet_if(!view.wide(), "line at width 256");
    tally.meet_if(view.line == 223, "line 223");
    tally.meet_if(view.line == 239, "line 239");
    tally.meet(&format!("horizontal scroll mode {}", registers[11] & 3));
    tally.meet_if(registers[11] & 4 == 0, "vertical scroll, whole");
    tally.meet_if(registers[11] & 4 != 0, "vertical scroll, by two cells");
    let scrolls = [Plane::A, Plane::B].map(|plane| planes::horizontal_scroll(view, plane));
    tally.meet_if(scrolls[0] != scrolls[1], "horizontal scrolls of A and B differ");
    let scrolls = [Plane::A, Plane::B].map(|plane| planes::vertical_scroll(view, plane, 0));
    tally.meet_if(scrolls[0] != scrolls[1], "vertical scrolls of A and B differ");
    if let Some((wide, high)) = planes::plane_size(view.state) {
        tally.meet(&format!("plane {wide} by {high}"));
    }
}

fn windows(tally: &mut Tally, view: &View) {
    let (across, down) = (view.state.registers[17], view.state.registers[18]);
    let by_line = planes::window_by_line(view);
    tally.meet_if(by_line && down < 0x80, "window by line, above");
    tally.meet_if(by_line && down >= 0x80, "window by line, below");
    let columns = (0..view.width()).filter(|x| planes::window_by_column(view, *x)).count();
    tally.meet_if(columns > 0 && across < 0x80, "window by column, left");
    tally.meet_if(columns > 0 && across >= 0x80, "window by column, right");
    let part = !by_line && columns > 0 && columns < view.width();
    tally.meet_if(part, "window and plane A on one line");
    let any = by_line || columns > 0;
    tally.meet_if(any && !view.wide(), "window at width 256");
}

fn walked(tally: &mut Tally, view: &View, walk: &Walk) {
    let all = walk.visits as usize == sprites::table_limit(view);
    tally.meet_if(walk.overflow, "walk ends by overflow");
    tally.meet_if(!walk.overflow && all, "walk ends after all visits");
    let fits = walk.kept.len() == sprites::line_limit(view);
    tally.meet_if(fits && !walk.overflow, "as many sprites as fit on a line");
    if let (Some(last), false) = (last_link(view, walk), walk.overflow || all) {
        tally.meet_if(last == 0, "walk ends at link 0");
        tally.meet_if(last != 0, "walk ends at a link too great");
        let just = last == sprites::table_limit(view);
        tally.meet_if(just, "walk ends at a link just too great");
    }
    let mut seen = Vec::new();
    for number in numbers(view, walk) {
        tally.meet_if(seen.contains(&number), "sprite met twice");
        let last = number.0 + 1 == sprites::table_limit(view);
        tally.meet_if(last, "walk goes to the last sprite");
        let off_line = !sprites::on_line(&number.1, view.line);
        tally.meet_if(off_line && number.1.x == 0, "mask off this line ignored");
        seen.push(number);
    }
}

/// Tables as far up in VRAM as they go, and the last places that a line reads of them.
fn highest(tally: &mut Tally, view: &View, walk: &Walk) {
    let top = |register: usize, bits: u8| view.state.registers[register] & bits == bits;
    let (window, table) = if view.wide() { (0x3C, 0x7E) } else { (0x3E, 0x7F) };
    let windowed = (0..view.width()).any(|x| planes::window_here(view, x));
    let rule = format!("window at its highest base, width {}", view.width());
    tally.meet_if(top(3, window) && windowed, &rule);
    let rule = format!("sprite table at its highest base, width {}", view.width());
    tally.meet_if(top(5, table), &rule);
    let last = numbers(view, walk).iter().any(|(number, _)| *number == 63);
    tally.meet_if(top(5, table) && !view.wide() && last, "walk goes to the sprite at FFF8h");
    let entry = planes::scroll_line(view.state, view.line);
    tally.meet_if(top(13, 0x3F) && entry == 223, "scroll table at FC00h, entry of line 223");
    tally.meet_if(top(13, 0x3F) && entry == 239, "scroll table at FC00h, entry of line 239");
    if top(2, 0x38) {
        highest_plane(tally, view, Plane::A);
    }
    if top(4, 0x07) {
        highest_plane(tally, view, Plane::B);
    }
}

/// A plane at E000h, on the columns that show it; with 4,096 cells its last one is at FFFEh.
fn highest_plane(tally: &mut Tally, view: &View, plane: Plane) {
    let (wide, high) = planes::plane_size(view.state).unwrap_or((32, 32));
    let h = planes::horizontal_scroll(view, plane);
    let cell = planes::take_apart(view.word(0xFFFE));
    let last_row = if cell.flip_v { 0 } else { 7 };
    let (mut shown, mut last_cell, mut last_pattern) = (false, false, false);
    for x in 0..view.width() {
        let here = wide * high == 4_096 && (plane == Plane::B || !planes::window_here(view, x));
        let (across, down) = (x + 1_024 - h, view.line + planes::vertical_scroll(view, plane, x));
        let last = across / 8 % wide == wide - 1 && down / 8 % high == high - 1;
        shown |= here;
        last_cell |= here && last;
        last_pattern |= here && last && cell.name == 2_047 && down % 8 == last_row;
    }
    tally.meet_if(shown, &format!("plane {plane:?} at E000h with 4,096 cells"));
    tally.meet_if(last_cell, &format!("plane {plane:?} shows its cell at FFFEh"));
    tally.meet_if(last_pattern, "cell at FFFEh shows the pattern row at FFFCh");
}

/// The sprites visited, each with its number.
pub fn numbers(view: &View, walk: &Walk) -> Vec<(usize, sprites::Sprite)> {
    let mut list = Vec::new();
    let mut number = 0;
    for _ in 0..walk.visits {
        let sprite = sprites::entry(view, number);
        list.push((number, sprite));
        number = sprite.link;
    }
    list
}

fn last_link(view: &View, walk: &Walk) -> Option<usize> {
    numbers(view, walk).last().map(|(_, sprite)| sprite.link)
}

fn kept_sprite(tally: &mut Tally, view: &View, kept: &Kept) {
    let sprite = &kept.sprite;
    let wide = 8 * sprite.cells_wide;
    let right = sprite.x + wide;
    let edge = 128 + view.width();
    let short = kept.columns < wide;
    tally.meet_if(kept.masked, "masked sprite");
    let cut = short && kept.columns > 0;
    tally.meet_if(cut, "sprite cut short by used-up pixels");
    tally.meet_if(cut && sprite.cell.flip_h, "sprite cut short and flipped across");
    tally.meet_if(kept.columns == 0, "sprite with no pixels left");
    let off = right <= 128 || sprite.x >= edge;
    tally.meet_if(off && kept.columns > 0, "sprite used up while off the screen");
    tally.meet_if(sprite.x < 128 && right > 128, "sprite partly left of the screen");
    tally.meet_if(sprite.x < edge && right > edge, "sprite partly right of the screen");
    let shown = !kept.masked && !off && kept.columns > 0;
    tally.meet_if(shown && sprite.cell.flip_h, "sprite flipped across");
    tally.meet_if(shown && sprite.cell.flip_v, "sprite flipped down");
    let last = usize::from(sprite.cell.name) + sprite.cells_wide * sprite.cells_high;
    tally.meet_if(shown && last > 2_048, "sprite name turns past 2,047");
    if shown {
        tally.meet(&format!("sprite {} cells wide", sprite.cells_wide));
        tally.meet(&format!("sprite {} cells high", sprite.cells_high));
    }
}

/// Do two solid pixels meet left or right of the visible columns?
fn meet_beside(view: &View, walk: &Walk) -> bool {
    let visible = 128..128 + view.width();
    let mut taken = [false; 544];
    for kept in walk.kept.iter().filter(|kept| !kept.masked) {
        for column in 0..kept.columns {
            let x = kept.sprite.x + column;
            let solid = sprites::sprite_dot(view, &kept.sprite, column).solid();
            if solid && !visible.contains(&x) && std::mem::replace(&mut taken[x], true) {
                return true;
            }
        }
    }
    false
}

/// The layers of single sprites in their order, to see which ones share a column.
pub fn single_layers(view: &View, walk: &Walk) -> Vec<Vec<Dot>> {
    let alone = |kept: &Kept| Walk { visits: 1, overflow: false, kept: vec![*kept] };
    walk.kept.iter().map(|kept| sprites::layer(view, &alone(kept)).0).collect()
}

fn early_and_late(tally: &mut Tally, view: &View, walk: &Walk) {
    let mut taken = vec![Dot::default(); view.width()];
    let mut kept_out = false;
    for layer in single_layers(view, walk) {
        for (place, dot) in taken.iter_mut().zip(layer) {
            kept_out |= place.solid() && !place.high && dot.solid() && dot.high;
            if !place.solid() {
                *place = dot;
            }
        }
    }
    tally.meet_if(kept_out, "early low sprite keeps a later high one out");
}

/// What a column has behind the sprites: plane A or the window, the one of the two that is not
/// seen there, and plane B.
#[derive(Clone, Copy)]
pub struct Behind {
    pub windowed: bool,
    pub a: Dot,
    pub unseen: Dot,
    pub b: Dot,
}

/// The planes of each column, from left to right.
pub fn behind(view: &View) -> Vec<Behind> {
    let scroll_a = planes::horizontal_scroll(view, Plane::A);
    let scroll_b = planes::horizontal_scroll(view, Plane::B);
    let column = |x| {
        let plane = planes::plane_dot(view, Plane::A, scroll_a, x);
        let window = planes::window_dot(view, x);
        let windowed = planes::window_here(view, x);
        let (a, unseen) = if windowed { (window, plane) } else { (plane, window) };
        Behind { windowed, a, unseen, b: planes::plane_dot(view, Plane::B, scroll_b, x) }
    };
    (0..view.width()).map(column).collect()
}

fn fronts(tally: &mut Tally, view: &View, dots: &[Dot]) {
    let mut met = [false; 7];
    let (mut under, mut covered) = (false, false);
    for (sprite, behind) in dots.iter().zip(behind(view)) {
        covered |= behind.windowed && !behind.a.solid() && behind.unseen.solid();
        let layers = [*sprite, behind.a, behind.b];
        met[front(layers)] = true;
        let high = layers[1..].iter().any(|dot| dot.solid() && dot.high);
        under |= sprite.solid() && !sprite.high && high;
    }
    for (name, met) in FRONTS.iter().zip(met) {
        tally.meet_if(met, name);
    }
    tally.meet_if(under, "low sprite under a high plane");
    tally.meet_if(covered, "window's clear pixel where plane A has a solid one");
}

/// The place in FRONTS of what is seen.
fn front(layers: [Dot; 3]) -> usize {
    for (high, from) in [(true, 0), (false, 3)] {
        for (place, dot) in layers.iter().enumerate() {
            if dot.solid() && dot.high == high {
                return from + place;
            }
        }
    }
    6
}

fn flags(tally: &mut Tally, then: &State, now: &State) {
    tally.meet_if(now.overflow && !then.overflow, "overflow flag set");
    tally.meet_if(now.collision && !then.collision, "collision flag set");
    tally.meet_if(then.overflow || then.collision, "flag set before stays");
}
