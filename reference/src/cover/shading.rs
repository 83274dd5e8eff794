//! Counts of shadow and highlight (definition, Shadow and highlight). A rule is told by what lies
//! on a column, not by what is shown there: whose cells are high, and which pixels are solid.

use std::collections::BTreeSet;

use super::columns::{columns, operator, Column};
use super::{at_both_widths, at_width, Before, Tally};
use crate::answer::{Answer, NOT_MODELLED};
use crate::draw;
use crate::planes::Dot;
use crate::replay::Machine;
use crate::state::State;

/// The name of a rule, and whether a column meets it.
type Rule = (&'static str, fn(&Column) -> bool);

/// Columns without a sprite.
const NO_SPRITE: &[Rule] = &[
    ("backdrop, all cells low", |on| on.clear() && on.low()),
    ("backdrop, a clear high cell of A alone", |on| on.clear() && on.high_cell_of_a_alone()),
    ("backdrop, a clear high cell of B alone", |on| on.clear() && on.high_cell_of_b_alone()),
    ("backdrop, clear high cells of both", |on| on.clear() && on.behind.a.high && on.behind.b.high),
    ("pixel of A, all cells low", |on| on.pixel_of_a_alone() && on.low()),
    ("low pixel of A, a clear high cell of B", |on| {
        on.pixel_of_a_alone() && on.high_cell_of_b_alone()
    }),
    ("high pixel of A", |on| on.pixel_of_a_alone() && on.high_cell_of_a_alone()),
    ("pixel of B, all cells low", |on| on.pixel_of_b_alone() && on.low()),
    ("low pixel of B, a clear high cell of A", |on| {
        on.pixel_of_b_alone() && on.high_cell_of_a_alone()
    }),
    ("high pixel of B", |on| on.pixel_of_b_alone() && on.high_cell_of_b_alone()),
    ("low pixels of both", |on| on.behind.a.solid() && on.behind.b.solid() && on.low()),
    ("low pixel of A, high pixel of B", |on| on.behind.a.solid() && on.high_pixel_of_b_alone()),
    ("clear low cell, the unseen one high", |on| on.clear() && on.low() && on.behind.unseen.high),
    ("clear high cell, the unseen one low", |on| {
        on.clear() && on.high_cell_of_a_alone() && !on.behind.unseen.high
    }),
];

/// Columns whose first sprite is an operator.
const OPERATOR: &[Rule] = &[
    ("over the backdrop, all cells low", |on| on.clear() && on.low()),
    ("over the backdrop, a clear high cell", |on| on.clear() && !on.low()),
    ("over a plane pixel, all cells low", |on| !on.clear() && on.low()),
    ("over a low plane pixel, a clear high cell", |on| {
        !on.clear() && !on.low() && on.no_high_pixel()
    }),
    ("low at a clear pixel of a high cell of A", |on| {
        on.first_is_low() && on.no_high_pixel() && on.high_cell_of_a_alone()
    }),
    ("low at a clear pixel of a high cell of B", |on| {
        on.first_is_low() && on.no_high_pixel() && on.high_cell_of_b_alone()
    }),
    ("low behind a high pixel of A", |on| on.first_is_low() && on.high_pixel_of_a_alone()),
    ("low behind a high pixel of B", |on| on.first_is_low() && on.high_pixel_of_b_alone()),
    ("high over a high pixel of A", |on| !on.first_is_low() && on.high_pixel_of_a_alone()),
    ("high over a high pixel of B", |on| !on.first_is_low() && on.high_pixel_of_b_alone()),
    ("before a later sprite's pixel", |on| on.later_sprite()),
];

/// Columns with an operator that is not the first sprite.
const BEHIND_EARLIER: &str = "behind an earlier sprite's pixel";

/// Columns whose first sprite is another one, or bit 3 is clear.
const SPRITE: &[Rule] = &[
    ("all cells low", |on| on.low()),
    ("a clear high cell and no high pixel", |on| !on.low() && on.no_high_pixel()),
    ("a high pixel of A", |on| on.high_pixel_of_a_alone()),
    ("a high pixel of B", |on| on.high_pixel_of_b_alone()),
];

/// The sprites that are no operators, told apart by priority and index.
const OTHERS: [&str; 6] = [
    "high sprite",
    "low sprite 0Eh",
    "low sprite 1Eh",
    "low sprite 2Eh",
    "low sprite 0Fh, 1Fh or 2Fh",
    "low sprite of no such index",
];

/// An index that is an operator in sprites; its name; its name where it is the backdrop's or a
/// plane's; and the rules for these.
type Index = (u8, &'static str, &'static str, &'static [Rule]);

const INDEXES: [Index; 2] = [
    (0x3E, "3Eh", "no sprite, index 3Eh", &of_index::<0x3E>()),
    (0x3F, "3Fh", "no sprite, index 3Fh", &of_index::<0x3F>()),
];

const fn of_index<const INDEX: u8>() -> [Rule; 6] {
    [
        ("backdrop, all cells low", |on| on.backdrop == INDEX && on.clear() && on.low()),
        ("backdrop, a clear high cell", |on| on.backdrop == INDEX && on.clear() && !on.low()),
        ("pixel of A, all cells low", |on| {
            on.behind.a.index() == INDEX && on.pixel_of_a_alone() && on.low()
        }),
        ("pixel of A, a high cell", |on| {
            on.behind.a.index() == INDEX && on.pixel_of_a_alone() && !on.low()
        }),
        ("pixel of B, all cells low", |on| {
            on.behind.b.index() == INDEX && on.pixel_of_b_alone() && on.low()
        }),
        ("pixel of B, a high cell", |on| {
            on.behind.b.index() == INDEX && on.pixel_of_b_alone() && !on.low()
        }),
    ]
}

/// Rules of whole lines.
const LINES: &[&str] = &[
    "bit 3 set: collision of operators alone",
    "bit 3 set: collision that would not be without operators",
    "bit 3 set: blanked line",
    "bit 3 set: recorded line",
    "bit 3 set: refused for bit 2 alone",
    "bit 3 set: refused for bit 1 alone",
];

/// What a rule speaks of, and the rule.
type Name = (&'static str, &'static str);

pub fn rules() -> Vec<String> {
    let mut shaded = named("no sprite", NO_SPRITE);
    let mut plain = Vec::new();
    for (_, name, on_planes, rules) in INDEXES {
        shaded.extend(named(on_planes, rules));
        shaded.extend(named(name, OPERATOR));
        shaded.push((name, BEHIND_EARLIER));
        plain.extend(named(name, SPRITE));
    }
    for other in OTHERS {
        shaded.extend(named(other, SPRITE));
    }
    let mut list: Vec<String> = LINES.iter().map(|rule| rule.to_string()).collect();
    for windowed in [false, true] {
        list.extend(shaded.iter().map(|name| full_name(true, windowed, *name)));
        list.extend(plain.iter().map(|name| full_name(false, windowed, *name)));
    }
    at_both_widths(&list.iter().map(String::as_str).collect::<Vec<_>>())
}

fn named(of: &'static str, rules: &'static [Rule]) -> Vec<Name> {
    rules.iter().map(|(rule, _)| (of, *rule)).collect()
}

fn full_name(shaded: bool, windowed: bool, (of, rule): Name) -> String {
    let bit = if shaded { "set" } else { "clear" };
    let place = if windowed { "window" } else { "plane A" };
    format!("bit 3 {bit}: {of}: {rule}, {place}")
}

fn bit_3(state: &State) -> bool {
    state.registers[12] & 0x08 != 0
}

pub fn count(tally: &mut Tally, before: &Before, after: &Machine) {
    let Some(view) = before.view() else {
        return;
    };
    let (width, shaded) = (view.width(), bit_3(view.state));
    tally.meet_if(shaded && before.taped(), &at_width("bit 3 set: recorded line", width));
    if before.shown().is_none() {
        tally.meet_if(shaded, &at_width("bit 3 set: blanked line", width));
        return;
    }
    let columns = columns(&view);
    for (windowed, name) in met(&columns, shaded) {
        tally.meet(&at_width(&full_name(shaded, windowed, name), width));
    }
    if shaded && after.state.collision && !view.state.collision {
        collided(tally, &columns, width);
    }
}

/// A line with bit 3 set that would be drawn but for register 12 bit 2, or bit 1.
pub fn count_refused(tally: &mut Tally, before: &Before, number: Answer) {
    let line = before.command.op == 8 && number == NOT_MODELLED;
    let Some(view) = before.view().filter(|view| line && bit_3(view.state)) else {
        return;
    };
    let mut mended = view.state.clone();
    mended.registers[12] &= !0x06;
    let alone = draw::not_modelled(&mended).is_none();
    let (bits, width) = (view.state.registers[12] & 0x06, view.width());
    tally.meet_if(alone && bits == 4, &at_width("bit 3 set: refused for bit 2 alone", width));
    tally.meet_if(alone && bits == 2, &at_width("bit 3 set: refused for bit 1 alone", width));
}

/// What the columns of a line meet, each rule once.
fn met(columns: &[Column], shaded: bool) -> BTreeSet<(bool, Name)> {
    let mut met = BTreeSet::new();
    for column in columns {
        let names = if shaded { of_shaded(column) } else { of_plain(column) };
        met.extend(names.into_iter().map(|name| (column.behind.windowed, name)));
    }
    met
}

/// With bit 3 clear only what would be an operator is of interest.
fn of_plain(column: &Column) -> Vec<Name> {
    let first = column.sprites.first().and_then(|sprite| operator_name(*sprite));
    first.map_or(Vec::new(), |name| that_hold(name, SPRITE, column))
}

fn of_shaded(column: &Column) -> Vec<Name> {
    let Some(first) = column.sprites.first() else {
        let mut names = that_hold("no sprite", NO_SPRITE, column);
        for (_, _, on_planes, rules) in INDEXES {
            names.extend(that_hold(on_planes, rules, column));
        }
        return names;
    };
    if let Some(name) = operator_name(*first) {
        return that_hold(name, OPERATOR, column);
    }
    let mut names = that_hold(OTHERS[other(*first)], SPRITE, column);
    let later = column.sprites.iter().filter_map(|sprite| operator_name(*sprite));
    names.extend(later.map(|name| (name, BEHIND_EARLIER)));
    names
}

fn that_hold(of: &'static str, rules: &[Rule], column: &Column) -> Vec<Name> {
    rules.iter().filter(|(_, holds)| holds(column)).map(|(rule, _)| (of, *rule)).collect()
}

fn operator_name(sprite: Dot) -> Option<&'static str> {
    INDEXES.iter().find(|(index, ..)| *index == sprite.index()).map(|(_, name, ..)| *name)
}

/// The place in OTHERS of a sprite that is no operator.
fn other(sprite: Dot) -> usize {
    match (sprite.high, sprite.pixel, sprite.palette) {
        (true, _, _) => 0,
        (_, 14, palette) => 1 + usize::from(palette),
        (_, 15, _) => 4,
        _ => 5,
    }
}

/// The line set the flag: did only operators meet, and would the flag be set without them?
fn collided(tally: &mut Tally, columns: &[Column], width: usize) {
    let others =
        |column: &Column| column.sprites.iter().filter(|sprite| !operator(**sprite)).count();
    let mut shared = columns.iter().filter(|column| column.sprites.len() > 1);
    let alone = shared.all(|column| others(column) == 0);
    tally.meet_if(alone, &at_width("bit 3 set: collision of operators alone", width));
    let needed = columns.iter().all(|column| others(column) < 2);
    let rule = "bit 3 set: collision that would not be without operators";
    tally.meet_if(needed, &at_width(rule, width));
}

#[cfg(test)]
mod tests {
    use super::*;
    use crate::cover::masking::tests::screen;
    use crate::cover::tests::met_by;
    use crate::replay::{Command, VRAM};

    /// Register 12, and a byte for all of VRAM. With 11h all cells are low and all pixels solid;
    /// with 80h all cells are high, and every second pixel is clear.
    type Setting = (u8, u8);

    const LOW: Setting = (0x89, 0x11);
    const HIGH: Setting = (0x89, 0x80);

    /// Which of this file's rules line 1 meets, without their width, with sprites at these X that
    /// are high and have four times this byte on that line. The registers are set last.
    fn met(
        setting: Setting,
        (byte, places): (u8, &[u16]),
        registers: &[(u16, u32)],
    ) -> Vec<String> {
        let sprites: Vec<_> = places.iter().map(|x| (128, *x, 1)).collect();
        let mut commands = screen(if sprites.is_empty() { &[(0, 0, 1)] } else { &sprites });
        commands.insert(1, Command { op: 39, a: setting.1, b: VRAM, c: 0 });
        for at in 4..8 {
            commands.push(Command { op: 34, a: byte, b: VRAM, c: at });
        }
        let tables = [(2, 0x08), (4, 0x02), (3, 0x30), (13, 0x18), (12, u32::from(setting.0))];
        for (register, value) in tables.iter().chain(registers) {
            commands.push(Command { op: 32, a: 0, b: *register, c: *value });
        }
        commands.push(Command { op: 8, a: 0, b: 0, c: 1 });
        let width = if setting.0 & 1 != 0 { ", width 320" } else { ", width 256" };
        let met = met_by(rules(), &commands);
        met.iter().map(|rule| rule.strip_suffix(width).unwrap_or("").to_string()).collect()
    }

    const BOTH_LOW: &str = "bit 3 set: no sprite: low pixels of both, plane A";
    const BOTH_HIGH: &str = "bit 3 set: no sprite: backdrop, clear high cells of both, plane A";

    #[test]
    fn columns_without_a_sprite() {
        assert_eq!(met(LOW, (0, &[]), &[]), [BOTH_LOW]);
        assert_eq!(met((0x08, 0x11), (0, &[]), &[]), [BOTH_LOW]);
        assert_eq!(met((0x81, 0x11), (0, &[]), &[]), [""; 0]);
        assert_eq!(met(HIGH, (0, &[]), &[]), [BOTH_HIGH]);
        let index = "bit 3 set: no sprite, index 3Fh: backdrop, a clear high cell, plane A";
        assert_eq!(met(HIGH, (0, &[]), &[(7, 0xBF)]), [BOTH_HIGH, index]);
        let window = "bit 3 set: no sprite: low pixels of both, window";
        assert_eq!(met(LOW, (0, &[]), &[(17, 0x1F)]), [window]);
        assert_eq!(met(LOW, (0, &[]), &[(17, 0x01)]), [BOTH_LOW, window]);
    }

    #[test]
    fn columns_with_an_operator() {
        let shadow = "bit 3 set: 3Eh: over a plane pixel, all cells low, plane A";
        assert_eq!(met(LOW, (0xEE, &[200]), &[]), [BOTH_LOW, shadow]);
        let plain = "bit 3 clear: 3Eh: all cells low, plane A";
        assert_eq!(met((0x00, 0x11), (0xEE, &[200]), &[]), [plain]);
        let highlight = "bit 3 set: 3Fh: over the backdrop, a clear high cell, plane A";
        assert_eq!(met(HIGH, (0xFF, &[200]), &[]), [BOTH_HIGH, highlight]);
        let other = "bit 3 set: high sprite: all cells low, plane A";
        assert_eq!(met(LOW, (0xDD, &[200]), &[]), [BOTH_LOW, other]);
    }

    #[test]
    fn a_collision_of_operators() {
        let shadow = "bit 3 set: 3Eh: over a plane pixel, all cells low, plane A";
        let two = (0xEE, [200, 204].as_slice());
        assert_eq!(met(LOW, two, &[]), [LINES[0], LINES[1], BOTH_LOW, shadow]);
        let other = "bit 3 set: high sprite: all cells low, plane A";
        assert_eq!(met(LOW, (0x77, two.1), &[]), [BOTH_LOW, other]);
        // Every second pixel is an operator, and it meets the other one, at an odd distance.
        let met = met(LOW, (0x7E, &[200, 205]), &[]);
        assert!(!met.contains(&LINES[0].to_string()) && met.contains(&LINES[1].to_string()));
    }

    #[test]
    fn lines_that_are_blanked_or_refused() {
        assert_eq!(met(LOW, (0xEE, &[200]), &[(1, 0x04)]), ["bit 3 set: blanked line"]);
        assert_eq!(met((0x81, 0x11), (0xEE, &[200]), &[(1, 0x04)]), [""; 0]);
        let refused = "bit 3 set: refused for bit 1 alone";
        assert_eq!(met((0x8B, 0x11), (0xEE, &[200]), &[]), [refused]);
        assert_eq!(met((0x0A, 0x11), (0xEE, &[200]), &[(1, 0x04)]), [refused]);
        for (register_12, register_16) in [(0x8F, 0x00), (0x83, 0x00), (0x8B, 0x02), (0x0B, 0x00)] {
            assert_eq!(met((register_12, 0x11), (0xEE, &[200]), &[(16, register_16)]), [""; 0]);
        }
    }
}
