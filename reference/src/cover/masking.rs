//! Counts of what sprites with an X of 0 mask on a line (definition, Sprites: what shows). Where a
//! rule says that a sprite masks or that one shows, the line would have other pixels if not.

use super::lines::numbers;
use super::{at_both_widths, at_width, Before, Tally};
use crate::draw;
use crate::planes::View;
use crate::sprites::{self, Kept, Walk};
use crate::state::State;

const RULES: &[&str] = &[
    "X 0 first, used up clear: a later sprite shows",
    "X 0 first, used up set: it masks",
    "X 0 first on line 0, used up clear: a later sprite shows",
    "X 0 first on line 0, used up set: it masks",
    "two X 0 first, used up clear: a later sprite shows",
    "two X 0 first, used up set: the first masks",
    "X 0 after another X, used up clear: it masks",
    "X 0 after another X, used up set: it masks",
    "X 0 first and again after another X, used up clear: the later one masks",
    "X 0 after no other X but ones left of the screen: it masks",
    "X 0 after no other X but ones right of the screen: it masks",
    "X 0 with higher bits in its word: it masks",
    "X 0 after no other X but masked ones",
    "X 0 after no other X but ones without pixels left",
    "X 0 that is not kept",
];

pub fn rules() -> Vec<String> {
    at_both_widths(RULES)
}

pub fn count(tally: &mut Tally, before: &Before) {
    let Some(view) = before.shown() else {
        return;
    };
    let walk = sprites::walk(&view);
    let facts = [first(&view, &walk), later(&view, &walk), unseen(&view, &walk)];
    for (holds, rule) in facts.concat() {
        tally.meet_if(holds, &at_width(rule, view.width()));
    }
}

type Facts = Vec<(bool, &'static str)>;

/// What the first sprite kept does if its X is 0.
fn first(view: &View, walk: &Walk) -> Facts {
    let zeros = walk.kept.iter().take_while(|kept| kept.sprite.x == 0).count();
    let shows = decides(view, walk);
    let (set, clear) = (shows && view.state.used_up, shows && !view.state.used_up);
    let line_0 = view.line == 0;
    vec![
        (clear, "X 0 first, used up clear: a later sprite shows"),
        (set, "X 0 first, used up set: it masks"),
        (clear && line_0, "X 0 first on line 0, used up clear: a later sprite shows"),
        (set && line_0, "X 0 first on line 0, used up set: it masks"),
        (clear && zeros >= 2, "two X 0 first, used up clear: a later sprite shows"),
        (set && zeros >= 2, "two X 0 first, used up set: the first masks"),
    ]
}

/// Would the pixels be others with used up the other way? Only an X 0 that is first asks for it.
pub fn decides(view: &View, walk: &Walk) -> bool {
    let state = State { used_up: !view.state.used_up, ..view.state.clone() };
    let other = sprites::walk(&View { state: &state, ..*view });
    walk.kept.first().is_some_and(|kept| kept.sprite.x == 0) && differ(view, walk, &other)
}

fn differ(view: &View, one: &Walk, other: &Walk) -> bool {
    draw::mixed(view, one).pixels != draw::mixed(view, other).pixels
}

/// What the first sprite that masks does, if another X came before it or its word has more bits.
fn later(view: &View, walk: &Walk) -> Facts {
    let mut masks = (0..walk.kept.len()).filter(|place| sprites::masks(view, &walk.kept, *place));
    let Some(place) = masks.next() else {
        return Vec::new();
    };
    let all = walk.kept.iter().map(|kept| Kept { masked: false, ..*kept });
    let unmasked = Walk { kept: all.collect(), ..walk.clone() };
    let shows = differ(view, walk, &unmasked);
    let others = others(walk, place);
    let after = shows && !others.is_empty();
    let (set, clear) = (after && view.state.used_up, after && !view.state.used_up);
    let again = clear && walk.kept[0].sprite.x == 0;
    let left = clear && others.iter().all(|kept| right_end(kept) <= 128);
    let right = clear && others.iter().all(|kept| kept.sprite.x >= 128 + view.width());
    let higher = shows && word_of_x(view, walk, place) > 0x1FF;
    vec![
        (clear, "X 0 after another X, used up clear: it masks"),
        (set, "X 0 after another X, used up set: it masks"),
        (again, "X 0 first and again after another X, used up clear: the later one masks"),
        (left, "X 0 after no other X but ones left of the screen: it masks"),
        (right, "X 0 after no other X but ones right of the screen: it masks"),
        (higher, "X 0 with higher bits in its word: it masks"),
    ]
}

/// Those kept before this place that have another X.
fn others(walk: &Walk, place: usize) -> Vec<&Kept> {
    walk.kept[..place].iter().filter(|kept| kept.sprite.x != 0).collect()
}

fn right_end(kept: &Kept) -> usize {
    kept.sprite.x + 8 * kept.sprite.cells_wide
}

/// All 16 bits of the word that the X of a kept sprite is in.
fn word_of_x(view: &View, walk: &Walk, place: usize) -> u16 {
    let mut on_line = numbers(view, walk);
    on_line.retain(|(_, sprite)| sprites::on_line(sprite, view.line));
    view.word(sprites::place(view, on_line[place].0) + 6)
}

/// What can make no difference to the pixels: those after such a sprite show nothing anyhow.
fn unseen(view: &View, walk: &Walk) -> Facts {
    let after = |holds: fn(&Kept) -> bool| {
        let mut zeros = (0..walk.kept.len()).filter(|place| walk.kept[*place].sprite.x == 0);
        zeros.any(|place| {
            let others = others(walk, place);
            !others.is_empty() && others.iter().all(|kept| holds(kept))
        })
    };
    let last = numbers(view, walk).pop();
    let not_kept = walk.overflow && last.is_some_and(|(_, sprite)| sprite.x == 0);
    vec![
        (after(|kept| kept.masked), "X 0 after no other X but masked ones"),
        (after(|kept| kept.columns == 0), "X 0 after no other X but ones without pixels left"),
        (not_kept, "X 0 that is not kept"),
    ]
}

#[cfg(test)]
pub mod tests {
    use super::*;
    use crate::cover::tests::met_by;
    use crate::replay::{Command, VRAM};

    /// Commands for a screen of 320 pixels, with the sprite table at 8000h and VRAM all 11h but for
    /// these sprites: Y, X and width in cells. Each is linked to the next.
    pub fn screen(sprites: &[(u8, u16, u8)]) -> Vec<Command> {
        let mut commands = vec![Command { op: 39, a: 0x11, b: VRAM, c: 0 }];
        for word in [0x8004, 0x8144, 0x8540, 0x8C81, 0x8730] {
            commands.push(Command { op: 1, a: 0, b: word, c: 0 });
        }
        for (number, (y, x, cells)) in sprites.iter().enumerate() {
            let link = if number + 1 == sprites.len() { 0 } else { number as u8 + 1 };
            let ([x1, x0], size) = (x.to_be_bytes(), 4 * (cells - 1));
            for (place, byte) in [0, *y, size, link, 0xE0, 0, x1, x0].iter().enumerate() {
                let at = 0x8000 + 8 * number + place;
                commands.push(Command { op: 34, a: *byte, b: VRAM, c: at as u32 });
            }
        }
        commands
    }

    /// Which of this file's rules line 1 meets with these sprites on it, with used up as told.
    fn met(used_up: u32, sprites: &[(u16, u8)]) -> Vec<String> {
        let sprites: Vec<_> = sprites.iter().map(|(x, cells)| (128, *x, *cells)).collect();
        let mut commands = screen(&sprites);
        commands.push(Command { op: 32, a: 17, b: 0, c: used_up });
        commands.push(Command { op: 8, a: 0, b: 0, c: 1 });
        met_by(rules(), &commands)
    }

    fn wide(list: &[&str]) -> Vec<String> {
        list.iter().map(|rule| at_width(rule, 320)).collect()
    }

    #[test]
    fn an_x_0_that_is_first() {
        let (clear, set) = (RULES[0], RULES[1]);
        assert_eq!(met(0, &[(0, 1), (200, 1)]), wide(&[clear]));
        assert_eq!(met(1, &[(0, 1), (200, 1)]), wide(&[set]));
        // A sprite that is off the screen shows nothing.
        assert_eq!(met(0, &[(0, 1), (20, 1)]), wide(&[]));
        assert_eq!(met(1, &[(0, 1), (20, 1)]), wide(&[]));
        let two = [(0, 1), (0, 1), (200, 1)];
        assert_eq!(
            met(0, &two),
            wide(&[clear, "two X 0 first, used up clear: a later sprite shows"])
        );
        assert_eq!(met(1, &two), wide(&[set, "two X 0 first, used up set: the first masks"]));
    }

    #[test]
    fn an_x_0_after_another_x() {
        let clear = "X 0 after another X, used up clear: it masks";
        assert_eq!(met(0, &[(150, 1), (0, 1), (200, 1)]), wide(&[clear]));
        assert_eq!(met(0, &[(150, 1), (0, 1), (20, 1)]), wide(&[]));
        let set = "X 0 after another X, used up set: it masks";
        assert_eq!(met(1, &[(150, 1), (0, 1), (200, 1)]), wide(&[set]));
        let left = "X 0 after no other X but ones left of the screen: it masks";
        assert_eq!(met(0, &[(96, 4), (0, 1), (200, 1)]), wide(&[clear, left]));
        assert_eq!(met(0, &[(97, 4), (0, 1), (200, 1)]), wide(&[clear]));
        let right = "X 0 after no other X but ones right of the screen: it masks";
        assert_eq!(met(0, &[(448, 4), (0, 1), (200, 1)]), wide(&[clear, right]));
        let higher = "X 0 with higher bits in its word: it masks";
        assert_eq!(met(0, &[(150, 1), (512, 1), (200, 1)]), wide(&[clear, higher]));
    }

    /// Ten sprites of 32 pixels leave none for another X.
    #[test]
    fn another_x_that_is_masked_or_has_no_pixels() {
        let masked = "X 0 after no other X but masked ones";
        let row = [(0, 1), (150, 1), (0, 1), (200, 1)];
        assert_eq!(met(1, &row), wide(&[RULES[1], masked]));
        let row = [vec![(0, 4); 10], vec![(150, 1), (0, 1), (200, 1)]].concat();
        assert_eq!(met(0, &row), wide(&["X 0 after no other X but ones without pixels left"]));
        let row = [vec![(200, 1); 20], vec![(0, 1)]].concat();
        assert_eq!(met(0, &row), wide(&["X 0 that is not kept"]));
    }
}
