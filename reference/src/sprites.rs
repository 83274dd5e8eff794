//! The sprite walk and the sprites' pixels on one line (definition, Drawing; notes s15).

use crate::pattern;
use crate::planes::{take_apart, CellWord, Dot, View};

/// An entry of the sprite table; `x` and `y` as stored, 128 more than on the screen.
#[derive(Clone, Copy, Debug, PartialEq, Eq)]
pub struct Sprite {
    pub y: usize,
    pub cells_wide: usize,
    pub cells_high: usize,
    pub link: usize,
    pub cell: CellWord,
    pub x: usize,
}

/// A sprite kept on the line, with the columns it was granted; a masked one shows none of them.
#[derive(Clone, Copy, Debug, PartialEq, Eq)]
pub struct Kept {
    pub sprite: Sprite,
    pub columns: usize,
    pub masked: bool,
}

#[derive(Clone, Debug, Default)]
pub struct Walk {
    pub visits: u32,
    pub overflow: bool,
    pub kept: Vec<Kept>,
}

/// Sprites in the table: also the most visits, and the first link that ends the walk.
pub fn table_limit(view: &View) -> usize {
    if view.wide() {
        80
    } else {
        64
    }
}

/// The most sprites on one line.
pub fn line_limit(view: &View) -> usize {
    if view.wide() {
        20
    } else {
        16
    }
}

/// Where the table has a sprite.
pub fn place(view: &View, number: usize) -> usize {
    let mask = if view.wide() { 0x7E } else { 0x7F };
    view.base(5, mask, 9) + 8 * number
}

pub fn entry(view: &View, number: usize) -> Sprite {
    let at = place(view, number);
    let size = usize::from(view.byte(at + 2));
    Sprite {
        y: usize::from(view.word(at) & 0x1FF),
        cells_wide: 1 + (size >> 2) % 4,
        cells_high: 1 + size % 4,
        link: usize::from(view.byte(at + 3) & 0x7F),
        cell: take_apart(view.word(at + 4)),
        x: usize::from(view.word(at + 6) & 0x1FF),
    }
}

/// Both sides are 128 more than on the screen, so nothing goes below zero.
pub fn on_line(sprite: &Sprite, line: usize) -> bool {
    let line = line + 128;
    sprite.y <= line && line < sprite.y + 8 * sprite.cells_high
}

/// Follows the links. In a visit: count it, the line and its limit, the visits, the link.
pub fn walk(view: &View) -> Walk {
    let mut walk = Walk::default();
    let mut number = 0;
    loop {
        walk.visits += 1;
        let sprite = entry(view, number);
        if on_line(&sprite, view.line) {
            if walk.kept.len() == line_limit(view) {
                walk.overflow = true;
                break;
            }
            walk.kept.push(keep(view, &walk.kept, sprite));
        }
        let last = walk.visits as usize == table_limit(view);
        if last || sprite.link == 0 || sprite.link >= table_limit(view) {
            break;
        }
        number = sprite.link;
    }
    walk
}

/// A sprite that is kept after these (definition, Sprites: what shows).
fn keep(view: &View, earlier: &[Kept], sprite: Sprite) -> Kept {
    let left = view.width().saturating_sub(widths(earlier));
    let masked = (0..earlier.len()).any(|place| masks(view, earlier, place));
    Kept { sprite, columns: left.min(8 * sprite.cells_wide), masked }
}

/// What these sprites ask of a line's pixels; masked ones and those off the screen ask as much.
pub fn widths(kept: &[Kept]) -> usize {
    kept.iter().map(|kept| 8 * kept.sprite.cells_wide).sum()
}

/// Does the sprite at this place mask those kept after it? Its X has to be 0, and either "one kept
/// before it has another X" or "used up was set as the line began".
pub fn masks(view: &View, kept: &[Kept], place: usize) -> bool {
    let another_x = kept[..place].iter().any(|earlier| earlier.sprite.x != 0);
    kept[place].sprite.x == 0 && (another_x || view.state.used_up)
}

/// Have the sprites kept on the line used up its pixels, to the last one or beyond?
pub fn use_up(view: &View, walk: &Walk) -> bool {
    widths(&walk.kept) >= view.width()
}

/// The sprite layer of one line, and whether two shown solid pixels met.
pub fn layer(view: &View, walk: &Walk) -> (Vec<Dot>, bool) {
    let mut dots = vec![Dot::default(); view.width()];
    let mut collision = false;
    for kept in walk.kept.iter().filter(|kept| !kept.masked) {
        for column in 0..kept.columns {
            let Some(x) = (kept.sprite.x + column).checked_sub(128) else {
                continue;
            };
            let Some(place) = dots.get_mut(x) else {
                continue;
            };
            let dot = sprite_dot(view, &kept.sprite, column);
            if dot.solid() && place.solid() {
                collision = true;
            } else if dot.solid() {
                *place = dot;
            }
        }
    }
    (dots, collision)
}

/// A pixel of a sprite; flips turn the whole sprite, names run down its columns.
pub fn sprite_dot(view: &View, sprite: &Sprite, column: usize) -> Dot {
    let (wide, high) = (8 * sprite.cells_wide, 8 * sprite.cells_high);
    let row = (view.line + 128 - sprite.y) % high;
    let row = if sprite.cell.flip_v { high - 1 - row } else { row };
    let column = if sprite.cell.flip_h { wide - 1 - column } else { column };
    let further = column / 8 * sprite.cells_high + row / 8;
    let name = (sprite.cell.name + further as u16) % pattern::NAMES;
    Dot {
        pixel: pattern::pixel(view.vram, name, (row % 8) as u16, (column % 8) as u16),
        palette: sprite.cell.palette,
        high: sprite.cell.high,
    }
}
