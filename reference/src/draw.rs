//! Drawing a line: what is not modelled, and the layers put together
//! (definition, Drawing; notes s14, s16, s17).

use crate::planes::{self, horizontal_scroll, plane_dot, window_dot, Dot, Plane, View};
use crate::shading;
use crate::sprites::{self, Walk};
use crate::state::{State, Vram};

/// What drawing a line gives.
#[derive(Clone, Debug, PartialEq, Eq)]
pub struct Picture {
    pub pixels: Vec<u8>,
    pub visits: u32,
    pub overflow: bool,
    pub collision: bool,
    pub used_up: bool,
}

impl Picture {
    /// The flags after the line (definition, What a line leaves). It only ever sets the first two;
    /// the third is of this line alone.
    pub fn leave(&self, state: &mut State) {
        state.overflow |= self.overflow;
        state.collision |= self.collision;
        state.used_up = self.used_up;
    }
}

pub fn height(state: &State) -> u32 {
    if state.registers[1] & 0x08 != 0 {
        240
    } else {
        224
    }
}

/// The reasons of answer 4, each with a name for the counts of `reference cover`.
pub fn not_modelled(state: &State) -> Option<&'static str> {
    let registers = &state.registers;
    let set = |register: usize, bits: u8| registers[register] & bits != 0;
    let reasons = [
        (set(0, 0x01), "register 0 bit 0"),
        (set(0, 0x08), "register 0 bit 3"),
        (set(1, 0x80), "register 1 bit 7"),
        (set(1, 0x01), "register 1 bit 0"),
        (!set(1, 0x04), "register 1 bit 2 clear"),
        (set(12, 0x80) != set(12, 0x01), "register 12 bits 7 and 0 differ"),
        (set(12, 0x04), "register 12 bit 2"),
        (set(12, 0x02), "register 12 bit 1"),
        (planes::cells(registers[16]).is_none(), "plane width code 2"),
        (planes::cells(registers[16] >> 4).is_none(), "plane height code 2"),
        (too_many_cells(state), "over 4,096 cells"),
    ];
    reasons.iter().find(|reason| reason.0).map(|reason| reason.1)
}

fn too_many_cells(state: &State) -> bool {
    match planes::plane_size(state) {
        Some((wide, high)) => wide * high > 4_096,
        None => false,
    }
}

/// A line that is inside the height and modelled.
pub fn picture(state: &State, vram: &Vram, line: u32) -> Picture {
    let view = View { state, vram, line: line as usize };
    if state.registers[1] & 0x40 == 0 {
        blank(&view)
    } else {
        shown(&view)
    }
}

fn backdrop(state: &State) -> u8 {
    state.registers[7] & 0x3F
}

/// A blanked line visits no sprites, and register 12 bit 3 is not asked.
fn blank(view: &View) -> Picture {
    Picture {
        pixels: vec![backdrop(view.state); view.width()],
        visits: 0,
        overflow: false,
        collision: false,
        used_up: false,
    }
}

fn shown(view: &View) -> Picture {
    mixed(view, &sprites::walk(view))
}

/// The layers put together, with the sprites of this walk.
pub fn mixed(view: &View, walk: &Walk) -> Picture {
    let (sprite_dots, collision) = sprites::layer(view, walk);
    let scroll_a = horizontal_scroll(view, Plane::A);
    let scroll_b = horizontal_scroll(view, Plane::B);
    let mut pixels = Vec::with_capacity(view.width());
    for (x, sprite) in sprite_dots.iter().enumerate() {
        let a = if planes::window_here(view, x) {
            window_dot(view, x)
        } else {
            plane_dot(view, Plane::A, scroll_a, x)
        };
        let b = plane_dot(view, Plane::B, scroll_b, x);
        pixels.push(pixel_byte(view.state, *sprite, a, b));
    }
    let used_up = sprites::use_up(view, walk);
    Picture { pixels, visits: walk.visits, overflow: walk.overflow, collision, used_up }
}

/// What a column shows: its colour index, with an intensity where that is asked for.
fn pixel_byte(state: &State, sprite: Dot, a: Dot, b: Dot) -> u8 {
    let index = |sprite| front(sprite, a, b).unwrap_or(backdrop(state));
    if shading::asked(state) {
        index(shading::drawn(sprite)) + shading::intensity(sprite, a, b)
    } else {
        index(sprite)
    }
}

/// The frontmost solid pixel: high sprites, A, B, then low sprites, A, B.
fn front(sprite: Dot, a: Dot, b: Dot) -> Option<u8> {
    for high in [true, false] {
        for dot in [sprite, a, b] {
            if dot.solid() && dot.high == high {
                return Some(dot.index());
            }
        }
    }
    None
}
