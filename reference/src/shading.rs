//! Shadow and highlight: the pixel byte of a column with register 12 bit 3 set (definition, Shadow
//! and highlight; notes s16).

use crate::planes::Dot;
use crate::state::State;

/// The colour indexes that are operators, in sprites alone.
const SHADOW: u8 = 0x3E;
const HIGHLIGHT: u8 = 0x3F;

/// The intensities, as they are added to a colour index (definition, Drawing).
const NORMAL: u8 = 0;
const HALF: u8 = 64;
const DOUBLE: u8 = 128;

/// Does register 12 bit 3 ask for intensities?
pub fn asked(state: &State) -> bool {
    state.registers[12] & 0x08 != 0
}

/// Is the sprites' dot one that is not drawn?
fn operator(sprite: Dot) -> bool {
    matches!(sprite.index(), SHADOW | HIGHLIGHT)
}

/// What is left of the sprites' dot for mixing: "the column shows what mixing gives without" an
/// operator.
pub fn drawn(sprite: Dot) -> Dot {
    if operator(sprite) {
        Dot::default()
    } else {
        sprite
    }
}

/// What the sprites' dot makes of the intensity behind it, if it lies in front.
pub fn intensity(sprite: Dot, a: Dot, b: Dot) -> u8 {
    let behind = of_planes(a, b);
    if !in_front(sprite, a, b) {
        return behind;
    }
    match sprite.index() {
        SHADOW => HALF,
        HIGHLIGHT => raised(behind),
        index if sprite.high || index % 16 == 14 => NORMAL,
        _ => behind,
    }
}

/// Backdrop and planes go by the cells' priority, "solid or clear". `a` is the window's dot where
/// the window is.
fn of_planes(a: Dot, b: Dot) -> u8 {
    if a.high || b.high {
        NORMAL
    } else {
        HALF
    }
}

/// A solid dot of a sprite, unless it is low and a plane has a solid high one.
fn in_front(sprite: Dot, a: Dot, b: Dot) -> bool {
    let behind_plane = [a, b].iter().any(|plane| plane.solid() && plane.high);
    sprite.solid() && (sprite.high || !behind_plane)
}

/// Half becomes normal, and normal double; backdrop and planes are never double themselves.
fn raised(intensity: u8) -> u8 {
    if intensity == HALF {
        NORMAL
    } else {
        DOUBLE
    }
}
