//! What lies on each column of a line: the parts that the counts of shadow and highlight ask for.

use super::lines::{behind, single_layers, Behind};
use crate::planes::{Dot, View};
use crate::sprites;

/// Is a sprite's dot an operator, if register 12 bit 3 is set?
pub fn operator(sprite: Dot) -> bool {
    matches!(sprite.index(), 0x3E | 0x3F)
}

/// A column: the solid dots of the sprites in their order, and what is behind them. "A" is the
/// window in its columns.
pub struct Column {
    pub sprites: Vec<Dot>,
    pub behind: Behind,
    pub backdrop: u8,
}

impl Column {
    /// Has neither cell priority?
    pub fn low(&self) -> bool {
        !self.behind.a.high && !self.behind.b.high
    }

    pub fn high_cell_of_a_alone(&self) -> bool {
        self.behind.a.high && !self.behind.b.high
    }

    pub fn high_cell_of_b_alone(&self) -> bool {
        self.behind.b.high && !self.behind.a.high
    }

    /// Is neither pixel solid?
    pub fn clear(&self) -> bool {
        !self.behind.a.solid() && !self.behind.b.solid()
    }

    pub fn pixel_of_a_alone(&self) -> bool {
        self.behind.a.solid() && !self.behind.b.solid()
    }

    pub fn pixel_of_b_alone(&self) -> bool {
        self.behind.b.solid() && !self.behind.a.solid()
    }

    /// The pixels that are solid and high, of A and of B.
    fn high_pixels(&self) -> [bool; 2] {
        [self.behind.a, self.behind.b].map(|dot| dot.solid() && dot.high)
    }

    pub fn high_pixel_of_a_alone(&self) -> bool {
        self.high_pixels() == [true, false]
    }

    pub fn high_pixel_of_b_alone(&self) -> bool {
        self.high_pixels() == [false, true]
    }

    pub fn no_high_pixel(&self) -> bool {
        self.high_pixels() == [false, false]
    }

    pub fn first_is_low(&self) -> bool {
        self.sprites.first().is_some_and(|sprite| !sprite.high)
    }

    /// Is there a sprite after the first that would be seen in its place?
    pub fn later_sprite(&self) -> bool {
        let mut later = self.sprites.iter().skip(1).filter(|sprite| !operator(**sprite));
        later.any(|sprite| sprite.high || self.no_high_pixel())
    }
}

/// The columns of a line that is shown, from left to right.
pub fn columns(view: &View) -> Vec<Column> {
    let backdrop = view.state.registers[7] & 0x3F;
    let column = |behind| Column { sprites: Vec::new(), behind, backdrop };
    let mut columns: Vec<Column> = behind(view).into_iter().map(column).collect();
    for layer in single_layers(view, &sprites::walk(view)) {
        for (column, dot) in columns.iter_mut().zip(layer) {
            if dot.solid() {
                column.sprites.push(dot);
            }
        }
    }
    columns
}
