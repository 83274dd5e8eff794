//! Tests of lines with register 12 bit 3, worked out by hand: where the window ends, pixel by
//! pixel, with scrolls, blanked, masked, recorded and refused (definition, Shadow and highlight).

use crate::answer::NOT_MODELLED;
use crate::bench::Bench;
use crate::intensities::{
    cell, drawn, fronts, high, lay_out, low, places, screen, Block, Place, BACKDROP, BIT_3, CLEAR,
    HIGH_CLEAR, PLANE_A, PLANE_B, WINDOW,
};

/// The places, with bit 3 set.
fn shaded_places() -> Vec<Place> {
    let set = |place: Place| Place { register_12: place.register_12 | BIT_3, ..place };
    places().into_iter().map(set).collect()
}

/// All cells of line 0, of both tables.
fn fill_cells(bench: &mut Bench, plane_a: u16, window: u16) {
    for number in 0..40 {
        cell(bench, PLANE_A, number, plane_a);
        cell(bench, WINDOW, number, window);
    }
}

/// "plane A stands for the window on the columns that the window has, and is itself not asked
/// there". The cells of plane A and of the window, what plane A's columns show, and what the
/// window's show.
#[test]
fn in_window_columns_the_window_alone_decides() {
    for (plane_a, window, of_plane_a, of_window) in [
        (HIGH_CLEAR, CLEAR, 0x25, 0x65),
        (CLEAR, HIGH_CLEAR, 0x65, 0x25),
        (high(0x33), CLEAR, 0x33, 0x65),
        (low(0x33), HIGH_CLEAR, 0x73, 0x25),
        (HIGH_CLEAR, low(0x11), 0x25, 0x51),
        (CLEAR, high(0x11), 0x65, 0x11),
    ] {
        for place in shaded_places().into_iter().filter(|place| !place.windowed) {
            let mut bench = screen(place, 0);
            fill_cells(&mut bench, plane_a, window);
            let left = vec![of_window; 32];
            let right = vec![of_plane_a; place.width - 32];
            bench.state().registers[17] = 0x02;
            assert_eq!(drawn(&mut bench, place.width), [left, right].concat());
            let left = vec![of_plane_a; 32];
            let right = vec![of_window; place.width - 32];
            bench.state().registers[17] = 0x82;
            assert_eq!(drawn(&mut bench, place.width), [left, right].concat());
            bench.state().registers[18] = 0x01;
            assert_eq!(drawn(&mut bench, place.width), vec![of_window; place.width]);
        }
    }
}

/// A low sprite on columns 28 to 35, the window on columns 0 to 31. The window's cells are low and
/// clear, and plane A's are high; solid, they hide the sprite.
#[test]
fn a_sprite_on_both_sides_of_the_window_s_edge() {
    for (sprite, plane_a, in_window, in_plane_a) in [
        (low(0x3E), HIGH_CLEAR, 0x65, 0x65),
        (low(0x3F), HIGH_CLEAR, 0x25, 0xA5),
        (low(0x07), HIGH_CLEAR, 0x47, 0x07),
        (low(0x1E), HIGH_CLEAR, 0x1E, 0x1E),
        (low(0x3E), high(0x33), 0x65, 0x33),
        (low(0x3F), high(0x33), 0x25, 0x33),
        (high(0x3E), high(0x33), 0x65, 0x73),
        (high(0x3F), high(0x33), 0x25, 0xB3),
    ] {
        for place in shaded_places().into_iter().filter(|place| place.windowed) {
            let mut bench = screen(place, 32);
            fill_cells(&mut bench, plane_a, CLEAR);
            bench.sprite(0, 128, 0, 0, sprite, 128 + 28);
            let expected = [[in_window; 4], [in_plane_a; 4]].concat();
            assert_eq!(drawn(&mut bench, place.width)[28..36], expected, "{sprite:04X}");
        }
    }
}

/// Columns 8 to 15 have a cell with every second pixel solid, 11h. A high clear cell of plane B,
/// scrolled by 4, is on columns 12 to 19. The sprite, of palette 3, has the pixels E E F F F E E 5.
#[test]
fn a_line_pixel_by_pixel() {
    let straight = [0x51, 0x65, 0x11, 0x25, 0x91, 0x65, 0x51, 0x35];
    let flipped = [0x75, 0x65, 0x51, 0x25, 0x91, 0xA5, 0x51, 0x65];
    for place in shaded_places() {
        for (sprite, shown) in [(0x6011, straight), (0x6811, flipped)] {
            let mut bench = screen(place, 16);
            bench.vram()[32 * 16..32 * 16 + 4].copy_from_slice(&[0x10, 0x10, 0x10, 0x10]);
            bench.vram()[32 * 17..32 * 17 + 4].copy_from_slice(&[0xEE, 0xFF, 0xFE, 0xE5]);
            cell(&mut bench, fronts(place)[0], 1, 0x2010);
            cell(&mut bench, PLANE_B, 1, HIGH_CLEAR);
            bench.vram()[0xB000..0xB004].copy_from_slice(&[0, 0, 0, 4]);
            bench.sprite(0, 128, 0, 0, sprite, 128 + 8);
            let rest = vec![0x65; place.width - 20];
            let expected = [vec![0x65; 8], shown.to_vec(), vec![0x25; 4], rest].concat();
            assert_eq!(drawn(&mut bench, place.width), expected, "{place:?}");
        }
    }
}

/// "the cell there" is the scrolled one: plane A goes 3 columns to the right and 8 lines up, so
/// that line 0 shows its second row of cells. The window, on columns 0 to 15, is not scrolled.
#[test]
fn a_high_cell_lies_where_it_is_scrolled_to() {
    for place in shaded_places() {
        let mut bench = screen(place, 16);
        bench.vram()[0xB000..0xB004].copy_from_slice(&[0, 3, 0, 0]);
        bench.state().scrolls[0] = 8;
        cell(&mut bench, PLANE_A, 0, HIGH_CLEAR);
        cell(&mut bench, PLANE_A, 64 + 2, HIGH_CLEAR);
        cell(&mut bench, WINDOW, 1, HIGH_CLEAR);
        let mut expected = vec![0x65; place.width];
        expected[19..27].fill(0x25);
        if place.windowed {
            expected[8..16].fill(0x25);
        }
        assert_eq!(drawn(&mut bench, place.width), expected, "{place:?}");
    }
}

/// A blanked line "shows the backdrop at normal intensity", whatever lies there.
#[test]
fn a_blanked_line_is_normal() {
    let blocks: [Block; 3] = [
        (CLEAR, CLEAR, &[], 0, 0),
        (HIGH_CLEAR, CLEAR, &[low(0x3E)], 0, 0),
        (low(0x11), HIGH_CLEAR, &[high(0x3F), high(0x3F)], 0, 0),
    ];
    for place in shaded_places() {
        for (register_7, backdrop) in [(0x25, 0x25), (0x3E, 0x3E), (0x3F, 0x3F), (0xC0, 0x00)] {
            let mut bench = lay_out(place, &blocks, CLEAR);
            bench.state().registers[1] = 0x04;
            bench.state().registers[7] = register_7;
            assert_eq!(drawn(&mut bench, place.width), vec![backdrop; place.width]);
            assert_eq!((bench.line(0), bench.state().collision), (Ok(0), false));
        }
    }
}

/// An operator that is masked, or that no pixels are left for, is no dot. Before it come an X 0
/// after another X, two that leave it as it is, or 10 (8) sprites of 32 pixels: X and size.
#[test]
fn an_operator_that_does_not_show() {
    for place in shaded_places() {
        for (before, shown) in [
            (vec![(500, 0x00), (0, 0x00)], 0x65),
            (vec![(500, 0x00), (500, 0x00)], 0x25),
            (vec![(500, 0x0C); place.width / 32], 0x65),
        ] {
            let mut bench = screen(place, 16);
            for (number, (x, size)) in before.iter().enumerate() {
                bench.sprite(number, 128, *size, number as u8 + 1, low(0x07), *x);
            }
            bench.sprite(before.len(), 128, 0, 0, high(0x3F), 128);
            let expected = [vec![shown; 8], vec![0x65; place.width - 8]].concat();
            assert_eq!(drawn(&mut bench, place.width), expected, "{before:?}");
        }
    }
}

/// Register 12 with bit 3: bits 2 and 1 still answer 4, and so do bits 7 and 0 that differ. Bits 6
/// to 4 are not asked.
#[test]
fn bit_3_is_drawn_and_bits_2_and_1_are_refused() {
    for (register_12, width) in [(0x89, 320), (0xF9, 320), (0x08, 256), (0x78, 256)] {
        let mut bench = screen(Place { register_12, width, windowed: false }, 0);
        assert_eq!(drawn(&mut bench, width), vec![0x40 + BACKDROP; width]);
    }
    for register_12 in [
        0x8B, 0x8D, 0x8F, 0x83, 0x85, 0x87, 0x0A, 0x0C, 0x0E, 0x02, 0x04, 0x06, 0x88, 0x09, 0x80,
        0x01, 0xFB, 0x7C,
    ] {
        for register_1 in [0x44, 0x04] {
            let mut bench = screen(Place { register_12, width: 320, windowed: false }, 0);
            bench.state().registers[1] = register_1;
            bench.0.pixels.bytes.fill(0x55);
            let before = bench.state().clone();
            assert_eq!(bench.line(0), Err(NOT_MODELLED), "{register_12:02X}");
            assert_eq!(*bench.state(), before);
            assert!(bench.0.pixels.bytes.iter().all(|byte| *byte == 0x55));
        }
    }
}

/// "Pixels are drawn as by the plain line" (definition, The tape), and a step back over it.
#[test]
fn a_recorded_line_has_the_same_pixels() {
    let blocks: [Block; 2] = [
        (CLEAR, CLEAR, &[low(0x3F), low(0x3E)], 0, 0),
        (HIGH_CLEAR, low(0x22), &[low(0x3F)], 0, 0),
    ];
    for place in shaded_places() {
        let mut bench = lay_out(place, &blocks, CLEAR);
        bench.0.recorded = true;
        let before = bench.state().clone();
        let expected = [vec![0x25; 8], vec![0xA2; 8], vec![0x65; place.width - 16]].concat();
        assert_eq!(drawn(&mut bench, place.width), expected);
        assert!(bench.state().collision);
        assert_eq!((bench.back(1), bench.0.count), (Ok(0), 0));
        assert_eq!(*bench.state(), before);
    }
}
