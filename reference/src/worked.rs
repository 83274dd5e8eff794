//! Tests: worked cases with their values (definition, Worked cases), the book beside generated
//! streams, and that generators give the same stream each time.

use std::array::from_fn;

use crate::answer::{
    BAD_BUFFER, BAD_RECORD, BAD_STATE, BUSY, NOTHING_THERE, NOT_MODELLED, NO_SUCH_PLACE,
    SOURCE_NOT_LENT, TAPE_FULL,
};
use crate::bench::Bench;
use crate::calls;
use crate::check::Checker;
use crate::dma::Memories;
use crate::replay::{commands, Command};
use crate::state::{State, COPY, FILL, FILL_WAITING, IDLE, TRANSFER};
use crate::streams::{stream, Kind};

#[test]
fn register_15_is_set() {
    let mut bench = Bench::new();
    bench.control(&[0x8F02]);
    assert_eq!(bench.state().registers[15], 2);
}

#[test]
fn colour_write_at_0() {
    let mut bench = Bench::new();
    bench.control(&[0xC000, 0x0000]);
    assert_eq!((bench.state().code, bench.state().address), (3, 0));
}

#[test]
fn vram_write_at_c000() {
    let mut bench = Bench::new();
    bench.control(&[0x4000, 0x0003]);
    assert_eq!((bench.state().code, bench.state().address), (1, 0xC000));
}

#[test]
fn copy_code_is_30h() {
    let mut bench = Bench::new();
    bench.control(&[0x0000, 0x00C0]);
    assert_eq!(bench.state().code, 0x30);
}

#[test]
fn odd_vram_address_swaps() {
    let mut bench = Bench::new();
    bench.control(&[0x4001, 0x0000]);
    bench.write(0x1234);
    assert_eq!(bench.vram()[..2], [0x34, 0x12]);
}

#[test]
fn colour_address_80h_is_entry_0() {
    let mut bench = Bench::new();
    bench.control(&[0xC080, 0x0000]);
    bench.write(0xFFFF);
    assert_eq!(bench.state().colours[0], 0x0EEE);
}

#[test]
fn scroll_4eh_is_word_39_and_50h_is_absent() {
    let mut bench = Bench::new();
    bench.control(&[0x8F02, 0x404E, 0x0010]);
    bench.write(0xFFFF);
    assert_eq!(bench.state().scrolls[39], 0x3FF);
    let before = bench.state().clone();
    assert_eq!(before.address, 0x50);
    bench.write(0xFFFF);
    assert_eq!(bench.state().scrolls, before.scrolls);
    assert_eq!(bench.state().address, 0x52);
}

#[test]
fn address_turns_past_ffffh() {
    let mut bench = Bench::new();
    bench.control(&[0x8F02, 0x7FFE, 0x0003]);
    bench.write(1);
    assert_eq!(bench.state().address, 0);
}

#[test]
fn status_words() {
    let mut bench = Bench::new();
    assert_eq!(bench.status(), Ok(0x3600));
    bench.state().pal = true;
    assert_eq!(bench.status(), Ok(0x3601));
    bench.state().pal = false;
    bench.control(&[0x8110, 0x9301, 0x97C0, 0x0000, 0x00C0]);
    assert_eq!(bench.state().kind, COPY);
    assert_eq!(bench.status(), Ok(0x3602));
}

#[test]
fn fill_of_four() {
    let mut bench = Bench::new();
    bench.control(&[0x8110, 0x8F01, 0x9304, 0x9780, 0x4000, 0x0080]);
    assert_eq!(bench.state().kind, FILL_WAITING);
    bench.write(0x1234);
    assert_eq!((bench.state().kind, bench.state().fill), (FILL, 0x12));
    assert_eq!(bench.run(9), Ok(4));
    assert_eq!(bench.vram()[..6], [0x12, 0x34, 0x12, 0x12, 0x00, 0x12]);
    assert_eq!((bench.state().address, bench.state().kind), (5, IDLE));
    assert_eq!(bench.state().fill, 0);
}

#[test]
fn overlapping_copy_spreads() {
    let mut bench = Bench::new();
    bench.vram()[0] = 0xAA;
    bench.control(&[0x8110, 0x8F01, 0x9303, 0x97C0, 0x0001, 0x00C0]);
    assert_eq!(bench.run(1), Ok(1));
    assert_eq!(bench.run(5), Ok(2));
    assert_eq!(bench.vram()[..5], [0xAA, 0xAA, 0xAA, 0xAA, 0]);
    assert_eq!((bench.state().kind, bench.state().source), (IDLE, 0));
}

#[test]
fn sprite_of_one_cell_is_on_eight_lines() {
    let mut bench = Bench::screen();
    bench.pattern(1, 5);
    bench.sprite(0, 128, 0, 0, 1, 128);
    for line in 0..9 {
        assert_eq!(bench.line(line), Ok(1));
        let expected = if line < 8 { 5 } else { 0 };
        assert_eq!(bench.0.pixels.bytes[..9], [[expected; 8].as_slice(), &[0]].concat());
    }
}

#[test]
fn twenty_sprites_fit_and_a_21st_overflows() {
    for (sprites, overflow) in [(20, false), (21, true)] {
        let mut bench = Bench::row_of_sprites(sprites);
        assert_eq!(bench.line(0), Ok(u32::from(sprites)));
        assert_eq!(bench.state().overflow, overflow);
    }
}

#[test]
fn plane_64_by_64_is_drawn_and_64_by_128_is_not() {
    let mut bench = Bench::screen();
    bench.state().registers[16] = 0x11;
    assert_eq!(bench.line(0), Ok(1));
    bench.state().registers[16] = 0x31;
    assert_eq!(bench.line(0), Err(NOT_MODELLED));
}

#[test]
fn last_line_of_the_height() {
    let mut bench = Bench::screen();
    assert_eq!(bench.line(223), Ok(1));
    assert_eq!(bench.line(224), Err(NO_SUCH_PLACE));
    bench.state().registers[1] |= 0x08;
    assert_eq!(bench.line(239), Ok(1));
    assert_eq!(bench.line(240), Err(NO_SUCH_PLACE));
}

#[test]
fn early_low_sprite_stays_before_a_later_high_one() {
    let mut bench = Bench::screen();
    bench.pattern(1, 3);
    bench.pattern(2, 4);
    bench.sprite(0, 128, 0, 1, 0x0001, 128);
    bench.sprite(1, 128, 0, 0, 0x8002, 132);
    assert_eq!(bench.line(0), Ok(2));
    assert_eq!(bench.0.pixels.bytes[..13], [3, 3, 3, 3, 3, 3, 3, 3, 4, 4, 4, 4, 0]);
    assert!(bench.state().collision);
}

#[test]
fn links_1_to_1_end() {
    let mut bench = Bench::screen();
    bench.sprite(0, 0, 0, 1, 1, 128);
    bench.sprite(1, 0, 0, 1, 1, 128);
    assert_eq!(bench.line(100), Ok(80));
    bench.state().registers[12] = 0;
    assert_eq!(bench.line(100), Ok(64));
    assert!(!bench.state().overflow);
}

#[test]
fn a_self_linked_sprite_overflows_and_collides_with_itself() {
    let mut bench = Bench::screen();
    bench.pattern(1, 7);
    bench.sprite(0, 128, 0, 1, 1, 128);
    bench.sprite(1, 128, 0, 1, 1, 160);
    assert_eq!(bench.line(0), Ok(21));
    assert!(bench.state().overflow && bench.state().collision);
}

#[test]
fn masked_sprites_still_use_up_pixels() {
    let mut bench = Bench::screen();
    for name in 0..4 {
        bench.pattern(name + 1, 9);
    }
    bench.sprite(0, 128, 0x0C, 1, 1, 130);
    bench.sprite(1, 128, 0x0C, 2, 1, 0);
    bench.sprite(2, 128, 0x0C, 0, 1, 200);
    assert_eq!(bench.line(0), Ok(3));
    let pixels = &bench.0.pixels.bytes;
    assert_eq!(pixels.iter().filter(|pixel| **pixel == 9).count(), 32);
    assert_eq!((pixels[1], pixels[2], pixels[33], pixels[34]), (0, 9, 9, 0));
}

#[test]
fn the_last_sprite_shows_its_leftmost_columns() {
    let mut bench = Bench::screen();
    bench.state().registers[12] = 0;
    for name in 1..5 {
        bench.pattern(name, name as u8);
    }
    // Flipped across, so the leftmost columns on the screen are the last name's.
    for number in 0..8 {
        bench.sprite(number, 128, 0x0C, number as u8 + 1, 1, 500);
    }
    bench.sprite(0, 128, 0x08, 1, 1, 500);
    bench.sprite(8, 128, 0x0C, 0, 0x0801, 128);
    assert_eq!(bench.line(0), Ok(9));
    assert_eq!(bench.0.pixels.bytes[..10], [4, 4, 4, 4, 4, 4, 4, 4, 0, 0]);
}

#[test]
fn a_window_shows_nothing_of_plane_a() {
    let mut bench = Bench::screen();
    bench.pattern(1, 6);
    bench.vram()[0xE000..0xE080].copy_from_slice(&[0, 1].repeat(64));
    assert_eq!(bench.line(0), Ok(1));
    assert_eq!(bench.0.pixels.bytes[..320], [6; 320]);
    bench.state().registers[17] = 0x81;
    bench.state().registers[7] = 0x3F;
    bench.state().registers[3] = 0x30;
    assert_eq!(bench.line(0), Ok(1));
    assert_eq!(bench.0.pixels.bytes[14..18], [6, 6, 0x3F, 0x3F]);
}

#[test]
fn scrolls_move_a_plane_right_and_up() {
    let mut bench = Bench::screen();
    bench.control(&[0x9001]);
    bench.vram()[32..36].copy_from_slice(&[0x12, 0x34, 0x56, 0x78]);
    bench.vram()[0xE000..0xE002].copy_from_slice(&[0x20, 0x01]);
    bench.vram()[0xF000..0xF002].copy_from_slice(&[0xFC, 0x03]);
    bench.state().scrolls[0] = 0x3F8;
    assert_eq!(bench.line(0), Ok(1));
    assert_eq!(bench.0.pixels.bytes[..12], [0; 12]);
    assert_eq!(bench.line(8), Ok(1));
    let expected = [0, 0, 0, 0x11, 0x12, 0x13, 0x14, 0x15, 0x16, 0x17, 0x18, 0];
    assert_eq!(bench.0.pixels.bytes[..12], expected);
    // By two cells only the first sixteen columns of the screen have this scroll.
    bench.state().registers[11] = 0x04;
    bench.vram()[0xF001] = 0x0C;
    assert_eq!(bench.line(8), Ok(1));
    let expected = [0x11, 0x12, 0x13, 0x14, 0, 0, 0, 0];
    assert_eq!(bench.0.pixels.bytes[12..20], expected);
}

/// Line 7 shows row (7 + 504) mod 512 = 511 of plane A, and column 0 shows column (0 - 8) mod 512 =
/// 504 of it. So columns 0 to 7 show row 7 of the cell in column 63 of row 63, which is the word at
/// E000h + 2 x (63 x 64 + 63) = FFFEh. Row 7 of pattern 2,047 is at 32 x 2,047 + 4 x 7 = FFFCh, and
/// that word is its right half.
#[test]
fn the_last_cell_of_a_plane_shows_the_last_row_of_the_last_pattern() {
    let mut bench = Bench::screen();
    bench.control(&[0x9011, 0x8D3F, 0x8730]);
    bench.vram()[0xFC00..0xFC02].copy_from_slice(&[0, 8]);
    bench.state().scrolls[0] = 504;
    bench.vram()[0xFFFC..=0xFFFF].copy_from_slice(&[0x12, 0x34, 0x07, 0xFF]);
    assert_eq!(bench.line(7), Ok(1));
    let expected = [[1, 2, 3, 4, 0x30, 7, 15, 15].as_slice(), &[0x30; 312]].concat();
    assert_eq!(bench.0.pixels.bytes[..320], expected);
}

/// Sprite 63 is at FE00h + 8 x 63 = FFF8h, its X at FFFEh.
#[test]
fn at_256_the_last_sprite_ends_at_ffffh() {
    let mut bench = Bench::screen();
    bench.control(&[0x8C00, 0x857F]);
    bench.vram()[32..36].copy_from_slice(&[0x12, 0x34, 0x56, 0x78]);
    bench.sprite(0, 0, 0, 63, 1, 128);
    bench.sprite(63, 128, 0, 0, 0x2001, 128 + 248);
    assert_eq!(bench.vram()[0xFFFE..=0xFFFF], [0x01, 0x78]);
    assert_eq!(bench.line(0), Ok(2));
    let shown = [0x11, 0x12, 0x13, 0x14, 0x15, 0x16, 0x17, 0x18];
    assert_eq!(bench.0.pixels.bytes[..256], [[0; 248].as_slice(), &shown].concat());
}

/// Line 239 shows row 29 of the window. The last cell on it is at F000h + 2 x (29 x 64 + 39) = FECEh
/// at 320, where A11 is taken as 0, and at F800h + 2 x (29 x 32 + 31) = FF7Eh at 256.
#[test]
fn the_window_at_its_highest_base_is_drawn_to_line_239() {
    for (mode, at, width) in [(0x8C81, 0xFECE, 320), (0x8C00, 0xFF7E, 256)] {
        let mut bench = Bench::screen();
        bench.control(&[mode, 0x814C, 0x833E, 0x9280]);
        bench.pattern(1, 6);
        bench.vram()[at + 1] = 1;
        assert_eq!(bench.line(239), Ok(1));
        assert_eq!(bench.0.pixels.bytes[..width], [vec![0; width - 8], vec![6; 8]].concat());
    }
}

/// The entry of line 239 is at FC00h + 4 x 239 = FFBCh. That line shows row 7 of the cells in row
/// 29, which begin at base + 2 x 29 x 32 = base + 740h.
#[test]
fn the_last_entry_of_a_scroll_table_at_fc00h_is_read() {
    let mut bench = Bench::screen();
    bench.control(&[0x814C, 0x8B03, 0x8D3F]);
    bench.vram()[60..64].copy_from_slice(&[0x12, 0x34, 0x56, 0x78]);
    bench.vram()[0xE740..0xE742].copy_from_slice(&[0x00, 0x01]);
    bench.vram()[0xC740..0xC742].copy_from_slice(&[0x20, 0x01]);
    bench.vram()[0xFFBC..0xFFC0].copy_from_slice(&[0, 2, 0, 12]);
    assert_eq!(bench.line(239), Ok(1));
    let a = [0, 0, 1, 2, 3, 4, 5, 6, 7, 8];
    let b = [0, 0, 0x11, 0x12, 0x13, 0x14, 0x15, 0x16, 0x17, 0x18];
    assert_eq!(bench.0.pixels.bytes[..20], [a, b].concat());
}

#[test]
fn transfer_source_turns_at_the_top() {
    let mut bench = Bench::new();
    bench.0.work_ram.bytes[65_534..65_536].copy_from_slice(&[0x12, 0x34]);
    bench.0.work_ram.bytes[..2].copy_from_slice(&[0x56, 0x78]);
    bench.control(&[0x8110, 0x8F02, 0x9302, 0x95FF, 0x96FF, 0x977F, 0x4000, 0x0080]);
    assert_eq!((bench.state().kind, bench.state().source), (TRANSFER, 0xFF_FFFE));
    assert_eq!(bench.run(1), Ok(1));
    assert_eq!(bench.state().source, 0xFF_0000);
    assert_eq!(bench.status(), Err(BUSY));
    assert_eq!(bench.run(1), Ok(1));
    assert_eq!(bench.vram()[..4], [0x12, 0x34, 0x56, 0x78]);
}

/// A transfer of three words from FFFFFCh to FFFEh, step 1. It begins only if register 1 has bit 4.
fn three_words(register_1: u16) -> Bench {
    let mut bench = Bench::new();
    bench.0.work_ram.bytes[0xFFFC..=0xFFFF].copy_from_slice(&[0x11, 0x22, 0x33, 0x44]);
    bench.0.work_ram.bytes[..2].copy_from_slice(&[0x55, 0x66]);
    bench.control(&[0x8100 + register_1, 0x8F01, 0x9303, 0x95FE, 0x96FF, 0x977F, 0x7FFE, 0x0083]);
    bench
}

/// The second word is for FFFFh, so it is stored over the first with its bytes exchanged. The code
/// takes CD5 even if no DMA begins, so only register 1 has to be put right before the data writes.
#[test]
fn three_words_by_a_transfer_and_by_data_writes() {
    let mut ran = three_words(0x10);
    assert_eq!((ran.state().kind, ran.state().source), (TRANSFER, 0xFF_FFFC));
    assert_eq!(ran.run(3), Ok(3));
    assert_eq!(ran.vram()[..4], [0x55, 0x66, 0, 0]);
    assert_eq!(ran.vram()[0xFFFC..=0xFFFF], [0, 0, 0x44, 0x33]);
    let state = ran.state();
    assert_eq!((state.kind, state.address, state.code), (IDLE, 1, 0x21));
    let mut wrote = three_words(0);
    assert_eq!((wrote.state().kind, wrote.state().address), (IDLE, 0xFFFE));
    wrote.state().registers[1] = 0x10;
    for word in [0x1122, 0x3344, 0x5566] {
        wrote.write(word);
    }
    ran.assert_same(&wrote);
}

/// A copy of five bytes from FFFEh to 0, in runs with these budgets that make these units. From
/// unit 2 on it finds bytes that it has stored itself.
fn copied(runs: &[(u32, u32)]) -> Bench {
    let mut bench = Bench::new();
    bench.vram()[0xFFFE..=0xFFFF].copy_from_slice(&[0xA1, 0xA2]);
    bench.vram()[..6].copy_from_slice(&[0xB0, 0xB1, 0xB2, 0xB3, 0xB4, 0xB5]);
    bench.control(&[0x8110, 0x8F01, 0x9305, 0x95FE, 0x96FF, 0x97C0, 0x0000, 0x00C0]);
    for (budget, units) in runs {
        assert_eq!(bench.run(*budget), Ok(*units));
    }
    bench
}

/// The bytes at 0 to 5; the kind, the units remaining, the source and the address.
fn copy_left(bench: &mut Bench) -> ([u8; 6], (u8, u32, u32, u16)) {
    let bytes = from_fn(|place| bench.vram()[place]);
    let state = bench.state();
    (bytes, (state.kind, state.remaining, state.source, state.address))
}

#[test]
fn a_copy_of_five_bytes_in_one_run_and_in_three() {
    let mut whole = copied(&[(9, 5)]);
    assert_eq!(copy_left(&mut whole), ([0xA1, 0xA2, 0xA1, 0xA2, 0xA1, 0xB5], (IDLE, 0, 0, 5)));
    whole.assert_same(&copied(&[(2, 2), (0, 0), (7, 3)]));
}

#[test]
fn three_of_five_bytes_in_one_run_and_in_two() {
    let mut whole = copied(&[(3, 3)]);
    assert_eq!(copy_left(&mut whole), ([0xA1, 0xA2, 0xA1, 0xB3, 0xB4, 0xB5], (COPY, 2, 1, 3)));
    whole.assert_same(&copied(&[(1, 1), (2, 2)]));
    whole.assert_same(&copied(&[(2, 2), (1, 1)]));
}

#[test]
fn a_word_past_the_cartridge_refuses_the_whole_run() {
    let mut bench = Bench::new();
    bench.0.cartridge.length = 4;
    bench.control(&[0x8110, 0x8F02, 0x9303, 0x4000, 0x0080]);
    assert_eq!(bench.run(3), Err(SOURCE_NOT_LENT));
    assert_eq!(bench.run(2), Ok(2));
    assert_eq!(bench.run(0), Ok(0));
    assert_eq!(bench.run(1), Err(SOURCE_NOT_LENT));
}

#[test]
fn too_large_a_cartridge_is_a_bad_buffer() {
    let mut vram = vec![0; 65_536];
    let work_ram = vec![0; 65_536];
    for (length, reply) in [(4_194_304, Ok(0)), (4_194_306, Err(BAD_BUFFER))] {
        let cartridge = vec![0; length];
        let memories = Memories { cartridge: &cartridge, work_ram: &work_ram };
        let mut state = State::fresh(false);
        assert_eq!(calls::run(&mut state, &mut vram, memories, None, 1), reply);
    }
}

#[test]
fn colour_parts_and_pattern_row() {
    let mut bench = Bench::new();
    assert_eq!(bench.call(12, 4, 0xFE4D, 0), Ok(0x726));
    assert_eq!(bench.call(12, 0, 0xFE4D, 0), Ok(0x100));
    bench.vram()[65_532..65_536].copy_from_slice(&[0x12, 0x34, 0x56, 0x78]);
    assert_eq!(bench.call(11, 0, 2_047, 7), Ok(0));
    assert_eq!(bench.0.row.bytes[..8], [1, 2, 3, 4, 5, 6, 7, 8]);
    assert_eq!(bench.call(11, 0, 2_048, 7), Err(NO_SUCH_PLACE));
    assert_eq!(bench.call(11, 0, 0, 8), Err(NO_SUCH_PLACE));
}

#[test]
fn step_back_inside_a_recorded_copy() {
    let mut bench = Bench::new();
    bench.vram()[0] = 0xAA;
    bench.control(&[0x8110, 0x8F01, 0x9303, 0x97C0, 0x0001, 0x00C0]);
    bench.0.recorded = true;
    bench.0.tape.length = 3 * 32 + 31;
    let before = bench.state().clone();
    assert_eq!(bench.run(3), Ok(3));
    assert_eq!(bench.run(3), Ok(0));
    assert_eq!(bench.frame(), Err(TAPE_FULL));
    assert_eq!(bench.0.tape.bytes[..16], [3, 0, 32, 1, 0, 0, 0xAA, 0, 0, 1, 0x30, 0, 4, 0, 0, 3]);
    assert_eq!(bench.back(2), Ok(0));
    assert_eq!((bench.0.count, bench.state().remaining), (1, 2));
    assert_eq!(bench.vram()[..4], [0xAA, 0xAA, 0, 0]);
    assert_eq!(bench.back(2), Err(NOTHING_THERE));
    bench.0.tape.bytes[31] = 1;
    assert_eq!(bench.back(1), Err(BAD_RECORD));
    bench.0.tape.bytes[31] = 0;
    assert_eq!(bench.back(1), Ok(0));
    assert_eq!(*bench.state(), before);
    assert_eq!(bench.vram()[..4], [0xAA, 0, 0, 0]);
}

/// A book can't see a cell that is put back as it was, so the records are looked at.
#[test]
fn steps_that_store_nothing_have_no_cell() {
    let mut bench = Bench::new();
    bench.0.recorded = true;
    // A first half and a second half like a write to register 15, register 24, an absent scroll word.
    bench.control(&[0x4050, 0x8F10, 0x9855]);
    bench.write(0xFFFF);
    assert_eq!(bench.call(5, 0, 0, 0), Ok(0));
    assert_eq!(bench.status(), Ok(0x3600));
    assert_eq!(bench.frame(), Ok(0));
    assert_eq!(bench.begins(), Ok(0));
    bench.state().horizontal = true;
    assert_eq!(bench.acknowledge(4), Ok(0));
    assert_eq!(bench.0.count, 9);
    for record in bench.0.tape.bytes.chunks(32).take(9) {
        assert_eq!(record[..8], [3, 0, 32, 0, 0, 0, 0, 0]);
    }
    bench.control(&[0x8F02]);
    assert_eq!(bench.0.tape.bytes[9 * 32 + 3..9 * 32 + 8], [4, 0, 15, 0, 0]);
}

#[test]
fn refusals_come_in_their_order() {
    let mut bench = Bench::new();
    bench.0.recorded = true;
    bench.0.count = 5_000;
    bench.state().kind = TRANSFER;
    assert_eq!(bench.call(3, 0, 0, 0), Err(BAD_STATE));
    bench.state().remaining = 1;
    assert_eq!(bench.call(3, 0, 0, 0), Err(BAD_BUFFER));
    bench.0.count = 4_096;
    assert_eq!(bench.call(3, 0, 0, 0), Err(BUSY));
    assert_eq!(bench.run(1), Err(TAPE_FULL));
    bench.state().source = 0x20_0000;
    assert_eq!(bench.run(1), Err(SOURCE_NOT_LENT));
    assert_eq!(bench.line(300), Err(NO_SUCH_PLACE));
    assert_eq!(bench.line(0), Err(NOT_MODELLED));
    bench.state().registers[1] = 0x04;
    assert_eq!(bench.line(0), Err(TAPE_FULL));
}

/// Streams with recorded calls agree with full copies of every moment.
#[test]
fn book_agrees_with_the_tape() {
    for (kind, least) in [(Kind::Tape, 1_000), (Kind::Timing, 1_000), (Kind::Mix, 200)] {
        let mut checked = 0;
        for seed in 100..112 {
            let mut checker = Checker::new();
            for (index, command) in stream(seed, kind, 400).iter().enumerate() {
                let (_, difference) = checker.apply(command);
                assert_eq!(difference, None, "{kind:?} {seed} command {index}");
            }
            checked += checker.checked;
        }
        assert!(checked > least, "{kind:?}: only {checked} calls had a book");
    }
}

#[test]
fn generators_are_deterministic() {
    for (kind, name) in Kind::ALL {
        assert_eq!(Kind::named(name), Some(kind));
        let first = stream(7, kind, 300);
        assert_eq!(first, stream(7, kind, 300));
        assert_ne!(first, stream(8, kind, 300));
        assert_eq!(first.len(), 300);
        assert_eq!(first.last().map(|command| command.op), Some(48));
        let bytes: Vec<u8> = first.iter().flat_map(|command| command.to_bytes()).collect();
        assert_eq!(commands(&bytes[..bytes.len() - 3]), first[..299]);
    }
}

/// The kinds keep to the ops they may use.
#[test]
fn kinds_keep_to_their_ops() {
    for (kind, _) in Kind::ALL {
        for seed in 0..20 {
            for command in stream(seed, kind, 400) {
                let plain = matches!(command.op, 1..=7 | 9 | 12..=16 | 32..=36 | 39 | 48);
                let of_reader = matches!(command.op, 19..=22);
                let fits = match kind {
                    Kind::Ports | Kind::Dma => plain,
                    Kind::Refusals => plain || command.op == 8,
                    Kind::Drawing => plain || matches!(command.op, 8 | 11),
                    Kind::Tape | Kind::Timing => !of_reader && !matches!(command.op, 11 | 17 | 18),
                    Kind::Script => !of_reader && command.op != 11,
                    Kind::Mix => !of_reader,
                    Kind::Reader => command.op != 11,
                };
                assert!(fits, "{kind:?} {seed}: {command:?}");
            }
        }
    }
}

/// Any bytes at all: nothing may stop the program.
#[test]
fn any_commands_are_borne() {
    let mut checker = Checker::new();
    let mixed = (0..3).map(|seed| (seed, Kind::Mix));
    for (seed, kind) in mixed.chain([(3, Kind::Script), (4, Kind::Reader)]) {
        for command in stream(seed, kind, 400) {
            let turned = Command {
                c: command.c.rotate_left(7) ^ u32::from(command.b),
                a: command.a.wrapping_mul(31),
                b: command.b.rotate_left(3),
                ..command
            };
            assert_eq!(checker.apply(&turned).1, None);
        }
    }
}
