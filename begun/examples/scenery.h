/* The scene of the example programs: two planes, a window and sprites, at dusk by shadow and highlight, set up through
 * the ports. */
#ifndef SCENERY_H
#define SCENERY_H

#include <stdio.h>
#include <stdlib.h>

#include "command.h"
#include "kuthbareen.h"

enum { WIDTH = 320, HEIGHT = 224 };

/* Where the tables lie in VRAM, after the patterns. All are 64 cells wide. */
enum { PLANE_A = 0xC000, SPRITES = 0xD800, SCROLLS = 0xDC00, PLANE_B = 0xE000, WINDOW = 0xF000 };

/* Codes for writing to VRAM, the colours and the vertical scrolls. */
enum { TO_VRAM = 1, TO_COLOURS = 3, TO_SCROLLS = 5 };

/* The upper bits of a cell: in front, flipped down, flipped across, and the palette of each layer. */
enum { HIGH = 0x8000, DOWN = 0x1000, ACROSS = 0x0800, SKY = 0x0000, GROUND = 0x2000, BAR = 0x4000, FLYING = 0x6000 };

/* Pattern names: those of `drawn` below, the letters, a fish of 2 x 2 cells, a balloon of 4 x 4, and discs of 4 x 4 of
 * the colours that darken and lighten what is behind them. */
enum { CLEAR, SUN, SLOPE, ROCK, CLOUD, GRASS, BRICK, PILLAR, PLAIN, LETTERS, FISH = LETTERS + 9, BALLOON = FISH + 4 };
enum { DARK = BALLOON + 16, LIGHT = DARK + 16 };

/* A digit for each pixel, a point where it is clear; the sun is a quarter, cloud and pillar are halves. */
static const char *const drawn[LETTERS][8] = {
    {"........", "........", "........", "........", "........", "........", "........", "........"},
    {"......33", "....3333", "...33333", "..333333", ".3333333", ".3333333", "33333333", "33333333"},
    {".......5", "......51", ".....511", "....5111", "...51111", "..511111", ".5111111", "51111111"},
    {"11111111", "11121111", "11111111", "11111112", "11111111", "12111111", "11111111", "11111211"},
    {"......44", "...44444", "..444444", ".4444444", "44444444", ".4444444", "...44.44", "........"},
    {"4..4.4.4", "44.44444", "44444444", "45445444", "55455455", "55555555", "22212222", "11111111"},
    {"22222221", "22222221", "22222221", "11111111", "22212222", "22212222", "22212222", "11111111"},
    {"86777666", "86777666", "86777666", "86777666", "86777666", "86777666", "86777666", "88888888"},
    {"11111111", "11111111", "11111111", "11111111", "11111111", "11111111", "11111111", "11111111"},
};

static const char alphabet[] = "KUTHBAREN";

static const uint8_t letters[9][8] = {
    {0xC6, 0xCC, 0xD8, 0xF0, 0xD8, 0xCC, 0xC6, 0x00}, {0xC6, 0xC6, 0xC6, 0xC6, 0xC6, 0xC6, 0x7C, 0x00},
    {0xFE, 0x38, 0x38, 0x38, 0x38, 0x38, 0x38, 0x00}, {0xC6, 0xC6, 0xC6, 0xFE, 0xC6, 0xC6, 0xC6, 0x00},
    {0xFC, 0xC6, 0xC6, 0xFC, 0xC6, 0xC6, 0xFC, 0x00}, {0x7C, 0xC6, 0xC6, 0xFE, 0xC6, 0xC6, 0xC6, 0x00},
    {0xFC, 0xC6, 0xC6, 0xFC, 0xD8, 0xCC, 0xC6, 0x00}, {0xFE, 0xC0, 0xC0, 0xF8, 0xC0, 0xC0, 0xFE, 0x00},
    {0xC6, 0xE6, 0xF6, 0xDE, 0xCE, 0xC6, 0xC6, 0x00},
};

static const char *const fish[16] = {
    "................", "......1111......", "....11222211....", "1..1222222221...",
    "11.12222222421..", "121122222222221.", "1222222222222221", "1222333333332211",
    "121133333333311.", "11.13333333331..", "1...113333311...", ".....1111111....",
    ".......121......", "........11......", "................", "................",
};

static const uint16_t colours[4][9] = {
    {0x0E86, 0x0644, 0x0422, 0x00CE, 0x0EEE, 0x0CAA, 0, 0, 0},
    {0x0000, 0x0246, 0x024A, 0x046C, 0x00A2, 0x0060, 0x0888, 0x0AAA, 0x0444},
    {0x0000, 0x0600, 0x0EEE, 0, 0, 0, 0, 0, 0},
    {0x0000, 0x0222, 0x008E, 0x04CE, 0x0EEE, 0x000C, 0x0EEE, 0x0468, 0x0222},
};

static kuthbareen_state chip;
static uint8_t vram[KUTHBAREEN_VRAM_SIZE];

static void done(kuthbareen_answer answer)
{
    if (answer.number != KUTHBAREEN_DONE) {
        fprintf(stderr, "scene: a call answered %d\n", answer.number);
        exit(1);
    }
}

static void set_register(unsigned number, unsigned value)
{
    done(kuthbareen_control_write(&chip, (uint16_t)(0x8000 | number << 8 | value)));
}

static void write_word(unsigned word)
{
    done(kuthbareen_data_write(&chip, vram, sizeof vram, (uint16_t)word));
}

/* A pixel from its character: a digit, E or F, or a point if it is clear. */
static unsigned pixel_of(char c)
{
    if (c == '.')
        return 0;
    return (unsigned)(c < 'A' ? c - '0' : c - 'A' + 10);
}

/* A row of a pattern from eight characters. */
static void write_row(const char *row)
{
    unsigned pixels = 0, i;
    for (i = 0; i < 8; i++)
        pixels = pixels << 4 | pixel_of(row[i]);
    write_word(pixels >> 16);
    write_word(pixels & 0xFFFF);
}

/* The balloon's character at x, y of 32 x 32: a striped ball with its outline, and a basket. */
static char balloon(int x, int y)
{
    int distance = (2 * x - 31) * (2 * x - 31) + (2 * y - 25) * (2 * y - 25);
    if (distance < 22 * 22)
        return x / 4 % 2 ? '5' : '6';
    if (distance < 25 * 25)
        return '1';
    if (y >= 27 && y < 31 && x >= 13 && x < 19)
        return '7';
    return '.';
}

/* The characters of the two discs. */
static char disc(int x, int y, char inside)
{
    return (2 * x - 31) * (2 * x - 31) + (2 * y - 31) * (2 * y - 31) < 31 * 31 ? inside : '.';
}

static char dark(int x, int y)
{
    return disc(x, y, 'E');
}

static char light(int x, int y)
{
    return disc(x, y, 'F');
}

/* The names of a sprite run down its columns, so its cells are written in that order. */
static void write_large(char (*at)(int x, int y))
{
    int cell, x, y;
    char row[8];
    for (cell = 0; cell < 16; cell++)
        for (y = 0; y < 8; y++) {
            for (x = 0; x < 8; x++)
                row[x] = at(cell / 4 * 8 + x, cell % 4 * 8 + y);
            write_row(row);
        }
}

static void write_sprite_patterns(void)
{
    int cell, y;
    for (cell = 0; cell < 4; cell++)
        for (y = 0; y < 8; y++)
            write_row(fish[cell % 2 * 8 + y] + cell / 2 * 8);
    write_large(balloon);
    write_large(dark);
    write_large(light);
}

static void write_patterns(void)
{
    unsigned i, y, x;
    char row[8];
    command(&chip, TO_VRAM, 0);
    for (i = 0; i < LETTERS; i++)
        for (y = 0; y < 8; y++)
            write_row(drawn[i][y]);
    for (i = 0; i < 9; i++)
        for (y = 0; y < 8; y++) {
            for (x = 0; x < 8; x++)
                row[x] = letters[i][y] << x & 0x80 ? '2' : '1';
            write_row(row);
        }
    write_sprite_patterns();
}

static void write_colours(void)
{
    unsigned palette, i;
    for (palette = 0; palette < 4; palette++) {
        command(&chip, TO_COLOURS, 32 * palette);
        for (i = 0; i < 9; i++)
            write_word(colours[palette][i]);
    }
}

/* The same cell, so many times, in a table's row from a column on. */
static void write_cells(unsigned table, unsigned column, unsigned row, unsigned times, unsigned cell)
{
    command(&chip, TO_VRAM, table + 2 * (64 * row + column));
    while (times-- > 0)
        write_word(cell);
}

/* A mountain's right side is its left side flipped across. */
static void write_mountain(unsigned peak, unsigned top)
{
    unsigned i;
    for (i = 0; top + i < 23; i++) {
        write_cells(PLANE_B, peak - i, top + i, 1, SKY | SLOPE);
        write_cells(PLANE_B, peak - i + 1, top + i, 2 * i, SKY | ROCK);
        write_cells(PLANE_B, peak + i + 1, top + i, 1, SKY | SLOPE | ACROSS);
    }
}

static void write_cloud(unsigned column, unsigned row, unsigned priority)
{
    write_cells(PLANE_B, column, row, 1, priority | SKY | CLOUD);
    write_cells(PLANE_B, column + 1, row, 1, priority | SKY | CLOUD | ACROSS);
}

/* Plane B: mountains, a sun of four quarters, clouds that hide what flies there without priority. */
static void write_plane_b(void)
{
    write_mountain(11, 13);
    write_mountain(27, 17);
    write_mountain(44, 13);
    write_cells(PLANE_B, 33, 5, 1, SKY | SUN);
    write_cells(PLANE_B, 34, 5, 1, SKY | SUN | ACROSS);
    write_cells(PLANE_B, 33, 6, 1, SKY | SUN | DOWN);
    write_cells(PLANE_B, 34, 6, 1, SKY | SUN | DOWN | ACROSS);
    write_cloud(4, 6, 0);
    write_cloud(6, 7, 0);
    write_cloud(16, 5, HIGH);
    write_cloud(18, 5, HIGH);
    write_cloud(27, 8, 0);
}

/* Plane A: the ground, and two pillars with priority. */
static void write_plane_a(void)
{
    unsigned row;
    write_cells(PLANE_A, 0, 22, 64, GROUND | GRASS);
    for (row = 23; row < 28; row++)
        write_cells(PLANE_A, 0, row, 64, GROUND | BRICK);
    for (row = 13; row < 22; row++) {
        write_cells(PLANE_A, 9, row, 1, HIGH | GROUND | PILLAR);
        write_cells(PLANE_A, 10, row, 1, HIGH | GROUND | PILLAR | ACROSS);
        write_cells(PLANE_A, 29, row, 1, HIGH | GROUND | PILLAR);
        write_cells(PLANE_A, 30, row, 1, HIGH | GROUND | PILLAR | ACROSS);
    }
}

/* The window: a bar of three rows with the name. */
static void write_window(void)
{
    const char *text = "KUTHBAREEN";
    unsigned row, i;
    for (row = 0; row < 3; row++)
        write_cells(WINDOW, 0, row, 40, HIGH | BAR | PLAIN);
    command(&chip, TO_VRAM, WINDOW + 2 * (64 + 2));
    for (; *text != 0; text++) {
        for (i = 0; alphabet[i] != *text; i++)
            ;
        write_word(HIGH | BAR | (LETTERS + i));
    }
}

/* Sprites in the order of their links: place on the screen, size, cell. Fishes with each flip; balloons under the bar,
 * behind a cloud and a pillar, before a pillar, and over the right edge. Light on a pillar, on the sun and on the
 * ground, a shadow on the bar and on the other pillar; a low light behind a pillar does not show on it. */
static void write_sprites(void)
{
    static const struct {
        int x, y;
        unsigned size, cell;
    } list[] = {
        {60, 80, 5, FLYING | FISH},
        {100, 80, 5, FLYING | FISH | ACROSS},
        {60, 100, 5, FLYING | FISH | DOWN},
        {100, 100, 5, FLYING | FISH | ACROSS | DOWN},
        {20, 10, 15, FLYING | BALLOON},
        {128, 30, 15, FLYING | BALLOON},
        {76, 130, 15, FLYING | BALLOON},
        {236, 130, 15, HIGH | FLYING | BALLOON},
        {300, 60, 15, FLYING | BALLOON},
        {244, 150, 5, HIGH | FLYING | FISH},
        {64, 108, 15, HIGH | FLYING | LIGHT},
        {258, 30, 15, FLYING | LIGHT},
        {150, 172, 15, FLYING | LIGHT},
        {224, 104, 15, FLYING | LIGHT},
        {60, -4, 15, HIGH | FLYING | DARK},
        {232, 164, 15, HIGH | FLYING | DARK},
    };
    unsigned i, count = sizeof list / sizeof list[0];
    command(&chip, TO_VRAM, SPRITES);
    for (i = 0; i < count; i++) {
        write_word((unsigned)(list[i].y + 128));
        write_word(list[i].size << 8 | (i + 1) % count);
        write_word(list[i].cell);
        write_word((unsigned)(list[i].x + 128));
    }
}

/* Plane B is moved right: the sky by 5 pixels, each line of the mountains below by 3; and up by 2. */
static void write_scrolls(void)
{
    unsigned line;
    command(&chip, TO_VRAM, SCROLLS);
    for (line = 0; line < HEIGHT; line++) {
        write_word(0);
        write_word(line < 88 ? 5 : 3);
    }
    command(&chip, TO_SCROLLS, 0);
    write_word(0);
    write_word(2);
}

/* The scene, from a fresh state. */
static void set_up(void)
{
    chip = kuthbareen_fresh(false);
    set_register(0, 0x04);
    set_register(1, 0x44);
    set_register(2, PLANE_A >> 10);
    set_register(3, WINDOW >> 10);
    set_register(4, PLANE_B >> 13);
    set_register(5, SPRITES >> 9);
    set_register(11, 0x03);
    set_register(12, 0x89);
    set_register(13, SCROLLS >> 10);
    set_register(15, 2);
    set_register(16, 0x01);
    set_register(18, 3);
    write_patterns();
    write_colours();
    write_plane_a();
    write_plane_b();
    write_window();
    write_sprites();
    write_scrolls();
}

#endif
