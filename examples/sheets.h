/* What the tests of lines share: a chip and its tables, and sheets that hold what is expected. These are painted the
 * other way round than the library draws: from the patterns onto sheets, cell by cell, and from the sheets onto the
 * screen. */
#ifndef SHEETS_H
#define SHEETS_H

#include "testing.h"

/* The planes have 64 x 32 cells; sheets and screen are as large. */
enum { WIDE = 512, HIGH = 256 };

/* Where the tables lie, and the backdrop. */
enum { SCROLLS = 0x8000, WINDOW = 0xA000, SPRITES = 0xB000, PLANE_A = 0xC000, PLANE_B = 0xE000, BACKDROP = 0x2A };

/* Pixels are drawn between bytes that must stay. */
enum { MARGIN = 8, KEPT = 0xA5 };

typedef struct {
    uint8_t index[HIGH][WIDE]; /* 0 is clear: no solid pixel of these tests has that index */
    bool high[HIGH][WIDE];
    bool priority[HIGH][WIDE]; /* of the cell, also where its pixel is clear */
} sheet;

static uint8_t vram[KUTHBAREEN_VRAM_SIZE + 1];
static uint8_t pixels[MARGIN + KUTHBAREEN_LINE_SIZE + MARGIN];
static sheet plane_a, plane_b, sprites;
static uint8_t screen[HIGH][WIDE];

static void put_word(unsigned at, unsigned word)
{
    vram[at] = (uint8_t)(word >> 8);
    vram[at + 1] = (uint8_t)word;
}

/* Flips: 1 across, 2 down. */
static unsigned cell(unsigned high, unsigned palette, unsigned flips, unsigned name)
{
    return high << 15 | palette << 13 | flips << 11 | name;
}

/* The patterns' pixels. Name 0 is clear. */
static unsigned pixel(unsigned name, unsigned row, unsigned column)
{
    return name == 0 ? 0 : (name * 5 + row * 7 + column * 3 + row * column) & 15;
}

static void lay_patterns(void)
{
    unsigned i;
    memset(vram, 0, sizeof vram);
    for (i = 0; i < 64 * 32; i++)
        vram[i] = (uint8_t)(pixel(i / 32, i / 4 % 8, i % 4 * 2) << 4 | pixel(i / 32, i / 4 % 8, i % 4 * 2 + 1));
    memset(&plane_a, 0, sizeof plane_a);
    memset(&plane_b, 0, sizeof plane_b);
    memset(&sprites, 0, sizeof sprites);
}

/* Paints a cell with its left upper corner at x, y; sheets go round. */
static void paint(sheet *s, unsigned x, unsigned y, unsigned word)
{
    unsigned row, column;
    for (row = 0; row < 8; row++)
        for (column = 0; column < 8; column++) {
            unsigned dot = pixel(word & 2047, row, column);
            unsigned down = (y + (word >> 12 & 1 ? 7 - row : row)) % HIGH;
            unsigned across = (x + (word >> 11 & 1 ? 7 - column : column)) % WIDE;
            s->priority[down][across] = word >> 15;
            if (dot != 0) {
                s->index[down][across] = (uint8_t)((word >> 13 & 3) * 16 + dot);
                s->high[down][across] = word >> 15;
            }
        }
}

/* Lays a sheet's pixels of one priority onto the screen. */
static void lay(const sheet *s, bool high)
{
    unsigned x, y;
    for (y = 0; y < HIGH; y++)
        for (x = 0; x < WIDE; x++)
            if (s->index[y][x] != 0 && s->high[y][x] == high)
                screen[y][x] = s->index[y][x];
}

/* The backdrop and, back to front, the planes and the sprites. */
static void lay_all(bool with_sprites)
{
    int high;
    memset(screen, BACKDROP, sizeof screen);
    for (high = 0; high < 2; high++) {
        lay(&plane_b, high);
        lay(&plane_a, high);
        if (with_sprites)
            lay(&sprites, high);
    }
}

/* A chip that draws from the tables above, 320 or 256 pixels wide. */
static kuthbareen_state showing(unsigned width)
{
    kuthbareen_state chip = kuthbareen_fresh(false);
    chip.registers[0] = 0x04;
    chip.registers[1] = 0x44;
    chip.registers[2] = PLANE_A >> 10;
    chip.registers[3] = WINDOW >> 10;
    chip.registers[4] = PLANE_B >> 13;
    chip.registers[5] = SPRITES >> 9;
    chip.registers[7] = 0xC0 | BACKDROP;
    chip.registers[12] = width == 320 ? 0x81 : 0x00;
    chip.registers[13] = SCROLLS >> 10;
    chip.registers[16] = 0x01;
    return chip;
}

static kuthbareen_answer draw(kuthbareen_state *chip, uint32_t line)
{
    memset(pixels, KEPT, sizeof pixels);
    return kuthbareen_line(chip, vram, KUTHBAREEN_VRAM_SIZE, line, pixels + MARGIN, KUTHBAREEN_LINE_SIZE);
}

/* Are all bytes outside these columns as they were? */
static bool kept_outside(unsigned width)
{
    unsigned i;
    for (i = 0; i < sizeof pixels; i++)
        if ((i < MARGIN || i >= MARGIN + width) && pixels[i] != KEPT)
            return false;
    return true;
}

/* Every line of the height is the screen's, VRAM stays, and so many sprites are visited. */
static void compare_screen(const char *what, kuthbareen_state *chip, unsigned width, unsigned visits)
{
    unsigned line;
    for (line = 0; line < 224; line++) {
        kuthbareen_answer answer = draw(chip, line);
        expect(what, answer.number, KUTHBAREEN_DONE);
        expect(what, answer.result, visits);
        expect(what, memcmp(pixels + MARGIN, screen[line], width), 0);
        expect("bytes outside the width", kept_outside(width), 1);
    }
}

/* Writes a sprite's entry: y and x as on the screen, size width and height in cells less one. */
static void put_sprite(unsigned number, int y, unsigned size, unsigned link, unsigned word, int x)
{
    put_word(SPRITES + 8 * number, 0xFE00 | (unsigned)(y + 128));
    put_word(SPRITES + 8 * number + 2, size << 8 | link);
    put_word(SPRITES + 8 * number + 4, word);
    put_word(SPRITES + 8 * number + 6, 0xFE00 | (unsigned)(x + 128));
}

/* Paints a sprite; a flip changes the places of its cells and flips each of them. */
static void paint_sprite(int y, unsigned size, unsigned word, int x)
{
    unsigned wide = size / 4 + 1, high = size % 4 + 1, n;
    for (n = 0; n < wide * high; n++) {
        unsigned across = word >> 11 & 1 ? wide - 1 - n / high : n / high;
        unsigned down = word >> 12 & 1 ? high - 1 - n % high : n % high;
        paint(&sprites, (unsigned)(x + WIDE) + 8 * across, (unsigned)(y + HIGH) + 8 * down, word + n);
    }
}

#endif
