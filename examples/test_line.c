/* Tests of kuthbareen_line, at normal intensity; test_shadow.c has the others. */
#include "sheets.h"

static void compare(const char *what, kuthbareen_state *chip, unsigned width, unsigned visits)
{
    lay_all(true);
    compare_screen(what, chip, width, visits);
}

/* One cell of a plane, with each flip, moved right and up by its scrolls. */
static void one_cell(unsigned width)
{
    unsigned flips, b;
    for (b = 0; b < 2; b++)
        for (flips = 0; flips < 4; flips++) {
            unsigned h = flips * 117, v = flips * 301, word = cell(flips & 1, 3 - flips, flips, 9 + flips);
            kuthbareen_state chip = showing(width);
            lay_patterns();
            put_word((b ? PLANE_B : PLANE_A) + 2 * (3 * 64 + 5), word);
            put_word(SCROLLS + 2 * b, 0xFC00 | h);
            chip.vsram[b] = (uint16_t)v;
            paint(b ? &plane_b : &plane_a, 5 * 8 + h, 3 * 8 + 4 * HIGH - v, word);
            compare("one cell", &chip, width, 1);
        }
}

/* The entry of the scroll table for a line, in each of the four modes. */
static void scroll_modes(void)
{
    unsigned mode, line, x;
    kuthbareen_state chip = showing(320);
    lay_patterns();
    for (line = 0; line < 224; line++) {
        put_word(SCROLLS + 4 * line, line);
        put_word(PLANE_A + 2 * (line / 8 * 64 + 10), cell(0, 2, 0, 7));
        paint(&plane_a, 8 * 10, line / 8 * 8, cell(0, 2, 0, 7));
    }
    lay_all(true);
    for (mode = 0; mode < 4; mode++)
        for (line = 0; line < 224; line++) {
            unsigned h[4] = {0, line & 7, line & ~7u, line}, differing = 0;
            chip.registers[11] = (uint8_t)mode;
            expect("scroll mode", draw(&chip, line).number, KUTHBAREEN_DONE);
            for (x = 0; x < 320; x++)
                differing += pixels[MARGIN + x] != screen[line][(x + WIDE - h[mode]) % WIDE];
            expect("columns that differ", differing, 0);
        }
}

/* A window in the leftmost 32 columns takes the place of plane A, also where its own cells are clear, and is not
 * scrolled. */
static void window(unsigned width)
{
    unsigned column, wide = width == 320 ? 64 : 32;
    kuthbareen_state chip = showing(width);
    lay_patterns();
    chip.registers[17] = 2;
    for (column = 0; column < width / 8; column++) {
        unsigned a = cell(0, 1, 0, 5 + column % 3), w = column % 2 ? cell(1, 2, 3, 8) : 0;
        put_word(PLANE_A + 2 * (7 * 64 + column), a);
        put_word(WINDOW + 2 * (6 * wide + column), w);
        if (column < 4)
            paint(&plane_a, 8 * column, 6 * 8, w);
        else
            paint(&plane_a, 8 * column, 7 * 8 - 3, a);
    }
    chip.vsram[0] = 3;
    compare("window", &chip, width, 1);
}

/* One sprite of each size with each flip, also over the edges of the screen. */
static void one_sprite(unsigned width)
{
    unsigned size, flips;
    for (size = 0; size < 16; size++)
        for (flips = 0; flips < 4; flips++) {
            int y = (int)(size * 15) - 9, x = (int)(flips * (width / 3)) - 6;
            unsigned word = cell(flips >> 1, flips, flips, 20 + size);
            kuthbareen_state chip = showing(width);
            lay_patterns();
            put_sprite(0, y, size, 0, word, x);
            paint_sprite(y, size, word, x);
            compare("one sprite", &chip, width, 1);
        }
}

/* Each of B, A and a sprite absent, low or high: 27 columns of cells. Plane A's cells are moved right by 2 pixels and
 * the sprites by 4, so that what is behind shows beside them. */
static void priorities(void)
{
    kuthbareen_state chip = showing(320);
    unsigned column, visits = 0;
    lay_patterns();
    put_word(SCROLLS, 2);
    for (column = 0; column < 27; column++) {
        unsigned b = column % 3, a = column / 3 % 3, s = column / 9;
        unsigned words[3] = {b ? cell(b - 1, 1, 0, 1) : 0, a ? cell(a - 1, 2, 1, 2) : 0, cell(s == 2, 3, 2, 3)};
        put_word(PLANE_B + 2 * column, words[0]);
        put_word(PLANE_A + 2 * column, words[1]);
        paint(&plane_b, 8 * column, 0, words[0]);
        paint(&plane_a, 8 * column + 2, 0, words[1]);
        if (s != 0) {
            put_sprite(visits, 0, 0, column == 26 ? 0 : visits + 1, words[2], (int)(8 * column + 4));
            paint_sprite(0, 0, words[2], (int)(8 * column + 4));
            visits++;
        }
    }
    expect("18 sprites", visits, 18);
    compare("priorities", &chip, 320, visits);
    expect("no overflow", chip.control.flags.overflow, 0);
    expect("no collision", chip.control.flags.collision, 0);
}

/* The earlier of two sprites is in front, though the later one has the priority; they collide. */
static void two_sprites(void)
{
    kuthbareen_state chip = showing(320);
    lay_patterns();
    put_sprite(0, 50, 5, 1, cell(0, 0, 0, 30), 100);
    put_sprite(1, 55, 10, 0, cell(1, 1, 3, 40), 107);
    paint_sprite(55, 10, cell(1, 1, 3, 40), 107);
    paint_sprite(50, 5, cell(0, 0, 0, 30), 100);
    compare("two sprites", &chip, 320, 2);
    expect("collision", chip.control.flags.collision, 1);
    expect("no overflow", chip.control.flags.overflow, 0);
    /* pattern 0 is clear */
    put_sprite(1, 55, 0, 0, cell(1, 1, 3, 0), 107);
    chip.control.flags.collision = false;
    expect("visits", draw(&chip, 55).result, 2);
    expect("clear pixels do not collide", chip.control.flags.collision, 0);
}

/* As many sprites on a line as it takes, then one more and two more: the walk stops at the first that is too many. The
 * flag stays set on other lines. */
static void limits(unsigned width, unsigned most)
{
    unsigned more, number;
    for (more = 0; more < 3; more++) {
        unsigned over = more > 0;
        kuthbareen_state chip = showing(width);
        lay_patterns();
        for (number = 0; number < most + more; number++)
            put_sprite(number, 60, 0, (number + 1) % (most + more), cell(0, 0, 0, 1), (int)(10 * number));
        expect("visits", draw(&chip, 60).result, most + over);
        expect("overflow", chip.control.flags.overflow, over);
        expect("no collision", chip.control.flags.collision, 0);
        expect("visits on another line", draw(&chip, 68).result, most + more);
        expect("overflow stays", chip.control.flags.overflow, over);
    }
}

/* What an X of 0 masks. Each letter of `kept` is a sprite on line 60: o has X 0, x is off the screen with X 1, and s is
 * at column 16 times its place. Those that show have an s in `shown`. */
static void masking(unsigned width, bool used_up, const char *kept, const char *shown)
{
    unsigned i, last = (unsigned)strlen(kept) - 1;
    kuthbareen_state chip = showing(width);
    lay_patterns();
    for (i = 0; i <= last; i++) {
        int x = kept[i] == 'o' ? -128 : kept[i] == 'x' ? -127 : (int)(16 * i);
        put_sprite(i, 60, 0, i == last ? 0 : i + 1, cell(0, 1, 0, 1), x);
        if (shown[i] == 's')
            paint_sprite(60, 0, cell(0, 1, 0, 1), x);
    }
    chip.control.flags.used_up = used_up;
    lay_all(true);
    expect(kept, draw(&chip, 60).result, last + 1);
    expect(kept, memcmp(pixels + MARGIN, screen[60], width), 0);
    expect("used up cleared", chip.control.flags.used_up, 0);
}

static void all_masking(unsigned width)
{
    masking(width, false, "os", "os");
    masking(width, true, "os", "o_");
    masking(width, false, "sos", "so_");
    masking(width, false, "xos", "xo_");
    masking(width, false, "oos", "oos");
    masking(width, true, "oos", "o__");
    masking(width, false, "osos", "oso_");
    masking(width, true, "ss", "ss");
}

/* Sprites on line 60 that use so many pixels, all of them off the screen. Those masked use pixels too. */
static void put_used(unsigned used)
{
    unsigned number;
    for (number = 0; 32 * number < used; number++) {
        unsigned cells = (used - 32 * number) / 8, next = 32 * (number + 1) < used ? number + 1 : 20;
        put_sprite(number, 60, (cells < 4 ? cells - 1 : 3) << 2, next, cell(0, 1, 0, 1), number == 1 ? -128 : -127);
    }
    put_sprite(20, 70, 0, 21, cell(0, 1, 0, 1), -128);
    put_sprite(21, 70, 0, 0, cell(0, 1, 0, 1), 0);
}

/* Draws line 70, where the first of two sprites has X 0: does it mask the other one? */
static bool first_masks(kuthbareen_state *chip)
{
    expect("line 70", draw(chip, 70).number, KUTHBAREEN_DONE);
    return pixels[MARGIN] == BACKDROP;
}

/* Used up, from so many pixels on: the next line masks by it, and not the one after that. */
static void used_up(unsigned width)
{
    unsigned used;
    for (used = width - 64; used <= width + 64; used += 8) {
        unsigned set = used >= width;
        kuthbareen_state chip = showing(width);
        lay_patterns();
        put_used(used);
        chip.control.flags.used_up = !set;
        draw(&chip, 60);
        expect("used up", chip.control.flags.used_up, set);
        expect("masks by it", first_masks(&chip), set);
        expect("used up by the next line", chip.control.flags.used_up, 0);
        expect("masks on the line after", first_masks(&chip), 0);
    }
}

/* A blanked line: the backdrop alone, no sprite visited, used up cleared and the other flags as they were. */
static void blanked(unsigned width)
{
    unsigned line, i;
    kuthbareen_state chip = showing(width), before;
    lay_patterns();
    put_sprite(0, 0, 15, 1, cell(1, 1, 0, 1), 0);
    put_sprite(1, 0, 15, 0, cell(1, 1, 0, 1), 0);
    chip.registers[1] = 0x04;
    chip.control.flags.overflow = true;
    before = chip;
    for (line = 0; line < 224; line += 223) {
        chip.control.flags.used_up = true;
        kuthbareen_answer answer = draw(&chip, line);
        expect("blanked", answer.number, KUTHBAREEN_DONE);
        expect("no visits", answer.result, 0);
        for (i = 0; i < width; i++)
            expect("backdrop", pixels[MARGIN + i], BACKDROP);
        expect("bytes outside the width", kept_outside(width), 1);
        expect("state as it came", same_state(&chip, &before), 1);
    }
}

/* A refused line gives its number and leaves state, VRAM and pixels as they came. */
static void refused(const char *what, kuthbareen_state *chip, size_t size, uint32_t line, size_t room, unsigned wanted)
{
    static uint8_t vram_before[sizeof vram];
    kuthbareen_state before = *chip;
    kuthbareen_answer answer;
    memcpy(vram_before, vram, sizeof vram);
    memset(pixels, KEPT, sizeof pixels);
    answer = kuthbareen_line(chip, vram, size, line, pixels + MARGIN, room);
    expect(what, answer.number, wanted);
    expect("result of a refused line", answer.result, 0);
    expect("state of a refused line", same_state(chip, &before), 1);
    expect("VRAM of a refused line", memcmp(vram, vram_before, sizeof vram), 0);
    expect("pixels of a refused line", kept_outside(0), 1);
}

/* Everything wrong at once, mended one by one in the order of the numbers: 1, 2, 5, 4. */
static void refusals_in_order(void)
{
    kuthbareen_state chip = showing(256);
    lay_patterns();
    chip.control.port.code = 64;
    chip.registers[0] |= 0x01;
    refused("1 first", &chip, 65535, 224, 319, KUTHBAREEN_BAD_STATE);
    chip.control.port.code = 63;
    refused("2 for VRAM", &chip, 65535, 224, 319, KUTHBAREEN_BAD_BUFFER);
    refused("2 for the pixels", &chip, 65536, 224, 319, KUTHBAREEN_BAD_BUFFER);
    refused("then 5", &chip, 65536, 224, 320, KUTHBAREEN_NO_SUCH_PLACE);
    refused("then 4", &chip, 65536, 223, 320, KUTHBAREEN_NOT_MODELLED);
    chip.registers[0] &= 0xFE;
    expect("all mended", draw(&chip, 223).number, KUTHBAREEN_DONE);
    refused("VRAM long", &chip, 65537, 0, 320, KUTHBAREEN_BAD_BUFFER);
    refused("VRAM empty", &chip, 0, 0, 320, KUTHBAREEN_BAD_BUFFER);
    refused("pixels long", &chip, 65536, 0, 321, KUTHBAREEN_BAD_BUFFER);
    refused("pixels for the width alone", &chip, 65536, 0, 256, KUTHBAREEN_BAD_BUFFER);
    refused("no pixels", &chip, 65536, 0, 0, KUTHBAREEN_BAD_BUFFER);
    refused("the last number", &chip, 65536, UINT32_MAX, 320, KUTHBAREEN_NO_SUCH_PLACE);
    chip.registers[1] |= 0x08;
    expect("line 239", draw(&chip, 239).number, KUTHBAREEN_DONE);
    refused("line 240", &chip, 65536, 240, 320, KUTHBAREEN_NO_SUCH_PLACE);
}

/* Each register bit that is not modelled, shown and blanked. */
static void not_modelled(void)
{
    static const uint8_t wrong[][2] = {{0, 0x01},  {0, 0x08},  {1, 0xC4},  {1, 0x45},  {1, 0x40},
                                       {12, 0x80}, {12, 0x01}, {12, 0x83}, {12, 0x85}, {12, 0x8B},
                                       {12, 0x8D}, {16, 0x02}, {16, 0x20}, {16, 0x31}, {16, 0x13}};
    unsigned i, blank;
    lay_patterns();
    for (i = 0; i < sizeof wrong / sizeof wrong[0]; i++)
        for (blank = 0; blank < 2; blank++) {
            kuthbareen_state chip = showing(320);
            chip.registers[wrong[i][0]] = wrong[i][1];
            if (blank)
                chip.registers[1] &= 0xBF;
            refused("not modelled", &chip, 65536, 0, 320, KUTHBAREEN_NOT_MODELLED);
        }
}

int main(void)
{
    unsigned width;
    for (width = 256; width <= 320; width += 64) {
        one_cell(width);
        window(width);
        one_sprite(width);
        limits(width, width / 16);
        all_masking(width);
        used_up(width);
        blanked(width);
    }
    scroll_modes();
    priorities();
    two_sprites();
    refusals_in_order();
    not_modelled();
    return tested();
}
