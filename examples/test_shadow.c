/* Tests of kuthbareen_line with shadow and highlight, register 12 bit 3. */
#include "sheets.h"

/* Sprites of 2 x 1 cells, 16 on each of the upper rows of cells. */
enum { ROWS = 4, ON_A_ROW = 16 };

static kuthbareen_state shadowing(unsigned width)
{
    kuthbareen_state chip = showing(width);
    chip.registers[12] |= 0x08;
    return chip;
}

static bool solid_and_high(const sheet *s, unsigned y, unsigned x)
{
    return s->index[y][x] != 0 && s->high[y][x];
}

/* The pixel byte where backdrop and planes show `behind` and a sprite lies in front of them. */
static unsigned under(unsigned sprite, bool high, unsigned behind, unsigned intensity)
{
    if (sprite == 0x3E)
        return behind + KUTHBAREEN_HALF;
    if (sprite == 0x3F)
        return behind + (intensity == KUTHBAREEN_HALF ? KUTHBAREEN_NORMAL : KUTHBAREEN_DOUBLE);
    return sprite + (high || sprite % 16 == 14 ? KUTHBAREEN_NORMAL : intensity);
}

/* The screen with its intensities. */
static void lay_shaded(void)
{
    unsigned x, y;
    lay_all(false);
    for (y = 0; y < HIGH; y++)
        for (x = 0; x < WIDE; x++) {
            unsigned intensity = plane_a.priority[y][x] || plane_b.priority[y][x] ? KUTHBAREEN_NORMAL : KUTHBAREEN_HALF;
            unsigned sprite = sprites.index[y][x];
            bool high = sprites.high[y][x];
            bool hidden = !high && (solid_and_high(&plane_a, y, x) || solid_and_high(&plane_b, y, x));
            screen[y][x] = (uint8_t)(sprite == 0 || hidden ? screen[y][x] + intensity
                                                           : under(sprite, high, screen[y][x], intensity));
        }
}

/* How many pixels of the lines have this intensity. */
static unsigned long pixels_of(unsigned width, unsigned intensity)
{
    unsigned long found = 0;
    unsigned x, y;
    for (y = 0; y < 224; y++)
        for (x = 0; x < width; x++)
            found += (screen[y][x] & KUTHBAREEN_INTENSITY) == (int)intensity;
    return found;
}

/* A cell of plane A, and under the window one whose priority is the other way. Every fifth is clear. */
static void put_cells(unsigned column, unsigned row, unsigned wide, unsigned edge)
{
    unsigned n = row * 40 + column, name = n % 5 == 0 ? 0 : 1 + n * 7 % 60;
    unsigned shown = cell(column & 1, n % 4, n / 4 % 4, name), other = cell(!(column & 1), 1, 0, 1 + n % 60);
    unsigned b = cell((column / 2 + row) & 1, n / 2 % 4, n % 4, n % 3 == 0 ? 0 : 1 + n * 11 % 60);
    put_word(PLANE_A + 2 * (row * 64 + column), column < edge ? other : shown);
    put_word(WINDOW + 2 * (row * wide + column), column < edge ? shown : other);
    put_word(PLANE_B + 2 * (row * 64 + column), b);
    paint(&plane_a, 8 * column, 8 * row, shown);
    paint(&plane_b, 8 * column, 8 * row, b);
}

/* Cells with and without priority, clear and solid, over the whole screen, the window on its left half or not, and
 * sprites of all palettes over the upper rows. The patterns have every pixel. */
static void put_scene(unsigned width, unsigned edge)
{
    unsigned column, row, n;
    lay_patterns();
    for (row = 0; row < 28; row++)
        for (column = 0; column < width / 8; column++)
            put_cells(column, row, width == 320 ? 64 : 32, edge);
    for (n = 0; n < ROWS * ON_A_ROW; n++) {
        int y = 8 * (int)(n / ON_A_ROW), x = 16 * (int)(n % ON_A_ROW);
        unsigned word = cell((n / 2 + n / ON_A_ROW) & 1, n % 3 == 0 ? n / 3 % 3 : 3, n / 4 % 4, 1 + n * 13 % 60);
        put_sprite(n, y, 4, (n + 1) % (ROWS * ON_A_ROW), word, x);
        paint_sprite(y, 4, word, x);
    }
}

/* Every line, with bit 3 and without. */
static void scene(unsigned width, unsigned edge)
{
    kuthbareen_state chip = shadowing(width);
    chip.registers[17] = (uint8_t)(edge / 2);
    put_scene(width, edge);
    lay_shaded();
    expect("some at normal intensity", pixels_of(width, KUTHBAREEN_NORMAL) > 0, 1);
    expect("some at half", pixels_of(width, KUTHBAREEN_HALF) > 0, 1);
    expect("some at double", pixels_of(width, KUTHBAREEN_DOUBLE) > 0, 1);
    compare_screen("shadow", &chip, width, ROWS * ON_A_ROW);
    expect("no collision", chip.control.flags.collision, 0);
    chip.registers[12] ^= 0x08;
    lay_all(true);
    compare_screen("bit 3 clear", &chip, width, ROWS * ON_A_ROW);
}

/* An operator before another sprite keeps its column, and behind one it does nothing; both collide. */
static void two_sprites(unsigned width)
{
    unsigned first;
    for (first = 0; first < 2; first++) {
        unsigned words[2] = {cell(first, 3, 0, 30), cell(!first, 0, 3, 40)};
        kuthbareen_state chip = shadowing(width);
        lay_patterns();
        put_sprite(0, 50, 5, 1, words[first], 100);
        put_sprite(1, 55, 10, 0, words[!first], 107);
        paint_sprite(55, 10, words[!first], 107);
        paint_sprite(50, 5, words[first], 100);
        lay_shaded();
        compare_screen("two sprites", &chip, width, 2);
        expect("collision", chip.control.flags.collision, 1);
    }
}

/* Two sprites of 3Eh and 3Fh alone, the second a column further right: 3Fh of the first meets 3Eh of the second. */
static void operators_alone(unsigned width)
{
    kuthbareen_state chip = shadowing(width);
    lay_patterns();
    memset(vram + 32 * 63, 0, 4);
    vram[32 * 63] = 0xEF;
    put_sprite(0, 60, 0, 1, cell(0, 3, 0, 63), 20);
    put_sprite(1, 60, 0, 0, cell(0, 3, 0, 63), 21);
    expect("operators", draw(&chip, 60).number, KUTHBAREEN_DONE);
    expect("3Eh on the backdrop", pixels[MARGIN + 20], BACKDROP + KUTHBAREEN_HALF);
    expect("3Fh before 3Eh", pixels[MARGIN + 21], BACKDROP + KUTHBAREEN_NORMAL);
    expect("3Fh of the second", pixels[MARGIN + 22], BACKDROP + KUTHBAREEN_NORMAL);
    expect("beside them", pixels[MARGIN + 23], BACKDROP + KUTHBAREEN_HALF);
    expect("collision", chip.control.flags.collision, 1);
}

/* The backdrop of a blanked line is its bare index. */
static void blanked(unsigned width)
{
    unsigned i;
    kuthbareen_state chip = shadowing(width), before;
    put_scene(width, 0);
    chip.registers[1] = 0x04;
    before = chip;
    expect("blanked", draw(&chip, 0).number, KUTHBAREEN_DONE);
    for (i = 0; i < width; i++)
        expect("backdrop", pixels[MARGIN + i], BACKDROP);
    expect("state as it came", same_state(&chip, &before), 1);
}

int main(void)
{
    unsigned width;
    for (width = 256; width <= 320; width += 64) {
        scene(width, 0);
        scene(width, width / 16);
        two_sprites(width);
        operators_alone(width);
        blanked(width);
    }
    return tested();
}
