/* Tests of judging captures and of batches. What must come is told by how a capture was spoilt, by lines that
 * kuthbareen_line draws, and by counting here; it is never told by another judgement. */
#include "sheets.h"

_Static_assert(KUTHBAREEN_LIMIT == 4294967295u, "limit");
_Static_assert(sizeof(kuthbareen_judgement) == 8, "judgement");
_Static_assert(offsetof(kuthbareen_judgement, equal) == 1, "equal");
_Static_assert(offsetof(kuthbareen_judgement, column) == 4, "column");
_Static_assert(sizeof(kuthbareen_worst) == 12, "worst line");
_Static_assert(offsetof(kuthbareen_worst, place) == 4, "place");
_Static_assert(offsetof(kuthbareen_worst, differing) == 8, "its differing pixels");
_Static_assert(sizeof(kuthbareen_batch) == 28, "batch");
_Static_assert(offsetof(kuthbareen_batch, equal) == 4, "equal lines");
_Static_assert(offsetof(kuthbareen_batch, differing) == 8, "differing pixels");
_Static_assert(offsetof(kuthbareen_batch, visible) == 12, "visible pixels");
_Static_assert(offsetof(kuthbareen_batch, worst) == 16, "worst line");
_Static_assert(sizeof(kuthbareen_batch_answer) == 32, "batch answer");
_Static_assert(offsetof(kuthbareen_batch_answer, batch) == 4, "batch left");

enum { LIMIT_NUMBER = 15, NUMBERS = 16 };

static const uint32_t limit = 4294967295u;

/* The capture, with room for one byte too many, and copies of all that a call is lent. */
static uint8_t capture[KUTHBAREEN_LINE_SIZE + 1];
static struct {
    uint8_t chip[sizeof(kuthbareen_state)], vram[sizeof vram], capture[sizeof capture];
} before;

/* How often each number was told of states at random and of batches at random. */
static unsigned long told[NUMBERS];

static uint32_t seed = 1;

static unsigned below(unsigned n)
{
    seed = seed * 1664525 + 1013904223;
    return (seed >> 16) % n;
}

/* ---- the calls, which leave all they are lent as it was */

static void keep(const kuthbareen_state *chip)
{
    memcpy(before.chip, chip, sizeof before.chip);
    memcpy(before.vram, vram, sizeof before.vram);
    memcpy(before.capture, capture, sizeof before.capture);
}

static void kept(const kuthbareen_state *chip)
{
    expect("state stays", (unsigned long)memcmp(before.chip, chip, sizeof before.chip), 0);
    expect("VRAM stays", (unsigned long)memcmp(before.vram, vram, sizeof before.vram), 0);
    expect("capture stays", (unsigned long)memcmp(before.capture, capture, sizeof before.capture), 0);
}

static kuthbareen_judgement judge(const kuthbareen_state *chip, size_t vram_size, uint32_t line, size_t size)
{
    kuthbareen_judgement j;
    keep(chip);
    j = kuthbareen_judge_line(chip, vram, vram_size, line, capture, size);
    kept(chip);
    return j;
}

static kuthbareen_batch_answer add(const kuthbareen_state *chip, size_t vram_size, uint32_t line, size_t size,
                                   kuthbareen_batch batch)
{
    kuthbareen_batch_answer a;
    keep(chip);
    a = kuthbareen_add_line(chip, vram, vram_size, line, capture, size, batch);
    kept(chip);
    return a;
}

/* ---- what there is to compare */

static void judged(const char *what, kuthbareen_judgement j, unsigned number, bool equal, uint32_t column)
{
    expect(what, j.number, number);
    expect(what, j.equal, equal);
    expect(what, j.column, column);
}

static void equal(const char *what, const kuthbareen_state *chip, uint32_t line)
{
    judged(what, judge(chip, KUTHBAREEN_VRAM_SIZE, line, KUTHBAREEN_LINE_SIZE), KUTHBAREEN_DONE, true, 0);
}

static void differs(const char *what, const kuthbareen_state *chip, uint32_t line, uint32_t column)
{
    judged(what, judge(chip, KUTHBAREEN_VRAM_SIZE, line, KUTHBAREEN_LINE_SIZE), KUTHBAREEN_DONE, false, column);
}

static bool same_worst(kuthbareen_worst a, kuthbareen_worst b)
{
    return a.there == b.there && a.place == b.place && a.differing == b.differing;
}

static bool same_batch(kuthbareen_batch a, kuthbareen_batch b)
{
    return a.lines == b.lines && a.equal == b.equal && a.differing == b.differing && a.visible == b.visible &&
           same_worst(a.worst, b.worst);
}

static void answered(const char *what, kuthbareen_batch_answer a, unsigned number, kuthbareen_batch wanted)
{
    expect(what, a.number, number);
    expect(what, a.batch.lines, wanted.lines);
    expect(what, a.batch.equal, wanted.equal);
    expect(what, a.batch.differing, wanted.differing);
    expect(what, a.batch.visible, wanted.visible);
    expect(what, a.batch.worst.there, wanted.worst.there);
    expect(what, a.batch.worst.place, wanted.worst.place);
    expect(what, a.batch.worst.differing, wanted.worst.differing);
}

/* ---- captures */

/* Draws a line into the capture, and leaves the chip as it is. */
static void take(const kuthbareen_state *chip, uint32_t line)
{
    kuthbareen_state drawing = *chip;
    memset(capture, KEPT, sizeof capture);
    expect("taken", kuthbareen_line(&drawing, vram, KUTHBAREEN_VRAM_SIZE, line, capture, KUTHBAREEN_LINE_SIZE).number,
           KUTHBAREEN_DONE);
}

/* Spoils so many columns of the capture, each with a chance alike, and gives the first, or the width for none. */
static uint32_t spoil(unsigned n, unsigned width)
{
    uint32_t first = width;
    unsigned x;
    for (x = 0; x < width; x++)
        if (below(width - x) < n) {
            capture[x] ^= (uint8_t)(1 + below(255));
            first = first < width ? first : x;
            n--;
        }
    return first;
}

/* Planes full of cells, and sprites, of which the first two overlap. */
enum { LAID = 6 };

static void lay_scene(void)
{
    static const struct {
        int y, x;
        unsigned size, high, palette, flips, name;
    } list[LAID] = {
        {20, 30, 5, 0, 3, 0, 20},  {28, 38, 5, 1, 3, 1, 26},   {100, 200, 15, 1, 0, 2, 30},
        {100, 120, 0, 0, 0, 3, 5}, {216, -10, 15, 0, 3, 3, 36}, {-20, 240, 15, 1, 0, 0, 40},
    };
    unsigned i, row, column;
    lay_patterns();
    for (row = 0; row < 32; row++)
        for (column = 0; column < 64; column++) {
            unsigned a = cell((row + column) % 3 == 0, 1, (row + 2 * column) % 4, (row * 7 + column * 5) % 9);
            unsigned b = cell((row * 3 + column) % 5 == 0, 2, (row + column) % 4, (row * 3 + column * 11) % 13);
            put_word(PLANE_A + 2 * (64 * row + column), a);
            put_word(PLANE_B + 2 * (64 * row + column), b);
            paint(&plane_a, 8 * column, 8 * row, a);
            paint(&plane_b, 8 * column, 8 * row, b);
        }
    for (i = LAID; i-- > 0;) {
        unsigned word = cell(list[i].high, list[i].palette, list[i].flips, list[i].name);
        put_sprite(i, list[i].y, list[i].size, (i + 1) % LAID, word, list[i].x);
        paint_sprite(list[i].y, list[i].size, word, list[i].x);
    }
    lay_all(true);
}

/* ---- judging */

/* Lines as they are painted here are equal, with any bytes past the width. */
static void painted(unsigned width)
{
    kuthbareen_state chip = showing(width), drawing = chip;
    unsigned line;
    compare_screen("scene", &drawing, width, LAID);
    for (line = 0; line < 224; line++) {
        memset(capture, (int)line, sizeof capture);
        memcpy(capture, screen[line], width);
        equal("painted", &chip, line);
    }
}

/* Each visible column spoilt in some bits, those of the intensity alone among them. */
static void one_column(unsigned width, uint32_t line)
{
    static const uint8_t bits[] = {0x01, 0x20, 0x3F, 0x40, 0x80, 0xC0, 0xFF};
    kuthbareen_state chip = showing(width);
    unsigned x, i;
    take(&chip, line);
    equal("not spoilt", &chip, line);
    for (x = 0; x < width; x++)
        for (i = 0; i < sizeof bits; i++) {
            capture[x] ^= bits[i];
            differs("one column", &chip, line, x);
            capture[x] ^= bits[i];
        }
}

/* Each byte past the width, alone, and with the last visible column. */
static void past_the_width(void)
{
    kuthbareen_state chip = showing(256);
    unsigned x;
    take(&chip, 33);
    for (x = 256; x < KUTHBAREEN_LINE_SIZE; x++) {
        capture[x] ^= 0xFF;
        equal("past the width", &chip, 33);
        capture[255] ^= 1;
        differs("and inside it", &chip, 33, 255);
        capture[255] ^= 1;
    }
}

/* Columns at random, few or all of them. */
static void many_columns(unsigned width)
{
    kuthbareen_state chip = showing(width);
    unsigned i;
    for (i = 0; i < 300; i++) {
        uint32_t line = below(224);
        unsigned n = 1 + below(i % 3 ? 4 : width);
        take(&chip, line);
        differs("many columns", &chip, line, spoil(n, width));
    }
}

/* The first column of the capture that is not of normal intensity, or the width. */
static uint32_t first_lit(unsigned width)
{
    uint32_t x = 0;
    while (x < width && (capture[x] & KUTHBAREEN_INTENSITY) == 0)
        x++;
    return x;
}

/* With shadow and highlight a capture that has the indices alone differs at its first other intensity. */
static void intensities(unsigned width)
{
    kuthbareen_state chip = showing(width);
    unsigned line, x, lit = 0;
    chip.registers[12] |= 0x08;
    for (line = 0; line < 224; line++) {
        uint32_t first;
        take(&chip, line);
        equal("with intensities", &chip, line);
        first = first_lit(width);
        if (first == width)
            continue;
        lit++;
        for (x = 0; x < width; x++)
            capture[x] &= KUTHBAREEN_INDEX;
        differs("without intensities", &chip, line, first);
    }
    expect("lines with intensities", lit > 100, 1);
}

/* DMA at work and a command that awaits its second half change nothing. */
static void busy(unsigned width)
{
    kuthbareen_state chip = showing(width);
    uint8_t kind;
    take(&chip, 101);
    for (kind = 1; kind <= 4; kind++) {
        chip.control.dma = (kuthbareen_dma){kind, kind == 1 ? 0 : 5, 0, 0};
        chip.control.port.pending = kind % 2 != 0;
        equal("busy", &chip, 101);
        capture[7] ^= 4;
        differs("busy", &chip, 101, 7);
        capture[7] ^= 4;
    }
}

/* A sprite with X 0 masks the one after it, or does not, by used_up as it stands. */
static void masked(unsigned width)
{
    kuthbareen_state chip = showing(width);
    unsigned taken, stands;
    lay_patterns();
    put_sprite(0, 60, 0, 1, cell(0, 1, 0, 1), -128);
    put_sprite(1, 60, 0, 0, cell(0, 1, 0, 1), 16);
    for (taken = 0; taken < 2; taken++)
        for (stands = 0; stands < 2; stands++) {
            chip.control.flags.used_up = taken != 0;
            take(&chip, 60);
            chip.control.flags.used_up = stands != 0;
            if (taken == stands)
                equal("used up as it was", &chip, 60);
            else
                differs("used up otherwise", &chip, 60, 16); /* pattern 1 is solid at the left of its first row */
        }
}

/* A line that sets all three flags where it is drawn, and one that clears used_up: judged, they do neither. */
static void flags_stay(unsigned width)
{
    kuthbareen_state chip = showing(width), drawing = chip;
    unsigned i, most = width / 16 + 1;
    lay_patterns();
    for (i = 0; i < most; i++)
        put_sprite(i, 60, 12, (i + 1) % most, cell(0, 1, 0, 1), 0);
    expect("crowded", draw(&drawing, 60).number, KUTHBAREEN_DONE);
    expect("sets overflow", drawing.control.flags.overflow, 1);
    expect("sets collision", drawing.control.flags.collision, 1);
    expect("sets used up", drawing.control.flags.used_up, 1);
    take(&chip, 60);
    equal("no flag set", &chip, 60);
    add(&chip, KUTHBAREEN_VRAM_SIZE, 60, KUTHBAREEN_LINE_SIZE, kuthbareen_empty_batch());
    chip.control.flags = (kuthbareen_flags){true, true, true};
    take(&chip, 70);
    equal("no flag cleared", &chip, 70);
    add(&chip, KUTHBAREEN_VRAM_SIZE, 70, KUTHBAREEN_LINE_SIZE, kuthbareen_empty_batch());
    drawing = chip;
    draw(&drawing, 70);
    expect("clears used up", drawing.control.flags.used_up, 0);
}

/* ---- refusals */

/* A refused capture is neither equal nor has it a column, and the batch is as it came, also a full one. */
static void refused(const char *what, const kuthbareen_state *chip, size_t vram_size, uint32_t line, size_t size,
                    unsigned wanted)
{
    static const kuthbareen_batch some = {9, 4, 100, 2880, {true, 3, 40}},
                                  full = {4294967295u, 4294967295u, 4294967295u, 4294967295u, {false, 7, 8}};
    judged(what, judge(chip, vram_size, line, size), wanted, false, 0);
    answered(what, add(chip, vram_size, line, size, some), wanted, some);
    answered(what, add(chip, vram_size, line, size, full), wanted, full);
}

/* Everything wrong at once, mended one by one in the order of the numbers: 1, 2, 5, 4, 15. */
static void refusals_in_order(unsigned width)
{
    static const kuthbareen_batch full = {4294967295u, 0, 0, 0, {false, 0, 0}};
    kuthbareen_state chip = showing(width);
    take(&chip, 223);
    chip.control.port.code = 64;
    chip.registers[0] |= 0x01;
    refused("1 first", &chip, 65535, 224, 319, KUTHBAREEN_BAD_STATE);
    chip.control.port.code = 63;
    refused("2 for VRAM", &chip, 65535, 224, 319, KUTHBAREEN_BAD_BUFFER);
    refused("2 for the capture", &chip, 65536, 224, 319, KUTHBAREEN_BAD_BUFFER);
    refused("then 5", &chip, 65536, 224, 320, KUTHBAREEN_NO_SUCH_PLACE);
    refused("then 4", &chip, 65536, 223, 320, KUTHBAREEN_NOT_MODELLED);
    chip.registers[0] &= 0xFE;
    answered("then 15", add(&chip, 65536, 223, 320, full), LIMIT_NUMBER, full);
    equal("all mended", &chip, 223);
}

/* Sizes and line numbers next to those that are right. */
static void refusals_at_the_edges(unsigned width)
{
    kuthbareen_state chip = showing(width);
    take(&chip, 0);
    refused("VRAM short", &chip, 65535, 0, 320, KUTHBAREEN_BAD_BUFFER);
    refused("VRAM long", &chip, 65537, 0, 320, KUTHBAREEN_BAD_BUFFER);
    refused("no VRAM", &chip, 0, 0, 320, KUTHBAREEN_BAD_BUFFER);
    refused("capture short", &chip, 65536, 0, 319, KUTHBAREEN_BAD_BUFFER);
    refused("capture long", &chip, 65536, 0, 321, KUTHBAREEN_BAD_BUFFER);
    refused("a narrow capture", &chip, 65536, 0, 256, KUTHBAREEN_BAD_BUFFER);
    refused("no capture", &chip, 65536, 0, 0, KUTHBAREEN_BAD_BUFFER);
    refused("line 224", &chip, 65536, 224, 320, KUTHBAREEN_NO_SUCH_PLACE);
    refused("the last number", &chip, 65536, UINT32_MAX, 320, KUTHBAREEN_NO_SUCH_PLACE);
    chip.registers[1] |= 0x08;
    refused("line 240", &chip, 65536, 240, 320, KUTHBAREEN_NO_SUCH_PLACE);
    take(&chip, 239);
    equal("line 239", &chip, 239);
}

/* A chip at random: every second one is as it should be. */
static kuthbareen_state some_chip(unsigned width)
{
    kuthbareen_state chip = showing(width);
    chip.control.flags = (kuthbareen_flags){below(2) != 0, below(2) != 0, below(2) != 0};
    chip.registers[1] = (uint8_t)(chip.registers[1] ^ (below(2) ? 0x08 : 0) ^ (below(4) ? 0 : 0x40));
    chip.registers[12] ^= below(2) ? 0x08 : 0;
    if (below(4) == 0)
        chip.registers[0] ^= 0x01;
    if (below(6) == 0)
        chip.registers[16] ^= 0x02;
    if (below(6) == 0)
        chip.control.port.code = 64;
    return chip;
}

/* Captures of chips at random are refused as their lines are, and differ where the bytes do. */
static void as_drawn(void)
{
    unsigned i;
    for (i = 0; i < 4000; i++) {
        unsigned width = below(2) ? 320 : 256;
        kuthbareen_state chip = some_chip(width), drawing = chip;
        uint32_t line = below(250);
        size_t size = below(6) ? 320 : 319 + 2 * below(2), vram_size = below(6) ? 65536 : 65535 + 2 * below(2);
        uint8_t number;
        memset(capture, KEPT, sizeof capture);
        number = kuthbareen_line(&drawing, vram, vram_size, line, capture, size).number;
        told[number]++;
        if (number != KUTHBAREEN_DONE)
            refused("as drawn", &chip, vram_size, line, size, number);
        else if (below(3) == 0)
            equal("as drawn", &chip, line);
        else
            differs("as drawn", &chip, line, spoil(1 + below(3), width));
    }
    expect("0 as drawn", told[0] > 100, 1);
    expect("1 as drawn", told[1] > 100, 1);
    expect("2 as drawn", told[2] > 100, 1);
    expect("5 as drawn", told[5] > 100, 1);
    expect("4 as drawn", told[4] > 100, 1);
}

/* ---- lines that are added */

/* A capture of line 50 with so many differing pixels, added. */
static kuthbareen_batch_answer add_spoilt(unsigned width, unsigned differing, kuthbareen_batch batch)
{
    kuthbareen_state chip = showing(width);
    take(&chip, 50);
    spoil(differing, width);
    return add(&chip, KUTHBAREEN_VRAM_SIZE, 50, KUTHBAREEN_LINE_SIZE, batch);
}

static void empty(void)
{
    kuthbareen_batch_answer a = {0, kuthbareen_empty_batch()};
    answered("empty", a, 0, (kuthbareen_batch){0, 0, 0, 0, {false, 0, 0}});
}

/* An equal line is the worst while there is no other; of lines that are tied the first stays. */
static void one_after_the_other(unsigned width)
{
    static const unsigned differing[] = {0, 0, 3, 7, 7, 2, 256, 256, 0, 8};
    static const uint32_t equals[] = {1, 2, 2, 2, 2, 2, 2, 2, 3, 3},
                          sums[] = {0, 0, 3, 10, 17, 19, 275, 531, 531, 539},
                          places[] = {0, 0, 2, 3, 3, 3, 6, 6, 6, 6}, worst[] = {0, 0, 3, 7, 7, 7, 256, 256, 256, 256};
    kuthbareen_batch batch = kuthbareen_empty_batch();
    unsigned i;
    for (i = 0; i < sizeof differing / sizeof differing[0]; i++) {
        kuthbareen_batch_answer a = add_spoilt(width, differing[i], batch);
        answered("one after the other", a, KUTHBAREEN_DONE,
                 (kuthbareen_batch){i + 1, equals[i], sums[i], (i + 1) * width, {true, places[i], worst[i]}});
        batch = a.batch;
    }
}

/* Each total at the limit and one past it, by what the line adds. */
static void adds_to_the_limit(unsigned width)
{
    const kuthbareen_batch lines = {limit - 1, 0, 0, 0, {true, 0, 9}}, equals = {5, limit - 1, 0, 0, {true, 0, 9}},
                           differing = {5, 0, limit - 7, 0, {true, 0, 9}},
                           visible = {5, 0, 0, limit - width, {true, 0, 9}};
    kuthbareen_batch batch;
    batch = (kuthbareen_batch){limit, 1, 0, width, {true, 0, 9}};
    answered("lines to the limit", add_spoilt(width, 0, lines), KUTHBAREEN_DONE, batch);
    answered("lines past it", add_spoilt(width, 0, batch), LIMIT_NUMBER, batch);
    batch = (kuthbareen_batch){6, limit, 0, width, {true, 0, 9}};
    answered("equal lines to the limit", add_spoilt(width, 0, equals), KUTHBAREEN_DONE, batch);
    answered("equal lines past it", add_spoilt(width, 0, batch), LIMIT_NUMBER, batch);
    answered("one that differs adds none", add_spoilt(width, 1, batch), KUTHBAREEN_DONE,
             (kuthbareen_batch){7, limit, 1, 2 * width, {true, 0, 9}});
    batch = (kuthbareen_batch){6, 0, limit, width, {true, 0, 9}};
    answered("differing pixels to the limit", add_spoilt(width, 7, differing), KUTHBAREEN_DONE, batch);
    answered("differing pixels past it", add_spoilt(width, 8, differing), LIMIT_NUMBER, differing);
    answered("an equal line adds none", add_spoilt(width, 0, batch), KUTHBAREEN_DONE,
             (kuthbareen_batch){7, 1, limit, 2 * width, {true, 0, 9}});
    batch = (kuthbareen_batch){6, 1, 0, limit, {true, 0, 9}};
    answered("visible pixels to the limit", add_spoilt(width, 0, visible), KUTHBAREEN_DONE, batch);
    batch = visible;
    batch.visible++;
    answered("visible pixels past it", add_spoilt(width, 0, batch), LIMIT_NUMBER, batch);
}

/* Batches that no captures led to: numbers where there is no worst line stand for nothing. */
static void adds_to_any_numbers(unsigned width)
{
    answered("lines and no worst line", add_spoilt(width, 2, (kuthbareen_batch){1000, 3, 1, 2, {false, 0, 0}}),
             KUTHBAREEN_DONE, (kuthbareen_batch){1001, 3, 3, 2 + width, {true, 1000, 2}});
    answered("no worst line, but numbers", add_spoilt(width, 0, (kuthbareen_batch){2, 9, 0, 0, {false, 5, limit}}),
             KUTHBAREEN_DONE, (kuthbareen_batch){3, 10, 0, width, {true, 2, 0}});
    answered("a place above the lines", add_spoilt(width, 6, (kuthbareen_batch){0, 0, 0, 0, {true, limit, 6}}),
             KUTHBAREEN_DONE, (kuthbareen_batch){1, 0, 6, width, {true, limit, 6}});
    answered("one more differs", add_spoilt(width, 7, (kuthbareen_batch){0, 0, 0, 0, {true, limit, 6}}),
             KUTHBAREEN_DONE, (kuthbareen_batch){1, 0, 7, width, {true, 0, 7}});
}

/* ---- batches that are joined */

static void joins(const char *what, kuthbareen_batch a, kuthbareen_batch b, unsigned number, kuthbareen_batch wanted)
{
    answered(what, kuthbareen_join_batches(a, b), number, wanted);
}

static void joins_worst_lines(void)
{
    const kuthbareen_batch none = {0, 0, 0, 0, {false, 0, 0}}, a = {10, 4, 50, 3000, {true, 7, 20}},
                           less = {5, 1, 30, 1500, {true, 2, 19}}, tied = {5, 1, 30, 1500, {true, 2, 20}},
                           more = {5, 1, 30, 1500, {true, 2, 21}}, no_worst = {5, 1, 30, 1500, {false, limit, limit}};
    joins("none and none", none, none, KUTHBAREEN_DONE, none);
    joins("none before", none, a, KUTHBAREEN_DONE, a);
    joins("none behind", a, none, KUTHBAREEN_DONE, a);
    joins("less", a, less, KUTHBAREEN_DONE, (kuthbareen_batch){15, 5, 80, 4500, {true, 7, 20}});
    joins("tied", a, tied, KUTHBAREEN_DONE, (kuthbareen_batch){15, 5, 80, 4500, {true, 7, 20}});
    joins("more", a, more, KUTHBAREEN_DONE, (kuthbareen_batch){15, 5, 80, 4500, {true, 12, 21}});
    joins("no worst line behind", a, no_worst, KUTHBAREEN_DONE,
          (kuthbareen_batch){15, 5, 80, 4500, {true, 7, 20}});
    joins("no worst line before", no_worst, less, KUTHBAREEN_DONE,
          (kuthbareen_batch){10, 2, 60, 3000, {true, 7, 19}});
    joins("no worst line at all", no_worst, no_worst, KUTHBAREEN_DONE,
          (kuthbareen_batch){10, 2, 60, 3000, {false, limit, limit}});
}

/* Each total and the place at the limit and one past it. */
static void joins_to_the_limit(void)
{
    const kuthbareen_batch a = {1, 2, 3, 4, {true, 0, 50}}, far = {9, 0, 0, 0, {true, limit - 1, 40}},
                           farther = {9, 0, 0, 0, {true, limit, 40}}, worse = {9, 0, 0, 0, {true, limit, 60}},
                           nowhere = {9, 0, 0, 0, {false, limit, 60}};
    unsigned past;
    for (past = 0; past < 2; past++) {
        unsigned number = past ? LIMIT_NUMBER : KUTHBAREEN_DONE;
        joins("lines", a, (kuthbareen_batch){limit - 1 + past, 0, 0, 0, {false, 0, 0}}, number,
              past ? a : (kuthbareen_batch){limit, 2, 3, 4, {true, 0, 50}});
        joins("equal lines", a, (kuthbareen_batch){0, limit - 2 + past, 0, 0, {false, 0, 0}}, number,
              past ? a : (kuthbareen_batch){1, limit, 3, 4, {true, 0, 50}});
        joins("differing pixels", a, (kuthbareen_batch){0, 0, limit - 3 + past, 0, {false, 0, 0}}, number,
              past ? a : (kuthbareen_batch){1, 2, limit, 4, {true, 0, 50}});
        joins("visible pixels", a, (kuthbareen_batch){0, 0, 0, limit - 4 + past, {false, 0, 0}}, number,
              past ? a : (kuthbareen_batch){1, 2, 3, limit, {true, 0, 50}});
    }
    joins("a place at the limit", a, far, KUTHBAREEN_DONE, (kuthbareen_batch){10, 2, 3, 4, {true, 0, 50}});
    joins("a place past it, not worse", a, farther, LIMIT_NUMBER, a);
    joins("a place past it, worse", a, worse, LIMIT_NUMBER, a);
    joins("no place is asked", a, nowhere, KUTHBAREEN_DONE, (kuthbareen_batch){10, 2, 3, 4, {true, 0, 50}});
    joins("the first's place is not moved", worse, a, KUTHBAREEN_DONE,
          (kuthbareen_batch){10, 2, 3, 4, {true, limit, 60}});
}

/* The limit, asked in 64 bits. */
static bool passes(uint32_t a, uint32_t b)
{
    return (uint64_t)a + b > 4294967295u;
}

/* What joining must answer. */
static kuthbareen_batch_answer joined(kuthbareen_batch a, kuthbareen_batch b)
{
    kuthbareen_batch_answer j = {LIMIT_NUMBER, a};
    if (passes(a.lines, b.lines) || passes(a.equal, b.equal) || passes(a.differing, b.differing) ||
        passes(a.visible, b.visible) || (b.worst.there && passes(a.lines, b.worst.place)))
        return j;
    j = (kuthbareen_batch_answer){
        0, {a.lines + b.lines, a.equal + b.equal, a.differing + b.differing, a.visible + b.visible, a.worst}};
    if (b.worst.there && (!a.worst.there || b.worst.differing > a.worst.differing))
        j.batch.worst = (kuthbareen_worst){true, a.lines + b.worst.place, b.worst.differing};
    return j;
}

/* A number at random: small, or near the limit or its half. */
static uint32_t some_number(void)
{
    switch (below(12)) {
    case 0: return limit - below(4);
    case 1: return limit / 2 + below(4);
    default: return below(6);
    }
}

static kuthbareen_batch some_batch(void)
{
    kuthbareen_batch b = {some_number(), some_number(), some_number(), some_number(), {false, 0, 0}};
    b.worst = (kuthbareen_worst){below(4) != 0, some_number(), some_number()};
    return b;
}

/* Two batches of any numbers. */
static void joins_any_numbers(void)
{
    unsigned long joins_told[NUMBERS] = {0};
    unsigned i;
    for (i = 0; i < 20000; i++) {
        kuthbareen_batch a = some_batch(), b = some_batch();
        kuthbareen_batch_answer wanted = joined(a, b);
        joins("any numbers", a, b, wanted.number, wanted.batch);
        joins_told[wanted.number]++;
    }
    expect("joins done", joins_told[KUTHBAREEN_DONE] > 1000, 1);
    expect("joins past the limit", joins_told[LIMIT_NUMBER] > 1000, 1);
}

/* ---- batches of lists of captures */

enum { MOST = 8 };

/* A capture with its chip and line number; how many pixels differ, and the number that judging it must answer. */
typedef struct {
    kuthbareen_state chip;
    uint32_t line;
    uint8_t bytes[sizeof capture];
    unsigned differing, width;
    unsigned number;
} captured;

/* One of a line that there is, spoilt or not, or of one that there is not. */
static captured some_capture(void)
{
    captured c = {.line = below(224), .width = below(2) ? 320 : 256};
    c.chip = showing(c.width);
    take(&c.chip, c.line);
    if (below(2))
        c.differing = below(below(2) ? 3 : c.width + 1);
    spoil(c.differing, c.width);
    memcpy(c.bytes, capture, sizeof c.bytes);
    if (below(5) == 0) {
        c.line += 224;
        c.number = KUTHBAREEN_NO_SUCH_PLACE;
    }
    return c;
}

/* The batch of a list, each capture of which is counted here as well. */
static kuthbareen_batch batch_of(const captured *list, unsigned n)
{
    kuthbareen_batch batch = kuthbareen_empty_batch(), wanted = batch;
    unsigned i;
    for (i = 0; i < n; i++) {
        const captured *c = &list[i];
        kuthbareen_batch_answer a;
        memcpy(capture, c->bytes, sizeof capture);
        a = add(&c->chip, KUTHBAREEN_VRAM_SIZE, c->line, KUTHBAREEN_LINE_SIZE, batch);
        if (c->number == KUTHBAREEN_DONE) {
            if (!wanted.worst.there || wanted.worst.differing < c->differing)
                wanted.worst = (kuthbareen_worst){true, wanted.lines, c->differing};
            wanted.lines++;
            wanted.equal += c->differing == 0;
            wanted.differing += c->differing;
            wanted.visible += c->width;
        }
        answered("a list", a, c->number, wanted);
        batch = a.batch;
    }
    return batch;
}

/* Two lists, each of none at times, joined: as one list. */
static void lists(void)
{
    captured list[2 * MOST];
    unsigned i, k, first_stays = 0, second_takes = 0;
    for (i = 0; i < 300; i++) {
        unsigned n = below(MOST + 1), m = below(MOST + 1);
        kuthbareen_batch a, b, both;
        for (k = 0; k < n + m; k++)
            list[k] = some_capture();
        a = batch_of(list, n);
        b = batch_of(list + n, m);
        both = batch_of(list, n + m);
        joins("two lists", a, b, KUTHBAREEN_DONE, both);
        first_stays += a.worst.there && b.worst.there && both.worst.place < a.lines;
        second_takes += a.worst.there && b.worst.there && both.worst.place >= a.lines;
    }
    expect("worst lines of first lists", first_stays > 30, 1);
    expect("worst lines of second lists", second_takes > 30, 1);
}

static bool placed(kuthbareen_batch b)
{
    return !b.worst.there || b.worst.place < b.lines;
}

/* Three batches: what is within the limit one way is within it the other way, and both leave the same. From the right
 * that holds of batches whose places are below their lines. */
static void associates(void)
{
    unsigned long left = 0, right = 0;
    unsigned i;
    for (i = 0; i < 20000; i++) {
        kuthbareen_batch a = some_batch(), b = some_batch(), c = some_batch();
        kuthbareen_batch_answer ab = kuthbareen_join_batches(a, b), bc = kuthbareen_join_batches(b, c);
        kuthbareen_batch_answer ab_c = kuthbareen_join_batches(ab.batch, c);
        kuthbareen_batch_answer a_bc = kuthbareen_join_batches(a, bc.batch);
        bool from_left = ab.number == 0 && ab_c.number == 0;
        bool from_right = placed(b) && placed(c) && bc.number == 0 && a_bc.number == 0;
        left += from_left;
        right += from_right;
        if (from_left || from_right) {
            expect("associates within the limit", ab.number + ab_c.number + bc.number + a_bc.number, 0);
            expect("both ways leave the same", same_batch(ab_c.batch, a_bc.batch), 1);
        }
    }
    expect("from the left", left > 500, 1);
    expect("from the right", right > 500, 1);
}

/* The place that is too far is asked only where the first two are joined first. */
static void place_not_below_the_lines(void)
{
    const kuthbareen_batch a = {1, 0, 0, 0, {false, 0, 0}}, b = {1, 0, 0, 0, {true, limit, 5}},
                           c = {1, 0, 0, 0, {true, 0, 6}};
    joins("the last two", b, c, KUTHBAREEN_DONE, (kuthbareen_batch){2, 0, 0, 0, {true, 1, 6}});
    joins("and the first", a, (kuthbareen_batch){2, 0, 0, 0, {true, 1, 6}}, KUTHBAREEN_DONE,
          (kuthbareen_batch){3, 0, 0, 0, {true, 2, 6}});
    joins("the first two", a, b, LIMIT_NUMBER, a);
}

int main(void)
{
    unsigned width;
    for (width = 256; width <= 320; width += 64) {
        lay_scene();
        painted(width);
        one_column(width, 0);
        one_column(width, 105);
        one_column(width, 223);
        many_columns(width);
        intensities(width);
        busy(width);
        refusals_in_order(width);
        refusals_at_the_edges(width);
        one_after_the_other(width);
        adds_to_the_limit(width);
        adds_to_any_numbers(width);
        masked(width);
        flags_stay(width);
    }
    lay_scene();
    past_the_width();
    as_drawn();
    empty();
    joins_worst_lines();
    joins_to_the_limit();
    joins_any_numbers();
    lists();
    associates();
    place_not_below_the_lines();
    return tested();
}
