/* Tests of frame timing. What is expected is said in another way than the model's: the lines on which the counter
 * expires by a remainder, the V counter by counting up and jumping back once. */
#include "testing.h"

enum { LINES = KUTHBAREEN_LAST_LINE + 1, BELOW = 224 };

/* A frame of recorded lines, each with an acknowledge. */
enum { TAPE_SIZE = 2 * LINES * KUTHBAREEN_RECORD_SIZE };

static uint8_t vram[KUTHBAREEN_VRAM_SIZE], tape[TAPE_SIZE];

/* A fresh state with register 10 and the two bits that enable interrupts. */
static kuthbareen_state enabled(unsigned reload, bool horizontal, bool vertical)
{
    kuthbareen_state chip = kuthbareen_fresh(false);
    chip.registers[10] = (uint8_t)reload;
    chip.registers[0] = horizontal ? 0x10 : 0xEF;
    chip.registers[1] = vertical ? 0x20 : 0xDF;
    return chip;
}

static unsigned long level(kuthbareen_state *chip)
{
    kuthbareen_answer a = kuthbareen_level_offered(chip);
    expect("level read", a.number, KUTHBAREEN_DONE);
    return a.result;
}

static unsigned long status(kuthbareen_state *chip)
{
    return kuthbareen_status_read(chip).result;
}

/* Whether the counter expires on a line, where register 10 holds this number through the frame. */
static bool expires(unsigned line, unsigned reload)
{
    return line <= BELOW && (line + 1) % (reload + 1) == 0;
}

/* Frames in which each level is acknowledged as it comes: level 4 first, and level 6 on line 224. */
static void frames(unsigned reload, bool horizontal, bool vertical)
{
    kuthbareen_state chip = enabled(reload, horizontal, vertical);
    unsigned i;
    for (i = 0; i < 2 * LINES; i++) {
        unsigned line = i % LINES;
        expect("line begins", kuthbareen_line_begins(&chip).number, KUTHBAREEN_DONE);
        expect("line", chip.control.timing.line, line);
        if (horizontal && expires(line, reload)) {
            expect("level 4", level(&chip), 4);
            expect("acknowledge of 6 then", kuthbareen_acknowledge(&chip, 6).number, KUTHBAREEN_NOTHING_THERE);
            expect("acknowledge of 4", kuthbareen_acknowledge(&chip, 4).number, KUTHBAREEN_DONE);
        }
        if (line == BELOW && vertical) {
            expect("level 6", level(&chip), 6);
            expect("acknowledge of 4 then", kuthbareen_acknowledge(&chip, 4).number, KUTHBAREEN_NOTHING_THERE);
            expect("acknowledge of 6", kuthbareen_acknowledge(&chip, 6).number, KUTHBAREEN_DONE);
        }
        expect("no level", level(&chip), 0);
        expect("vertical", chip.control.timing.vertical, !vertical && i >= BELOW);
        expect("counter at the end of a frame", line > BELOW ? chip.control.timing.counter : reload, reload);
    }
}

/* A wait stays until it is acknowledged, also once its bit of register 0 is clear; so does status bit 7. */
static void waits(void)
{
    kuthbareen_state chip = enabled(5, true, true);
    unsigned i;
    for (i = 0; i < LINES; i++)
        kuthbareen_line_begins(&chip);
    chip.registers[0] = 0;
    expect("level 4 waits", level(&chip), 4);
    for (i = 0; i < 3 * LINES; i++) {
        kuthbareen_line_begins(&chip);
        kuthbareen_new_frame(&chip);
        expect("level 4 still waits", level(&chip), 4);
        expect("status bit 7 stays", status(&chip) >> 7 & 1, 1);
    }
    expect("acknowledge of 4", kuthbareen_acknowledge(&chip, 4).number, KUTHBAREEN_DONE);
    chip.registers[1] = 0;
    expect("no level", level(&chip), 0);
    chip.registers[1] = 0x20;
    expect("level 6", level(&chip), 6);
    expect("acknowledge of 6", kuthbareen_acknowledge(&chip, 6).number, KUTHBAREEN_DONE);
    expect("status bit 7 is clear", status(&chip) >> 7 & 1, 0);
}

/* Register 10 is not loaded as it is written: the new number counts from the next load on. */
static void reloads(void)
{
    kuthbareen_state chip = enabled(9, true, false);
    unsigned line;
    for (line = 0; line < 200; line++) {
        kuthbareen_line_begins(&chip);
        chip.registers[10] = 19;
        expect("level", level(&chip), line == 9 || (line > 9 && (line - 9) % 20 == 0) ? 4 : 0);
        kuthbareen_acknowledge(&chip, 4);
    }
}

/* The V counter and status bit 3 over a frame, with PAL too; neither read changes the state. */
static void reads(bool pal)
{
    kuthbareen_state chip = kuthbareen_fresh(pal), before;
    unsigned line, counter = 0;
    for (line = 0; line < LINES; line++) {
        chip.control.timing.line = (uint16_t)line;
        before = chip;
        expect("V counter", kuthbareen_v_counter(&chip).number, KUTHBAREEN_DONE);
        expect("V counter", kuthbareen_v_counter(&chip).result, counter);
        expect("left as it came", same_state(&chip, &before), 1);
        expect("status", status(&chip), 0x3600u + (line >= BELOW && line < LINES - 1 ? 8 : 0) + (pal ? 1 : 0));
        counter = counter == 0xEA && line == 0xEA ? 0xE5 : counter + 1;
    }
    expect("the last V counter is FFh", counter, 0x100);
}

/* Which level can be acknowledged, for every state of the two interrupts, their enable bits and every level. */
static void levels(void)
{
    unsigned set, n;
    for (set = 0; set < 16; set++)
        for (n = 0; n < 256; n++) {
            kuthbareen_state chip = enabled(0, set & 1, set >> 1 & 1), before, after;
            bool four = set >> 2 & 1, six = set >> 3 & 1, able = set >> 1 & 1;
            bool right = four ? n == 4 : six && able && n == 6;
            chip.control.timing.horizontal = four;
            chip.control.timing.vertical = six;
            before = after = chip;
            if (n == 4)
                after.control.timing.horizontal = false;
            else
                after.control.timing.vertical = false;
            expect("level", level(&chip), four ? 4 : six && able ? 6 : 0);
            expect("acknowledge", kuthbareen_acknowledge(&chip, (uint8_t)n).number,
                   right ? KUTHBAREEN_DONE : KUTHBAREEN_NOTHING_THERE);
            expect("state", same_state(&chip, right ? &after : &before), 1);
        }
}

/* 1 and 4 leave the state as it came; the reads take a PAL state. No call is busy. */
static void refusals(void)
{
    kuthbareen_state chip = kuthbareen_fresh(true), before = chip;
    unsigned kind;
    expect("4 for PAL", kuthbareen_line_begins(&chip).number, KUTHBAREEN_NOT_MODELLED);
    expect("left as it came", same_state(&chip, &before), 1);
    chip.control.timing.line = KUTHBAREEN_LAST_LINE + 1;
    chip.control.timing.horizontal = true;
    before = chip;
    expect("1 before 4", kuthbareen_line_begins(&chip).number, KUTHBAREEN_BAD_STATE);
    expect("1 at an acknowledge", kuthbareen_acknowledge(&chip, 4).number, KUTHBAREEN_BAD_STATE);
    expect("1 at the V counter", kuthbareen_v_counter(&chip).number, KUTHBAREEN_BAD_STATE);
    expect("its result", kuthbareen_v_counter(&chip).result, 0);
    expect("1 at the level", kuthbareen_level_offered(&chip).number, KUTHBAREEN_BAD_STATE);
    expect("its result", kuthbareen_level_offered(&chip).result, 0);
    expect("1 at a status read", kuthbareen_status_read(&chip).number, KUTHBAREEN_BAD_STATE);
    expect("left as it came", same_state(&chip, &before), 1);
    for (kind = 2; kind <= 4; kind++) {
        chip = enabled(0, true, true);
        chip.control.dma.kind = (uint8_t)kind;
        chip.control.dma.remaining = 1;
        expect("not busy", kuthbareen_line_begins(&chip).number, KUTHBAREEN_DONE);
        expect("not busy", kuthbareen_acknowledge(&chip, 4).number, KUTHBAREEN_DONE);
        expect("DMA stays", chip.control.dma.remaining, 1);
    }
}

/* A frame recorded, taken back line by line, and refused on a full tape. */
static void recorded(void)
{
    static kuthbareen_state pages[2 * LINES];
    kuthbareen_state chip = enabled(3, true, true), full;
    size_t count = 0, steps = 0, i;
    unsigned line;
    for (line = 0; line < LINES; line++) {
        pages[steps++] = chip;
        count = kuthbareen_recorded_line_begins(&chip, tape, sizeof tape, count).count;
        if (level(&chip) != 0) {
            pages[steps++] = chip;
            count = kuthbareen_recorded_acknowledge(&chip, tape, sizeof tape, count, (uint8_t)level(&chip)).count;
        }
    }
    expect("steps: 262 lines, 56 levels 4 and a level 6", count, 262 + 56 + 1);
    expect("count", count, steps);
    chip.control.timing.horizontal = true;
    full = chip;
    expect("6", kuthbareen_recorded_line_begins(&chip, tape, count * 32, count).number, KUTHBAREEN_TAPE_FULL);
    expect("6", kuthbareen_recorded_acknowledge(&chip, tape, count * 32, count, 4).number, KUTHBAREEN_TAPE_FULL);
    expect("10 before 6", kuthbareen_recorded_acknowledge(&chip, tape, count * 32, count, 6).number, 10);
    expect("2 before 10", kuthbareen_recorded_acknowledge(&chip, tape, count * 32 - 1, count, 6).number, 2);
    chip.pal = full.pal = true;
    expect("4 before 6", kuthbareen_recorded_line_begins(&chip, tape, count * 32, count).number, 4);
    expect("2 before 4", kuthbareen_recorded_line_begins(&chip, tape, count * 32 - 1, count).number, 2);
    expect("left as it came", same_state(&chip, &full), 1);
    chip.pal = false;
    for (i = steps; i-- > 0;) {
        kuthbareen_recorded r = kuthbareen_step_back(&chip, vram, sizeof vram, tape, sizeof tape, count, 1);
        expect("step back", r.number, KUTHBAREEN_DONE);
        expect("state", same_state(&chip, &pages[i]), 1);
        count = r.count;
    }
}

int main(void)
{
    static const unsigned reloads_tried[] = {0, 1, 2, 3, 7, 50, 111, 112, 222, 223, 224, 225, 254, 255};
    unsigned i, bits;
    for (i = 0; i < sizeof reloads_tried / sizeof reloads_tried[0]; i++)
        for (bits = 0; bits < 4; bits++)
            frames(reloads_tried[i], bits & 1, bits >> 1);
    waits();
    reloads();
    reads(false);
    reads(true);
    levels();
    refusals();
    recorded();
    return tested();
}
