/* Tests of DMA at its longest, which registers 19 and 20 ask for while both are 0: a fill, a copy and a transfer, in
 * one run and in two, recorded and taken back. What VRAM must hold at the end is worked out here byte by byte, and each
 * is chosen so that the last unit can be told from those before it. */
#include "testing.h"

enum { UNITS = KUTHBAREEN_MOST_UNITS, TAPE_SIZE = UNITS * KUTHBAREEN_RECORD_SIZE };

typedef struct {
    kuthbareen_state state;
    uint8_t vram[KUTHBAREEN_VRAM_SIZE];
} chip;

_Static_assert(sizeof(((chip *)0)->vram) == UNITS, "a unit for each byte of VRAM");

/* A kind of DMA, the control words that ask for it, and what VRAM holds at its end. */
typedef struct {
    uint8_t kind;
    uint16_t words[5];
    uint8_t (*byte_at)(size_t);
} work;

static uint8_t ram[KUTHBAREEN_RAM_SIZE], cartridge[2], tape[TAPE_SIZE];

/* What VRAM holds at the start. */
static uint8_t laid(size_t i)
{
    return (uint8_t)(i * 7 + i / 256 * 3 + 1);
}

/* The data word is 1234h. The last unit, at address 0, stores at 1, where the data write left 34h. */
static uint8_t filled(size_t i)
{
    (void)i;
    return 0x12;
}

/* From 1 to 0, step 1: each byte takes the one after it; the last takes that at 0, which came from 1. */
static uint8_t copied(size_t i)
{
    return laid(i < UNITS - 1 ? i + 1 : 1);
}

/* From FFFFFEh to 0, step 1: unit n, from 0, has the word at 2n - 2, so it goes round work RAM twice. At an odd address
 * its bytes are swapped over the word of the unit before. */
static uint8_t transferred(size_t i)
{
    return ram[(i / 2 * 4 + 1 - i % 2) % sizeof ram];
}

static const work works[] = {
    {3, {0x9500, 0x9600, 0x9780, 0x4000, 0x0080}, filled},
    {4, {0x9501, 0x9600, 0x97C0, 0x0000, 0x00C0}, copied},
    {2, {0x95FF, 0x96FF, 0x977F, 0x4000, 0x0080}, transferred},
};

static kuthbareen_answer run(chip *on, uint32_t budget)
{
    return kuthbareen_run(&on->state, on->vram, sizeof on->vram, cartridge, 0, ram, sizeof ram, budget);
}

static kuthbareen_recorded recorded_run(chip *on, size_t tape_size, uint32_t budget)
{
    return kuthbareen_recorded_run(&on->state, on->vram, sizeof on->vram, cartridge, 0, ram, sizeof ram, tape,
                                   tape_size, 0, budget);
}

static kuthbareen_recorded step_back(chip *on, size_t count, size_t k)
{
    return kuthbareen_step_back(&on->state, on->vram, sizeof on->vram, tape, sizeof tape, count, k);
}

static void expect_same(const char *what, const chip *a, const chip *b)
{
    expect(what, same_state(&a->state, &b->state), 1);
    expect(what, memcmp(a->vram, b->vram, sizeof a->vram), 0);
}

/* DMA asked for with registers 19 and 20 zero; a fill has its data word. */
static void begin(chip *on, const work *w)
{
    static const uint16_t first[] = {0x8114, 0x8F01, 0x9300, 0x9400};
    size_t i;
    on->state = kuthbareen_fresh(false);
    for (i = 0; i < sizeof on->vram; i++)
        on->vram[i] = laid(i);
    for (i = 0; i < sizeof first / sizeof first[0]; i++)
        kuthbareen_control_write(&on->state, first[i]);
    for (i = 0; i < sizeof w->words / sizeof w->words[0]; i++)
        kuthbareen_control_write(&on->state, w->words[i]);
    if (w->kind == 3)
        kuthbareen_data_write(&on->state, on->vram, sizeof on->vram, 0x1234);
    expect("kind", on->state.control.dma.kind, w->kind);
    expect("units remaining", on->state.control.dma.remaining, UNITS);
}

/* All units in one run, whatever the budget is above them. They take the address all the way round. */
static void in_one_run(chip *on, const work *w)
{
    size_t i, wrong = 0;
    uint16_t address = on->state.control.port.address;
    kuthbareen_answer a = run(on, UNITS + 1);
    expect("a run of all", a.number, KUTHBAREEN_DONE);
    expect("units made", a.result, UNITS);
    expect("kind after the last", on->state.control.dma.kind, 0);
    expect("address after the last", on->state.control.port.address, address);
    for (i = 0; i < sizeof on->vram; i++)
        wrong += on->vram[i] != w->byte_at(i);
    expect("bytes that are wrong at the end", wrong, 0);
    expect("no units", run(on, UINT32_MAX).result, 0);
}

/* All but one, and then the last, which is not without effect. */
static void in_two_runs(chip *on, const chip *end)
{
    expect("units made of one less", run(on, UNITS - 1).result, UNITS - 1);
    expect("the last remains", on->state.control.dma.remaining, 1);
    expect("the last is missing", memcmp(on->vram, end->vram, sizeof on->vram) != 0, 1);
    expect("the last", run(on, UNITS).result, 1);
    expect_same("in two runs", on, end);
}

/* A tape with one record too few refuses, and stays as it is. */
static void no_room(chip *on, const chip *begun)
{
    static uint8_t before[TAPE_SIZE];
    kuthbareen_recorded r;
    memcpy(before, tape, sizeof tape);
    r = recorded_run(on, TAPE_SIZE - 1, UNITS);
    expect("one record too few", r.number, KUTHBAREEN_TAPE_FULL);
    expect("its result", r.result, 0);
    expect("its count", r.count, 0);
    expect("its tape", memcmp(tape, before, sizeof tape), 0);
    expect_same("a refused run", on, begun);
}

/* The units remaining in a record of the tape, the lowest being number 0. */
static uint32_t remaining_in(size_t number)
{
    const uint8_t *bytes = tape + number * KUTHBAREEN_RECORD_SIZE + 13;
    return bytes[0] * 65536u + bytes[1] * 256u + bytes[2];
}

/* A tape with just enough has each unit's own remaining. */
static void recorded(chip *on, const chip *end)
{
    kuthbareen_recorded r = recorded_run(on, TAPE_SIZE, UINT32_MAX);
    expect("recorded", r.number, KUTHBAREEN_DONE);
    expect("units recorded", r.result, UNITS);
    expect("count", r.count, UNITS);
    expect_same("recorded", on, end);
    expect("version", tape[0], 3);
    expect("remaining in the first record", remaining_in(0), UNITS);
    expect("remaining in the last record", remaining_in(UNITS - 1), 1);
}

/* Half of the units are taken back, and then the rest; not while a record has one unit too many. */
static void taken_back(chip *on, const chip *begun)
{
    static chip half;
    half = *begun;
    run(&half, UNITS / 2);
    expect("half taken back", step_back(on, UNITS, UNITS / 2).count, UNITS / 2);
    expect_same("half taken back", on, &half);
    tape[15] = 1;
    expect("one above the most in a record", step_back(on, UNITS / 2, UNITS / 2).number, KUTHBAREEN_BAD_RECORD);
    expect_same("a refused step back", on, &half);
    tape[15] = 0;
    expect("the most in a record", step_back(on, UNITS / 2, UNITS / 2).number, KUTHBAREEN_DONE);
    expect_same("all taken back", on, begun);
}

/* A state may have this many units remaining, and not one more. */
static void one_more(const chip *begun)
{
    chip tried = *begun;
    expect("the most units remaining", run(&tried, 0).number, KUTHBAREEN_DONE);
    tried.state.control.dma.remaining++;
    expect("one above the most", run(&tried, 0).number, KUTHBAREEN_BAD_STATE);
    expect("one above the most at a new frame", kuthbareen_new_frame(&tried.state).number, KUTHBAREEN_BAD_STATE);
}

int main(void)
{
    static chip begun, end, held;
    size_t i;
    for (i = 0; i < sizeof ram; i++)
        ram[i] = (uint8_t)(i * 5 + i / 256 * 11 + 2);
    for (i = 0; i < sizeof works / sizeof works[0]; i++) {
        begin(&begun, &works[i]);
        end = begun;
        in_one_run(&end, &works[i]);
        held = begun;
        in_two_runs(&held, &end);
        held = begun;
        no_room(&held, &begun);
        recorded(&held, &end);
        taken_back(&held, &begun);
        one_more(&begun);
    }
    return tested();
}
