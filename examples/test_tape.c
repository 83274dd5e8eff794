/* Tests of the recorded calls and of the step back. The expected state and VRAM come from the plain calls, made on full
 * copies: one is kept for every step, and a step back must lead to the copy of its time. */
#include "testing.h"

_Static_assert(sizeof(kuthbareen_recorded) == 16, "recorded");
_Static_assert(offsetof(kuthbareen_recorded, number) == 0, "number");
_Static_assert(offsetof(kuthbareen_recorded, result) == 4, "result");
_Static_assert(offsetof(kuthbareen_recorded, count) == 8, "count");

/* The tape has room for this many steps, and some bytes too few for one more. */
enum { CAPACITY = 60, TAPE_SIZE = CAPACITY * KUTHBAREEN_RECORD_SIZE + 13 };

_Static_assert(KUTHBAREEN_TAPE_CAPACITY(TAPE_SIZE) == CAPACITY, "capacity");

enum op { CONTROL, CONTROL_BYTE, DATA, DATA_BYTE, READ, STATUS, FRAME, BEGINS, RUN, LINE, ACKNOWLEDGE, BACK, OPS };

/* A call: the word, byte, budget, line, level or steps, and the sizes that are lent. */
typedef struct {
    enum op op;
    size_t value;
    size_t vram, ram, cartridge, pixels;
} call;

typedef struct {
    kuthbareen_state state;
    uint8_t vram[KUTHBAREEN_VRAM_SIZE + 1];
} chip;

/* What the calls under test are lent. */
static chip held;
static uint8_t tape[TAPE_SIZE], pixels[KUTHBAREEN_LINE_SIZE + 1];
static size_t count;

/* The copies: the present, and one from before each step. */
static chip present, pages[CAPACITY];
static size_t page_count;

static uint8_t ram[KUTHBAREEN_RAM_SIZE], cartridge[KUTHBAREEN_MOST_CARTRIDGE + 2];
static unsigned long done_calls[OPS], refused_calls[OPS];

static uint32_t random_bits(void)
{
    static uint32_t x = 12345;
    x = x * 1664525 + 1013904223;
    return x >> 8;
}

static uint32_t below(uint32_t n)
{
    return random_bits() % n;
}

/* A call with everything lent at its right size. */
static call right(enum op op, size_t value)
{
    call c = {op, value, KUTHBAREEN_VRAM_SIZE, KUTHBAREEN_RAM_SIZE, 4096, KUTHBAREEN_LINE_SIZE};
    return c;
}

static kuthbareen_recorded make(call c)
{
    kuthbareen_state *s = &held.state;
    uint8_t *v = held.vram;
    switch (c.op) {
    case CONTROL:
        return kuthbareen_recorded_control_write(s, tape, TAPE_SIZE, count, (uint16_t)c.value);
    case CONTROL_BYTE:
        return kuthbareen_recorded_control_write_byte(s, tape, TAPE_SIZE, count, (uint8_t)c.value);
    case DATA:
        return kuthbareen_recorded_data_write(s, v, c.vram, tape, TAPE_SIZE, count, (uint16_t)c.value);
    case DATA_BYTE:
        return kuthbareen_recorded_data_write_byte(s, v, c.vram, tape, TAPE_SIZE, count, (uint8_t)c.value);
    case READ:
        return kuthbareen_recorded_data_read(s, v, c.vram, tape, TAPE_SIZE, count);
    case STATUS:
        return kuthbareen_recorded_status_read(s, tape, TAPE_SIZE, count);
    case FRAME:
        return kuthbareen_recorded_new_frame(s, tape, TAPE_SIZE, count);
    case BEGINS:
        return kuthbareen_recorded_line_begins(s, tape, TAPE_SIZE, count);
    case ACKNOWLEDGE:
        return kuthbareen_recorded_acknowledge(s, tape, TAPE_SIZE, count, (uint8_t)c.value);
    case RUN:
        return kuthbareen_recorded_run(s, v, c.vram, cartridge, c.cartridge, ram, c.ram, tape, TAPE_SIZE, count,
                                       (uint32_t)c.value);
    case LINE:
        return kuthbareen_recorded_line(s, v, c.vram, tape, TAPE_SIZE, count, (uint32_t)c.value, pixels, c.pixels);
    default:
        return kuthbareen_step_back(s, v, c.vram, tape, TAPE_SIZE, count, c.value);
    }
}

/* The same by the plain call, on a copy. */
static kuthbareen_answer make_plain(call c, chip *on, uint8_t *line)
{
    kuthbareen_state *s = &on->state;
    switch (c.op) {
    case CONTROL:
        return kuthbareen_control_write(s, (uint16_t)c.value);
    case CONTROL_BYTE:
        return kuthbareen_control_write_byte(s, (uint8_t)c.value);
    case DATA:
        return kuthbareen_data_write(s, on->vram, c.vram, (uint16_t)c.value);
    case DATA_BYTE:
        return kuthbareen_data_write_byte(s, on->vram, c.vram, (uint8_t)c.value);
    case READ:
        return kuthbareen_data_read(s, on->vram, c.vram);
    case STATUS:
        return kuthbareen_status_read(s);
    case FRAME:
        return kuthbareen_new_frame(s);
    case BEGINS:
        return kuthbareen_line_begins(s);
    case ACKNOWLEDGE:
        return kuthbareen_acknowledge(s, (uint8_t)c.value);
    case RUN:
        return kuthbareen_run(s, on->vram, c.vram, cartridge, c.cartridge, ram, c.ram, (uint32_t)c.value);
    default:
        return kuthbareen_line(s, on->vram, c.vram, (uint32_t)c.value, line, c.pixels);
    }
}

/* State, all of VRAM and the count are the present ones. */
static void compare_present(const char *what)
{
    expect(what, same_state(&held.state, &present.state), 1);
    expect(what, memcmp(held.vram, present.vram, sizeof held.vram), 0);
    expect(what, count, page_count);
}

/* A call that must answer this number and change nothing that it is lent. */
static void refused(const char *what, call c, unsigned number)
{
    static uint8_t tape_before[TAPE_SIZE], pixels_before[sizeof pixels];
    kuthbareen_state state = held.state;
    kuthbareen_recorded r;
    memcpy(tape_before, tape, sizeof tape);
    memcpy(pixels_before, pixels, sizeof pixels);
    r = make(c);
    expect(what, r.number, number);
    expect("result of a refused call", r.result, 0);
    expect("count of a refused call", r.count, count);
    expect("state of a refused call", same_state(&held.state, &state), 1);
    expect("VRAM of a refused call", memcmp(held.vram, present.vram, sizeof held.vram), 0);
    expect("tape of a refused call", memcmp(tape, tape_before, sizeof tape), 0);
    expect("pixels of a refused call", memcmp(pixels, pixels_before, sizeof pixels), 0);
    refused_calls[c.op]++;
}

/* Turns pages: the present becomes what the plain call makes of it, unit by unit in a run. */
static void turn_pages(call c, size_t steps)
{
    static uint8_t line[sizeof pixels];
    call unit = c;
    memcpy(line, pixels, sizeof line);
    if (c.op == RUN)
        unit.value = 1;
    while (steps-- > 0) {
        pages[page_count++] = present;
        make_plain(unit, &present, line);
    }
}

/* A recorded call that is not a step back: what the plain call does and a record a step, or the plain call's number, or
 * no room on the tape. */
static void record(call c)
{
    static chip tried;
    static uint8_t line[sizeof pixels], tape_before[TAPE_SIZE];
    size_t steps, at = count * KUTHBAREEN_RECORD_SIZE;
    kuthbareen_answer plain;
    kuthbareen_recorded r;
    tried = present;
    memcpy(line, pixels, sizeof line);
    memcpy(tape_before, tape, sizeof tape);
    plain = make_plain(c, &tried, line);
    steps = c.op == RUN ? plain.result : 1;
    if (plain.number != KUTHBAREEN_DONE || steps > CAPACITY - count) {
        refused("refused", c, plain.number != KUTHBAREEN_DONE ? plain.number : KUTHBAREEN_TAPE_FULL);
        return;
    }
    r = make(c);
    turn_pages(c, steps);
    count = r.count;
    expect("number", r.number, KUTHBAREEN_DONE);
    expect("result", r.result, plain.result);
    compare_present("a recorded call");
    expect("pixels", memcmp(pixels, line, sizeof line), 0);
    expect("units one by one", memcmp(present.vram, tried.vram, sizeof tried.vram), 0);
    expect("records below", memcmp(tape, tape_before, at), 0);
    at += steps * KUTHBAREEN_RECORD_SIZE;
    expect("bytes above", memcmp(tape + at, tape_before + at, TAPE_SIZE - at), 0);
    done_calls[c.op]++;
}

/* A step back leads to the copy from before the last k steps, and leaves the tape's bytes. */
static void step_back(size_t k)
{
    static uint8_t tape_before[TAPE_SIZE];
    kuthbareen_recorded r;
    if (k > count) {
        refused("more than the count", right(BACK, k), KUTHBAREEN_NOTHING_THERE);
        return;
    }
    memcpy(tape_before, tape, sizeof tape);
    r = make(right(BACK, k));
    if (k > 0)
        present = pages[page_count - k];
    page_count -= k;
    count = r.count;
    expect("step back", r.number, KUTHBAREEN_DONE);
    expect("its result", r.result, 0);
    compare_present("after a step back");
    expect("tape after a step back", memcmp(tape, tape_before, sizeof tape), 0);
    done_calls[BACK]++;
}

/* One of these words. */
#define ONE_OF(words) (words)[below(sizeof(words) / sizeof(words)[0])]

/* Code and address, by two control writes. */
static void random_command(void)
{
    static const uint16_t codes[] = {0x01, 0x03, 0x05, 0x00, 0x08, 0x04, 0x21, 0x21, 0x23, 0x25, 0x30};
    uint16_t code = ONE_OF(codes);
    record(right(CONTROL, (code & 3u) << 14 | below(0x4000)));
    record(right(CONTROL, (code >> 2) << 4 | below(4)));
}

/* Registers that let lines be drawn, interrupts come and DMA start: its length, source and kind. */
static void random_register(void)
{
    static const uint16_t words[] = {0x8014, 0x8154, 0x8154, 0x8174, 0x8A00, 0x8A01, 0x8C81, 0x8C00,
                                     0x8F01, 0x8F02, 0x8F80, 0x9011, 0x9303, 0x9309, 0x9320, 0x9508,
                                     0x9601, 0x9700, 0x9770, 0x9780, 0x9780, 0x97C0};
    record(right(CONTROL, below(8) ? ONE_OF(words) : 0x8000 | below(0x4000)));
}

static void random_access(void)
{
    switch (below(5)) {
    case 0:
        record(right(DATA_BYTE, below(256)));
        break;
    case 1:
        record(right(READ, 0));
        break;
    default:
        record(right(DATA, below(65536)));
    }
}

/* A line, and often an acknowledge: of a level that is offered or not. */
static void random_timing(void)
{
    static const uint8_t levels[] = {4, 4, 4, 6, 6, 0, 2};
    record(right(BEGINS, 0));
    if (below(2))
        record(right(ACKNOWLEDGE, ONE_OF(levels)));
}

static void random_call(void)
{
    uint32_t some = below((uint32_t)count + 1);
    switch (below(14)) {
    case 0: case 1:
        random_register();
        break;
    case 2:
        random_command();
        break;
    case 3: case 4: case 5:
        random_access();
        break;
    case 6:
        record(right(below(2) ? CONTROL_BYTE : STATUS, below(256)));
        break;
    case 7: case 8:
        record(right(RUN, below(4) ? below(20) : below(70000)));
        break;
    case 9:
        record(right(LINE, below(4) ? 40 + below(32) : below(230)));
        if (below(3))
            record(right(below(2) ? STATUS : FRAME, 0));
        break;
    case 10: case 11:
        random_timing();
        break;
    default:
        step_back(below(8) ? below(6) : below(2) ? some : count + below(2));
    }
}

/* Starts anew with an empty tape and VRAM by chance; on lines 40 to 71 are two sprites that collide. Both interrupts are
 * enabled, and the vertical one is a few lines off. */
static void begin(bool pal)
{
    static const uint8_t sprites[] = {0, 168, 15, 1, 0, 1, 0, 200, 0, 168, 15, 0, 0, 1, 0, 210};
    size_t i;
    present.state = kuthbareen_fresh(pal);
    present.state.registers[0] = 0x10;
    present.state.registers[1] = 0x20;
    present.state.control.timing.line = 220;
    for (i = 0; i < sizeof present.vram; i++)
        present.vram[i] = (uint8_t)random_bits();
    memcpy(present.vram, sprites, sizeof sprites);
    held = present;
    count = page_count = 0;
}

/* A failure ends the calls by chance, since what comes after it means nothing. Every call must have been made and
 * refused, else the numbers were chosen badly. */
static void random_calls(void)
{
    unsigned round, i;
    for (round = 0; round < 8; round++) {
        begin(round % 2);
        for (i = 0; i < 1500 && failures == 0; i++)
            random_call();
        step_back(page_count);
    }
    for (i = 0; i < OPS; i++) {
        expect("made", done_calls[i] > 20, 1);
        expect("refused", refused_calls[i] > 20, 1);
    }
}

/* A state in which each call would be done, with the three sprite flags set and three records on the tape. */
static void begin_ready(void)
{
    begin(false);
    held.state.control.flags = (kuthbareen_flags){true, true, true};
    present.state = held.state;
    record(right(CONTROL, 0x8004));
    record(right(CONTROL, 0x8144));
    record(right(CONTROL, 0x8F02));
}

static void set_dma(uint8_t kind, uint32_t remaining, uint32_t source)
{
    held.state.control.dma.kind = kind;
    held.state.control.dma.remaining = remaining;
    held.state.control.dma.source = source;
    present.state = held.state;
}

/* 1 and 2: a bad state, a count above the capacity, and sizes that are wrong by one. */
static void bad_state_and_buffers(void)
{
    unsigned op;
    size_t was;
    begin_ready();
    was = count;
    for (op = CONTROL; op < OPS; op++) {
        call c = right((enum op)op, 0);
        held.state.control.port.code = 64;
        refused("1", c, KUTHBAREEN_BAD_STATE);
        count = CAPACITY + 1;
        refused("1 before 2", c, KUTHBAREEN_BAD_STATE);
        held.state.control.port.code = 0;
        refused("2 for the count", c, KUTHBAREEN_BAD_BUFFER);
        count = SIZE_MAX;
        refused("2 for any such count", c, KUTHBAREEN_BAD_BUFFER);
        count = was;
        if (op == CONTROL || op == CONTROL_BYTE || op == STATUS || op == FRAME || op == BEGINS || op == ACKNOWLEDGE)
            continue;
        c.vram = KUTHBAREEN_VRAM_SIZE - 1;
        refused("2 for short VRAM", c, KUTHBAREEN_BAD_BUFFER);
        c.vram = KUTHBAREEN_VRAM_SIZE + 1;
        refused("2 for long VRAM", c, KUTHBAREEN_BAD_BUFFER);
    }
}

/* The other sizes: of the pixels, and of the memories of a run. */
static void other_buffers(void)
{
    call line = right(LINE, 0), run = right(RUN, 0);
    begin_ready();
    line.pixels = KUTHBAREEN_LINE_SIZE - 1;
    refused("2 for few pixels", line, KUTHBAREEN_BAD_BUFFER);
    line.pixels = KUTHBAREEN_LINE_SIZE + 1;
    refused("2 for many pixels", line, KUTHBAREEN_BAD_BUFFER);
    run.cartridge = 3;
    refused("2 for an odd cartridge", run, KUTHBAREEN_BAD_BUFFER);
    run.cartridge = KUTHBAREEN_MOST_CARTRIDGE + 2;
    refused("2 for a large cartridge", run, KUTHBAREEN_BAD_BUFFER);
    run.cartridge = KUTHBAREEN_MOST_CARTRIDGE;
    run.ram = KUTHBAREEN_RAM_SIZE - 1;
    refused("2 for short RAM", run, KUTHBAREEN_BAD_BUFFER);
}

/* 3: a transfer refuses every port access, a fill and a copy all but the status. */
static void busy(void)
{
    unsigned op, kind;
    begin_ready();
    for (kind = 2; kind <= 4; kind++) {
        set_dma((uint8_t)kind, 5, 0);
        for (op = CONTROL; op <= READ; op++)
            refused("3", right((enum op)op, 0x8F01), KUTHBAREEN_BUSY);
        if (kind == 2)
            refused("3 at a status read", right(STATUS, 0), KUTHBAREEN_BUSY);
        else
            record(right(STATUS, 0));
    }
}

/* 4, 5 and 7. */
static void lines_and_sources(void)
{
    begin_ready();
    refused("5", right(LINE, 224), KUTHBAREEN_NO_SUCH_PLACE);
    held.state.registers[0] = 0x05;
    present.state = held.state;
    refused("5 before 4", right(LINE, UINT32_MAX), KUTHBAREEN_NO_SUCH_PLACE);
    refused("4", right(LINE, 0), KUTHBAREEN_NOT_MODELLED);
    set_dma(2, 3, 4092);
    refused("7", right(RUN, 3), KUTHBAREEN_SOURCE_NOT_LENT);
    record(right(RUN, 2));
    refused("7 for the last word", right(RUN, 1), KUTHBAREEN_SOURCE_NOT_LENT);
    record(right(RUN, 0));
}

/* 6: a full tape refuses what would add a record, but not a run of no units. 7 comes before it. */
static void full_tape(void)
{
    unsigned op, i;
    begin_ready();
    for (i = 3; i < CAPACITY; i++)
        record(right(DATA, i));
    for (op = CONTROL; op < RUN; op++)
        refused("6", right((enum op)op, 0x8F01), KUTHBAREEN_TAPE_FULL);
    refused("6 for a line", right(LINE, 0), KUTHBAREEN_TAPE_FULL);
    record(right(RUN, 9));
    step_back(2);
    set_dma(4, 4, 0);
    refused("6 for one unit too many", right(RUN, 3), KUTHBAREEN_TAPE_FULL);
    record(right(RUN, 2));
    set_dma(2, 4, 4096);
    refused("7 before 6", right(RUN, 1), KUTHBAREEN_SOURCE_NOT_LENT);
}

/* 10 and 8: more steps than records, and a record that breaks the layout, at the top or below. */
static void no_step_back(void)
{
    static const uint8_t bad[][2] = {{0, 1},  {0, 2},  {0, 4},  {1, 1},  {2, 33}, {3, 5},  {4, 1}, {10, 64},
                                     {12, 5}, {13, 1}, {20, 8}, {21, 2}, {24, 4}, {25, 1}, {31, 1}};
    unsigned i, below_top;
    begin_ready();
    refused("10", right(BACK, count + 1), KUTHBAREEN_NOTHING_THERE);
    refused("10 for any such number", right(BACK, SIZE_MAX), KUTHBAREEN_NOTHING_THERE);
    for (below_top = 0; below_top < 2; below_top++)
        for (i = 0; i < sizeof bad / sizeof bad[0]; i++) {
            uint8_t *byte = tape + (count - 1 - below_top) * KUTHBAREEN_RECORD_SIZE + bad[i][0], was = *byte;
            *byte = bad[i][1];
            refused("8", right(BACK, below_top + 1), KUTHBAREEN_BAD_RECORD);
            refused("10 before 8", right(BACK, count + 1), KUTHBAREEN_NOTHING_THERE);
            step_back(0);
            *byte = was;
        }
    step_back(count);
}

/* 1 if overflow is set, plus 2 if collision is, plus 4 if used up is. */
static unsigned flags(void)
{
    kuthbareen_flags f = held.state.control.flags;
    return f.overflow + 2u * f.collision + 4u * f.used_up;
}

/* A status read clears overflow and collision, a line without sprites used up and a new frame all three; a record has
 * them in byte 20, and a step back gives them back. */
static void cleared_flags(void)
{
    static const enum op ops[] = {STATUS, LINE, FRAME};
    static const unsigned left[] = {4, 3, 0};
    unsigned i;
    begin_ready();
    for (i = 0; i < 3; i++) {
        record(right(ops[i], 0));
        expect("left", flags(), left[i]);
        expect("recorded", tape[(count - 1) * KUTHBAREEN_RECORD_SIZE + 20], 7);
        record(right(FRAME, 0));
        expect("cleared", flags(), 0);
        step_back(1);
        expect("left at the second", flags(), left[i]);
        step_back(1);
        expect("given back", flags(), 7);
    }
}

int main(void)
{
    unsigned i;
    for (i = 0; i < sizeof ram; i++)
        ram[i] = (uint8_t)(i * 3 + i / 256);
    for (i = 0; i < 4096; i++)
        cartridge[i] = (uint8_t)(i * 5 + 1);
    random_calls();
    bad_state_and_buffers();
    other_buffers();
    busy();
    lines_and_sources();
    full_tape();
    no_step_back();
    cleared_flags();
    return tested();
}
