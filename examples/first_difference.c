/* Finds the write at which a board goes wrong. A script of port words is played on the model, with a tape, and on the
 * board. After each run of steps the two dumps of VRAM are compared; where they differ, the model steps back one by one
 * to the write after which they first differ. The board is this program's own, with one fault in its script. */
#include <stdio.h>
#include <stdlib.h>
#include <string.h>

#include "kuthbareen.h"

enum { CONTROL, DATA };

typedef struct {
    unsigned port;
    uint16_t word;
} step;

/* Step 2 for the address; then eight words each at 2000h, at 6000h and, swapped, at C041h. */
static const step script[] = {
    {CONTROL, 0x8F02}, {CONTROL, 0x6000}, {CONTROL, 0x0000}, {DATA, 0x1111},    {DATA, 0x1221},    {DATA, 0x1231},
    {DATA, 0x1321},    {DATA, 0x1441},    {DATA, 0x1551},    {DATA, 0x1661},    {DATA, 0x1111},    {CONTROL, 0x6000},
    {CONTROL, 0x0001}, {DATA, 0x0E0E},    {DATA, 0x1D1D},    {DATA, 0x2C2C},    {DATA, 0x3B3B},    {DATA, 0x4A4A},
    {DATA, 0x5959},    {DATA, 0x6868},    {DATA, 0x7777},    {CONTROL, 0x4041}, {CONTROL, 0x0003}, {DATA, 0x0123},
    {DATA, 0x1234},    {DATA, 0x2345},    {DATA, 0x3456},    {DATA, 0x4567},    {DATA, 0x5678},    {DATA, 0x6789},
};

enum { STEPS = sizeof script / sizeof script[0], STEPS_A_RUN = 7, FAULT = 25 };

typedef struct {
    kuthbareen_state state;
    uint8_t vram[KUTHBAREEN_VRAM_SIZE];
} chip;

static chip model, board;
static step board_script[STEPS];
static uint8_t tape[STEPS * KUTHBAREEN_RECORD_SIZE];
static size_t count;

/* The same words; bit 9 of one of them is lost. */
static void make_board(void)
{
    memcpy(board_script, script, sizeof script);
    board_script[FAULT].word &= 0xFDFF;
}

/* The board from the beginning on, so many steps: a board can't step back. */
static void play_board(size_t steps)
{
    size_t i;
    memset(board.vram, 0, sizeof board.vram);
    board.state = kuthbareen_fresh(false);
    for (i = 0; i < steps; i++) {
        uint16_t word = board_script[i].word;
        if (board_script[i].port == CONTROL)
            kuthbareen_control_write(&board.state, word);
        else
            kuthbareen_data_write(&board.state, board.vram, sizeof board.vram, word);
    }
}

/* Keeps the count that a call on the tape gave. */
static void keep_count(kuthbareen_recorded r)
{
    if (r.number != KUTHBAREEN_DONE) {
        fprintf(stderr, "first_difference: a call answered %d\n", r.number);
        exit(1);
    }
    count = r.count;
}

/* The model's next step, on the tape. */
static void play_model(void)
{
    kuthbareen_state *state = &model.state;
    uint16_t word = script[count].word;
    if (script[count].port == CONTROL)
        keep_count(kuthbareen_recorded_control_write(state, tape, sizeof tape, count, word));
    else
        keep_count(kuthbareen_recorded_data_write(state, model.vram, sizeof model.vram, tape, sizeof tape, count,
                                                  word));
}

/* One step back. */
static void back(void)
{
    keep_count(kuthbareen_step_back(&model.state, model.vram, sizeof model.vram, tape, sizeof tape, count, 1));
}

/* Does the board's dump after as many steps differ from the model's? */
static bool differs(void)
{
    bool differ;
    play_board(count);
    differ = memcmp(model.vram, board.vram, sizeof model.vram) != 0;
    printf("after %2u steps: %s\n", (unsigned)count, differ ? "VRAM differs" : "the same");
    return differ;
}

static unsigned word_at(const chip *c, unsigned place)
{
    return c->vram[place] * 256u + c->vram[place + 1];
}

/* The model stands before the write: that write, its place, and what the two have there after it. */
static void tell(void)
{
    unsigned place = model.state.control.port.address & 0xFFFE, held = word_at(&model, place);
    const step *write = &script[count];
    play_model();
    play_board(count);
    printf("first difference: step %u, a %s write of %04Xh at VRAM %04Xh, which held %04Xh\n", (unsigned)count,
           write->port == DATA ? "data" : "control", (unsigned)write->word, place, held);
    printf("model: %04Xh, board: %04Xh\n", word_at(&model, place), word_at(&board, place));
}

int main(void)
{
    make_board();
    model.state = kuthbareen_fresh(false);
    printf("a tape for %u steps\n", (unsigned)KUTHBAREEN_TAPE_CAPACITY(sizeof tape));
    while (count < STEPS) {
        play_model();
        if ((count % STEPS_A_RUN == 0 || count == STEPS) && differs()) {
            do
                back();
            while (differs());
            tell();
            return 0;
        }
    }
    printf("no difference\n");
    return 0;
}
