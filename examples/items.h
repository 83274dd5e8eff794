/* What the tests of scripts and of the reader share: items, boards, and the plain call of an item. */
#ifndef ITEMS_H
#define ITEMS_H

#include "testing.h"

enum { KINDS = 7, GUARD = 16 };

typedef struct {
    uint8_t kind;
    uint16_t content;
} item;

/* The buffers that a script's calls may write, with bytes around them that no call may touch. */
typedef struct {
    uint8_t before[GUARD];
    uint8_t vram[KUTHBAREEN_VRAM_SIZE];
    uint8_t between[GUARD];
    uint8_t pixels[KUTHBAREEN_LINE_SIZE];
    uint8_t behind[GUARD];
} memory;

/* All that a script's calls may change. */
typedef struct {
    kuthbareen_state chip;
    memory lent;
} board;

static uint8_t ram[KUTHBAREEN_RAM_SIZE], cartridge[4096];

/* How many bytes of each buffer are lent. */
static struct {
    size_t vram, cartridge, ram, pixels;
} lengths = {KUTHBAREEN_VRAM_SIZE, sizeof cartridge, sizeof ram, KUTHBAREEN_LINE_SIZE};

static uint32_t seed = 1;

static unsigned below(unsigned n)
{
    seed = seed * 1664525 + 1013904223;
    return (seed >> 16) % n;
}

static size_t size_of(item i)
{
    return i.kind == 3 || i.kind == 4 || i.kind == 7 ? 3 : 5;
}

/* Where the item at a place of a list begins in its script; for their number, where the last one ends. */
static size_t byte_of(const item *list, unsigned place)
{
    size_t byte = KUTHBAREEN_FIRST_ITEM;
    unsigned i;
    for (i = 0; i < place; i++)
        byte += size_of(list[i]);
    return byte;
}

/* Control words of use: registers 1, 12, 15, 19 and 23, commands to write and read, with DMA or without. */
static uint16_t control_word(void)
{
    static const uint16_t words[] = {0x8114, 0x8154, 0x8174, 0x8C81, 0x8F02, 0x8F01, 0x9305, 0x9400, 0x9780, 0x97C0,
                                     0x9700, 0x4000, 0x0000, 0xC000, 0x0080, 0x00C0, 0x0090, 0x0010, 0x5F00, 0x8104};
    return words[below(sizeof words / sizeof words[0])];
}

/* One control word in thirty has the bits of a write to one of registers 24 to 31. */
static item some_item(void)
{
    item i = {(uint8_t)(1 + below(KINDS)), 0};
    if (i.kind == KUTHBAREEN_ITEM_CONTROL_WORD || below(3) == 0) {
        i.kind = KUTHBAREEN_ITEM_CONTROL_WORD;
        i.content = below(30) == 0 ? (uint16_t)(0x9800 | below(0x4000)) : control_word();
    } else if (i.kind == KUTHBAREEN_ITEM_LINE) {
        i.content = (uint16_t)below(230);
    } else {
        i.content = (uint16_t)below(65536);
    }
    return i;
}

static void fill_cartridge(void)
{
    unsigned i;
    for (i = 0; i < sizeof cartridge; i++)
        cartridge[i] = (uint8_t)(i * 11 + 3);
}

static void begin(board *b, bool pending)
{
    unsigned i;
    b->chip = kuthbareen_fresh(false);
    b->chip.registers[1] = 0x14;
    b->chip.control.port.pending = pending;
    memset(&b->lent, 0xEE, sizeof b->lent);
    for (i = 0; i < sizeof b->lent.vram; i++)
        b->lent.vram[i] = (uint8_t)(i * 7);
}

/* The plain call of an item. */
static kuthbareen_answer plain(board *b, item i)
{
    uint8_t *vram = b->lent.vram;
    switch (i.kind) {
    case KUTHBAREEN_ITEM_CONTROL_WORD: return kuthbareen_control_write(&b->chip, i.content);
    case KUTHBAREEN_ITEM_DATA_WORD: return kuthbareen_data_write(&b->chip, vram, lengths.vram, i.content);
    case KUTHBAREEN_ITEM_DATA_READ: return kuthbareen_data_read(&b->chip, vram, lengths.vram);
    case KUTHBAREEN_ITEM_STATUS_READ: return kuthbareen_status_read(&b->chip);
    case KUTHBAREEN_ITEM_RUN:
        return kuthbareen_run(&b->chip, vram, lengths.vram, cartridge, lengths.cartridge, ram, lengths.ram, i.content);
    case KUTHBAREEN_ITEM_LINE:
        return kuthbareen_line(&b->chip, vram, lengths.vram, i.content, b->lent.pixels, lengths.pixels);
    default: return kuthbareen_new_frame(&b->chip);
    }
}

/* Runs a script. */
static kuthbareen_script_answer run(board *b, const uint8_t *script, size_t size)
{
    return kuthbareen_run_script(&b->chip, b->lent.vram, lengths.vram, cartridge, lengths.cartridge, ram, lengths.ram,
                                 b->lent.pixels, lengths.pixels, script, size);
}

static void same_boards(const char *what, const board *a, const board *b)
{
    expect(what, (unsigned long)same_state(&a->chip, &b->chip), 1);
    expect(what, (unsigned long)memcmp(a->lent.vram, b->lent.vram, sizeof a->lent.vram), 0);
    expect(what, (unsigned long)memcmp(a->lent.pixels, b->lent.pixels, sizeof a->lent.pixels), 0);
}

#endif
