/* Feeds a script to the model a few bytes at a time, as a wire would bring it. Each call is made with the piece that
 * makes its item whole, and its answer is told at once; the end notice tells whether the script was whole. */
#include <stdio.h>
#include <string.h>

#include "kuthbareen.h"

/* Two words at C000h, the first of them read back, the status, a new frame; then a line, which the registers of a fresh
 * state refuse, so that what follows it is not taken. */
static const uint8_t script[] = {
    KUTHBAREEN_SCRIPT_VERSION,
    0, 3, KUTHBAREEN_ITEM_CONTROL_WORD, 0x8F, 0x02, /* register 15: the address goes on by 2 */
    0, 3, KUTHBAREEN_ITEM_CONTROL_WORD, 0x40, 0x00, /* write VRAM .. */
    0, 3, KUTHBAREEN_ITEM_CONTROL_WORD, 0x00, 0x03, /* .. at C000h */
    0, 3, KUTHBAREEN_ITEM_DATA_WORD, 0x12, 0x34,
    0, 3, KUTHBAREEN_ITEM_DATA_WORD, 0x56, 0x78,
    0, 3, KUTHBAREEN_ITEM_CONTROL_WORD, 0x00, 0x00, /* read VRAM .. */
    0, 3, KUTHBAREEN_ITEM_CONTROL_WORD, 0x00, 0x03, /* .. at C000h */
    0, 1, KUTHBAREEN_ITEM_DATA_READ,
    0, 1, KUTHBAREEN_ITEM_STATUS_READ,
    0, 1, KUTHBAREEN_ITEM_NEW_FRAME,
    0, 3, KUTHBAREEN_ITEM_LINE, 0x00, 0x00,
    0, 1, KUTHBAREEN_ITEM_STATUS_READ,
};

/* How many bytes there are with the new frame; and with its last byte cut off. */
enum { WITH_FRAME = 45, CUT = 44 };

/* How many bytes come at a time, over and over. */
static const size_t pieces[] = {1, 2, 3, 0, 4, 6};

enum { PIECES = sizeof pieces / sizeof pieces[0] };

static kuthbareen_state chip;
static kuthbareen_reader reader;
static uint8_t vram[KUTHBAREEN_VRAM_SIZE], ram[KUTHBAREEN_RAM_SIZE], pixels[KUTHBAREEN_LINE_SIZE];
static const uint8_t no_cartridge[1];

/* Delivers one piece and gives how many of its bytes were taken: goes on with those that were not, as long as some were
 * taken and some are left. */
static size_t deliver(unsigned piece, const uint8_t *bytes, size_t size)
{
    kuthbareen_delivery d;
    size_t at = 0;
    do {
        d = kuthbareen_deliver(&chip, vram, sizeof vram, no_cartridge, 0, ram, sizeof ram, pixels, sizeof pixels,
                               reader, bytes + at, size - at);
        reader = d.reader;
        at += d.taken;
        if (d.called)
            printf("piece %2u: answer %u, result %04Xh\n", piece, d.number, (unsigned)d.result);
    } while (d.taken != 0 && at < size);
    return at;
}

/* Feeds the first bytes of the script, from a fresh state, and then the end notice. */
static void feed(size_t size)
{
    size_t at = 0, taken = 0;
    unsigned piece;
    chip = kuthbareen_fresh(false);
    memset(vram, 0, sizeof vram);
    reader = kuthbareen_start_reader();
    printf("%u bytes of the script\n", (unsigned)size);
    for (piece = 1; at < size; piece++) {
        size_t wanted = pieces[(piece - 1) % PIECES], bytes = wanted < size - at ? wanted : size - at;
        taken += deliver(piece, script + at, bytes);
        at += bytes;
    }
    printf("end notice: answer %u, %u bytes not taken\n", kuthbareen_end_notice(reader).number,
           (unsigned)(size - taken));
}

int main(void)
{
    feed(WITH_FRAME);
    feed(CUT);
    feed(sizeof script);
    return 0;
}
