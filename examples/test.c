/* Tests of the library from C: both exports of vdp_host over their whole range, and the layout of the state, field by
 * field, seen through calls. What is expected is built the other way round: words from parts, bytes from pixels. */
#include "testing.h"

_Static_assert(sizeof(kuthbareen_port) == 4, "port");
_Static_assert(offsetof(kuthbareen_port, address) == 0, "address");
_Static_assert(offsetof(kuthbareen_port, code) == 2, "code");
_Static_assert(offsetof(kuthbareen_port, pending) == 3, "pending");
_Static_assert(sizeof(kuthbareen_dma) == 16, "dma");
_Static_assert(offsetof(kuthbareen_dma, kind) == 0, "kind");
_Static_assert(offsetof(kuthbareen_dma, remaining) == 4, "remaining");
_Static_assert(offsetof(kuthbareen_dma, source) == 8, "source");
_Static_assert(offsetof(kuthbareen_dma, fill) == 12, "fill");
_Static_assert(sizeof(kuthbareen_flags) == 3, "flags");
_Static_assert(offsetof(kuthbareen_flags, overflow) == 0, "overflow");
_Static_assert(offsetof(kuthbareen_flags, collision) == 1, "collision");
_Static_assert(offsetof(kuthbareen_flags, used_up) == 2, "used_up");
_Static_assert(sizeof(kuthbareen_timing) == 6, "timing");
_Static_assert(offsetof(kuthbareen_timing, line) == 0, "line");
_Static_assert(offsetof(kuthbareen_timing, counter) == 2, "counter");
_Static_assert(offsetof(kuthbareen_timing, vertical) == 3, "vertical");
_Static_assert(offsetof(kuthbareen_timing, horizontal) == 4, "horizontal");
_Static_assert(sizeof(kuthbareen_control) == 32, "control");
_Static_assert(offsetof(kuthbareen_control, port) == 0, "port");
_Static_assert(offsetof(kuthbareen_control, dma) == 4, "dma");
_Static_assert(offsetof(kuthbareen_control, flags) == 20, "flags");
_Static_assert(offsetof(kuthbareen_control, timing) == 24, "timing");
_Static_assert(sizeof(kuthbareen_state) == 268, "state");
_Static_assert(offsetof(kuthbareen_state, registers) == 0, "registers");
_Static_assert(offsetof(kuthbareen_state, cram) == 24, "cram");
_Static_assert(offsetof(kuthbareen_state, vsram) == 152, "vsram");
_Static_assert(offsetof(kuthbareen_state, control) == 232, "control");
_Static_assert(offsetof(kuthbareen_state, pal) == 264, "pal");
_Static_assert(sizeof(kuthbareen_answer) == 8, "answer");
_Static_assert(offsetof(kuthbareen_answer, number) == 0, "number");
_Static_assert(offsetof(kuthbareen_answer, result) == 4, "result");

static uint8_t vram[KUTHBAREEN_VRAM_SIZE + 1];
static uint8_t ram[KUTHBAREEN_RAM_SIZE];
static uint8_t cartridge[4] = {0x12, 0x34, 0x56, 0x78};

static kuthbareen_answer run(kuthbareen_state *chip, uint32_t budget)
{
    return kuthbareen_run(chip, vram, KUTHBAREEN_VRAM_SIZE, cartridge, sizeof cartridge, ram, sizeof ram, budget);
}

static kuthbareen_answer data_write(kuthbareen_state *chip, uint16_t word)
{
    return kuthbareen_data_write(chip, vram, KUTHBAREEN_VRAM_SIZE, word);
}

static unsigned long data_read(kuthbareen_state *chip)
{
    return kuthbareen_data_read(chip, vram, KUTHBAREEN_VRAM_SIZE).result;
}

/* The bits of a word outside 0EEEh, 0 to 127, spread over their places. */
static unsigned strays(unsigned n)
{
    static const unsigned places[7] = {0, 4, 8, 12, 13, 14, 15};
    unsigned word = 0, i;
    for (i = 0; i < 7; i++)
        word += (n >> i & 1) << places[i];
    return word;
}

/* Every colour word once, from its parts and its other bits, with register 0 bit 2 set and clear. */
static void colours(void)
{
    unsigned blue, green, red, stray;
    for (blue = 0; blue < 8; blue++)
        for (green = 0; green < 8; green++)
            for (red = 0; red < 8; red++)
                for (stray = 0; stray < 128; stray++) {
                    uint16_t word = (uint16_t)(blue * 0x200 + green * 0x20 + red * 2 + strays(stray));
                    unsigned whole = blue << 8 | green << 4 | red;
                    expect("colour, bit 2 set", kuthbareen_colour_parts(word, 0x04), whole);
                    expect("colour, all bits set", kuthbareen_colour_parts(word, 0xFF), whole);
                    expect("colour, bit 2 clear", kuthbareen_colour_parts(word, 0x00), whole & 0x111);
                    expect("colour, the others set", kuthbareen_colour_parts(word, 0xFB), whole & 0x111);
                }
}

/* A pixel for each place of each pattern. */
static unsigned pixel(unsigned name, unsigned row, unsigned column)
{
    return (name * 7 + (name >> 4) + row * 5 + column * 3 + (row * column >> 1)) & 15;
}

static void refused(const char *what, size_t size, unsigned name, unsigned row, size_t room, unsigned wanted)
{
    uint8_t pixels[16];
    unsigned i;
    memset(pixels, 0xA5, sizeof pixels);
    expect(what, kuthbareen_pattern_row(vram, size, (uint16_t)name, (uint8_t)row, pixels, room), wanted);
    for (i = 0; i < sizeof pixels; i++)
        expect("a refused row's buffer", pixels[i], 0xA5);
}

static void patterns(void)
{
    unsigned name, row, column, i;
    for (i = 0; i < KUTHBAREEN_VRAM_SIZE; i++)
        vram[i] = (uint8_t)(pixel(i / 32, i / 4 % 8, i % 4 * 2) << 4 | pixel(i / 32, i / 4 % 8, i % 4 * 2 + 1));
    for (name = 0; name < 2048; name++)
        for (row = 0; row < 8; row++) {
            uint8_t pixels[12];
            memset(pixels, 0xA5, sizeof pixels);
            expect("row", kuthbareen_pattern_row(vram, 65536, (uint16_t)name, (uint8_t)row, pixels + 2, 8), 0);
            for (column = 0; column < 8; column++)
                expect("pixel", pixels[2 + column], pixel(name, row, column));
            expect("before the row", pixels[0] == 0xA5 && pixels[1] == 0xA5, 1);
            expect("behind the row", pixels[10] == 0xA5 && pixels[11] == 0xA5, 1);
        }
    refused("VRAM one short", 65535, 0, 0, 8, KUTHBAREEN_BAD_BUFFER);
    refused("VRAM one long", 65537, 0, 0, 8, KUTHBAREEN_BAD_BUFFER);
    refused("VRAM empty", 0, 0, 0, 8, KUTHBAREEN_BAD_BUFFER);
    refused("buffer one short", 65536, 0, 0, 7, KUTHBAREEN_BAD_BUFFER);
    refused("buffer one long", 65536, 0, 0, 9, KUTHBAREEN_BAD_BUFFER);
    refused("buffer empty", 65536, 0, 0, 0, KUTHBAREEN_BAD_BUFFER);
    refused("first name refused", 65536, 2048, 0, 8, KUTHBAREEN_NO_SUCH_PLACE);
    refused("last name refused", 65536, 65535, 7, 8, KUTHBAREEN_NO_SUCH_PLACE);
    refused("first row refused", 65536, 2047, 8, 8, KUTHBAREEN_NO_SUCH_PLACE);
    refused("last row refused", 65536, 0, 255, 8, KUTHBAREEN_NO_SUCH_PLACE);
    refused("both wrong: 2 before 5", 65535, 2048, 8, 8, KUTHBAREEN_BAD_BUFFER);
    refused("all wrong: 2 before 5", 65537, 65535, 255, 9, KUTHBAREEN_BAD_BUFFER);
}

/* Registers, colours and scroll words: written by calls and read in C, and the other way. */
static void arrays(void)
{
    kuthbareen_state chip = kuthbareen_fresh(false);
    unsigned i;
    for (i = 0; i < 24; i++)
        expect("register write", kuthbareen_control_write(&chip, (uint16_t)(0x8000 + i * 256 + 100 + i)).number, 0);
    for (i = 0; i < 24; i++)
        expect("register", chip.registers[i], 100 + i);
    chip.registers[15] = 2;
    chip.control.port.code = 3;
    chip.control.port.address = 0;
    for (i = 0; i < 64; i++)
        expect("colour write", data_write(&chip, (uint16_t)(i << 5)).number, 0);
    expect("address", chip.control.port.address, 128);
    for (i = 0; i < 64; i++) {
        expect("colour in C", chip.cram[i], i << 5 & 0x0EEE);
        chip.cram[i] = (uint16_t)((63 - i) << 6 & 0x0EEE);
    }
    chip.control.port.code = 8;
    for (i = 0; i < 64; i++)
        expect("colour read", data_read(&chip), (63 - i) << 6 & 0x0EEE);
    chip.control.port.code = 5;
    chip.control.port.address = 0;
    for (i = 0; i < 41; i++)
        expect("scroll write", data_write(&chip, (uint16_t)(0xFC00 + i * 25)).number, 0);
    for (i = 0; i < 40; i++) {
        expect("scroll in C", chip.vsram[i], i * 25);
        chip.vsram[i] = (uint16_t)(1023 - i);
    }
    chip.control.port.code = 4;
    chip.control.port.address = 0;
    for (i = 0; i < 40; i++)
        expect("scroll read", data_read(&chip), 1023 - i);
    expect("scroll 40 is absent", data_read(&chip), 0);
}

/* The port and PAL. */
static void port(void)
{
    kuthbareen_state chip = kuthbareen_fresh(true), zero;
    memset(&zero, 0, sizeof zero);
    zero.pal = true;
    zero.control.timing.line = KUTHBAREEN_LAST_LINE;
    expect("fresh", same_state(&chip, &zero), 1);
    expect("status, PAL", kuthbareen_status_read(&chip).result, 0x3601);
    chip.pal = false;
    expect("status", kuthbareen_status_read(&chip).result, 0x3600);
    kuthbareen_control_write(&chip, 0x4000 + 0x1234);
    expect("pending", chip.control.port.pending, 1);
    kuthbareen_control_write(&chip, 0x0003);
    expect("pending cleared", chip.control.port.pending, 0);
    expect("address", chip.control.port.address, 0xD234);
    expect("code", chip.control.port.code, 1);
    chip.control.port.pending = true;
    kuthbareen_control_write_byte(&chip, 0xF2);
    expect("second half by C", chip.control.port.code, 0x3D);
    expect("address bits by C", chip.control.port.address, 0x9234);
    chip.control.port.code = 1;
    expect("byte write", kuthbareen_data_write_byte(&chip, vram, KUTHBAREEN_VRAM_SIZE, 0xC3).number, 0);
    expect("high byte", vram[0x9234], 0xC3);
    expect("low byte", vram[0x9235], 0xC3);
}

/* The flags: a status read shows overflow and collision as they were and clears them and pending, but not used up; a
 * new frame clears the three flags alone. */
static void flags(void)
{
    unsigned set;
    for (set = 0; set < 8; set++) {
        unsigned overflow = set & 1, collision = set >> 1 & 1, used_up = set >> 2;
        kuthbareen_state fresh = kuthbareen_fresh(false), flagged = fresh, chip;
        fresh.registers[15] = flagged.registers[15] = 2;
        flagged.control.flags.overflow = overflow;
        flagged.control.flags.collision = collision;
        fresh.control.flags.used_up = flagged.control.flags.used_up = used_up;
        flagged.control.port.pending = true;
        chip = flagged;
        expect("flags read", kuthbareen_status_read(&chip).result, 0x3600 + overflow * 0x40 + collision * 0x20);
        expect("flags and pending cleared", same_state(&chip, &fresh), 1);
        expect("read again", kuthbareen_status_read(&chip).result, 0x3600);
        chip = flagged;
        fresh.control.port.pending = true;
        fresh.control.flags.used_up = false;
        expect("new frame", kuthbareen_new_frame(&chip).number, 0);
        expect("flags cleared", same_state(&chip, &fresh), 1);
    }
}

/* Refused port accesses leave the state as it came, a status read the flags too. */
static void refusals(void)
{
    kuthbareen_state chip = kuthbareen_fresh(false), before;
    chip.control.flags.overflow = chip.control.flags.collision = true;
    chip.control.port.code = 64;
    before = chip;
    expect("code 64 is bad", kuthbareen_status_read(&chip).number, KUTHBAREEN_BAD_STATE);
    expect("code 64 is bad at a frame", kuthbareen_new_frame(&chip).number, KUTHBAREEN_BAD_STATE);
    expect("left as it came", same_state(&chip, &before), 1);
    chip.control.port.code = 1;
    before = chip;
    expect("VRAM one short", kuthbareen_data_write(&chip, vram, 65535, 0).number, KUTHBAREEN_BAD_BUFFER);
    expect("VRAM one long", kuthbareen_data_read(&chip, vram, 65537).number, KUTHBAREEN_BAD_BUFFER);
    expect("left as it came", same_state(&chip, &before), 1);
}

/* The DMA fields, set in C and seen in what a fill and a copy do. */
static void fill_and_copy(void)
{
    kuthbareen_state chip = kuthbareen_fresh(false);
    memset(vram, 0, sizeof vram);
    chip.registers[15] = 1;
    chip.control.port.code = 1;
    chip.control.port.address = 0x100;
    chip.control.dma.kind = 3;
    chip.control.dma.remaining = 3;
    chip.control.dma.fill = 0x5A;
    expect("busy", data_write(&chip, 0).number, KUTHBAREEN_BUSY);
    expect("fill shows", kuthbareen_status_read(&chip).result, 0x3602);
    expect("two units", run(&chip, 2).result, 2);
    expect("one remains", chip.control.dma.remaining, 1);
    expect("one unit", run(&chip, 9).result, 1);
    expect("idle", chip.control.dma.kind, 0);
    expect("fill byte gone", chip.control.dma.fill, 0);
    expect("fill", vram[0x100] == 0x5A && vram[0x101] == 0x5A && vram[0x103] == 0x5A && vram[0x102] == 0, 1);
    chip.control.port.address = 0x200;
    chip.control.dma.kind = 4;
    chip.control.dma.remaining = 2;
    chip.control.dma.source = 0x100;
    expect("copy", run(&chip, 1).result, 1);
    expect("copied", vram[0x200], 0x5A);
    expect("source", chip.control.dma.source, 0x101);
    expect("rest of the copy", run(&chip, 1).result, 1);
}

/* The same in a transfer, and the memories that are lent to it. */
static void transfer(void)
{
    kuthbareen_state chip = kuthbareen_fresh(false), before;
    chip.registers[15] = 2;
    chip.control.port.code = 1;
    chip.control.port.address = 0x300;
    chip.control.dma.kind = 2;
    chip.control.dma.remaining = 2;
    chip.control.dma.source = 2;
    before = chip;
    expect("a word past the cartridge", run(&chip, 2).number, KUTHBAREEN_SOURCE_NOT_LENT);
    expect("left as it came", same_state(&chip, &before), 1);
    expect("a word of the cartridge", run(&chip, 1).result, 1);
    expect("moved", vram[0x300] * 256u + vram[0x301], 0x5678);
    chip.control.dma.source = 0xFF0004;
    ram[4] = 0x9A;
    ram[5] = 0xBC;
    expect("a word of work RAM", run(&chip, 1).result, 1);
    expect("moved", vram[0x302] * 256u + vram[0x303], 0x9ABC);
    expect("no units", run(&chip, 5).result, 0);
    expect("cartridge odd", kuthbareen_run(&chip, vram, 65536, cartridge, 3, ram, sizeof ram, 0).number, 2);
    expect("RAM short", kuthbareen_run(&chip, vram, 65536, cartridge, 4, ram, 65535, 0).number, 2);
    expect("no cartridge", kuthbareen_run(&chip, vram, 65536, cartridge, 0, ram, sizeof ram, 0).number, 0);
}

int main(void)
{
    colours();
    patterns();
    arrays();
    port();
    flags();
    refusals();
    fill_and_copy();
    transfer();
    return tested();
}
