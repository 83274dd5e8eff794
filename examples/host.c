/* A small host program: it holds a chip, writes a register and colours, reads them back, and makes a fill. */
#include <stdio.h>

#include "command.h"
#include "kuthbareen.h"

static uint8_t vram[KUTHBAREEN_VRAM_SIZE];
static const uint8_t ram[KUTHBAREEN_RAM_SIZE];
static const uint8_t cartridge[2];

static kuthbareen_answer run(kuthbareen_state *chip, uint32_t budget)
{
    return kuthbareen_run(chip, vram, sizeof vram, cartridge, sizeof cartridge, ram, sizeof ram, budget);
}

/* Code 000011 writes colours, 001000 reads them. */
static void colours(kuthbareen_state *chip)
{
    static const uint16_t words[] = {0x0E00, 0x00E0, 0x000E, 0xFFFF};
    int i;
    command(chip, 0x03, 0);
    for (i = 0; i < 4; i++)
        kuthbareen_data_write(chip, vram, sizeof vram, words[i]);
    command(chip, 0x08, 0);
    for (i = 0; i < 4; i++) {
        uint16_t word = (uint16_t)kuthbareen_data_read(chip, vram, sizeof vram).result;
        printf("colour %d: %04Xh, parts %03X, with register 0 bit 2 set %03X\n", i, (unsigned)word,
               (unsigned)kuthbareen_colour_parts(word, 0x00), (unsigned)kuthbareen_colour_parts(word, 0x04));
    }
}

/* A fill of 4 bytes: DMA on, step 1, length 4, fill; code 100001, then the word. */
static void fill(kuthbareen_state *chip)
{
    static const uint16_t words[] = {0x8114, 0x8F01, 0x9304, 0x9400, 0x9780};
    int i;
    for (i = 0; i < 5; i++)
        kuthbareen_control_write(chip, words[i]);
    command(chip, 0x21, 0);
    kuthbareen_data_write(chip, vram, sizeof vram, 0x1234);
    printf("a data write during the fill: answer %d\n",
           kuthbareen_data_write(chip, vram, sizeof vram, 0x5678).number);
    printf("status: %04Xh\n", (unsigned)kuthbareen_status_read(chip).result);
    printf("run of 3: %u units made\n", (unsigned)run(chip, 3).result);
    printf("run of 3: %u units made\n", (unsigned)run(chip, 3).result);
    printf("status: %04Xh\n", (unsigned)kuthbareen_status_read(chip).result);
    printf("VRAM:");
    for (i = 0; i < 6; i++)
        printf(" %02X", vram[i]);
    printf(", address %u\n", (unsigned)chip->control.port.address);
}

static void pattern(void)
{
    uint8_t pixels[KUTHBAREEN_ROW_SIZE];
    int i;
    printf("pattern 0, row 0: answer %d, pixels",
           kuthbareen_pattern_row(vram, sizeof vram, 0, 0, pixels, sizeof pixels));
    for (i = 0; i < KUTHBAREEN_ROW_SIZE; i++)
        printf(" %X", pixels[i]);
    printf("\n");
    printf("pattern 2048: answer %d\n",
           kuthbareen_pattern_row(vram, sizeof vram, 2048, 0, pixels, sizeof pixels));
}

int main(void)
{
    kuthbareen_state chip = kuthbareen_fresh(false);
    kuthbareen_answer answer = kuthbareen_control_write(&chip, 0x8F02);
    printf("8F02h: answer %d, register 15 is %d\n", answer.number, chip.registers[15]);
    colours(&chip);
    fill(&chip);
    pattern();
    return 0;
}
