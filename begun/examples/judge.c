/* Judges captures of the scene and reports on them in whole numbers: judge <CAPTURES. A capture is the number of its
 * line, in two bytes with the upper one first, and the 320 pixel bytes of the line; captures may come in any order.
 * `judge make` writes captures to be judged: all lines of the scene, some of them spoilt. */
#include <string.h>

#include "scenery.h"

enum { NUMBER_SIZE = 2, CAPTURE_SIZE = NUMBER_SIZE + KUTHBAREEN_LINE_SIZE };

/* used_up as it stands when each line begins: a capture is judged as it was drawn only with that. */
static bool used_up[HEIGHT];

/* What is told at the end. */
static kuthbareen_batch batch;

/* Draws the frame in its order, on a copy of the chip, to see how each line leaves used_up to the next. */
static void draw_frame(void)
{
    kuthbareen_state drawing = chip;
    uint8_t pixels[KUTHBAREEN_LINE_SIZE];
    unsigned line;
    for (line = 0; line < HEIGHT; line++) {
        used_up[line] = drawing.control.flags.used_up;
        done(kuthbareen_line(&drawing, vram, sizeof vram, line, pixels, sizeof pixels));
    }
}

/* Judges one capture, tells what came of it and adds it to the batch. Its place is the lines judged before it. */
static void judge(const uint8_t *capture)
{
    unsigned line = capture[0] * 256u + capture[1], place = batch.lines;
    const uint8_t *pixels = capture + NUMBER_SIZE;
    kuthbareen_judgement judgement;
    kuthbareen_batch_answer added;
    if (line < HEIGHT)
        chip.control.flags.used_up = used_up[line];
    judgement = kuthbareen_judge_line(&chip, vram, sizeof vram, line, pixels, KUTHBAREEN_LINE_SIZE);
    added = kuthbareen_add_line(&chip, vram, sizeof vram, line, pixels, KUTHBAREEN_LINE_SIZE, batch);
    if (added.number != KUTHBAREEN_DONE)
        printf("line %u: refused with %u\n", line, added.number);
    else if (judgement.equal)
        printf("place %u, line %u: equal\n", place, line);
    else
        printf("place %u, line %u: differs, first at column %u\n", place, line, (unsigned)judgement.column);
    batch = added.batch;
}

static void report(void)
{
    printf("lines judged: %u\n", (unsigned)batch.lines);
    printf("lines equal: %u\n", (unsigned)batch.equal);
    printf("differing pixels: %u\n", (unsigned)batch.differing);
    printf("visible pixels: %u\n", (unsigned)batch.visible);
    if (batch.worst.there)
        printf("worst line: place %u, differing pixels %u\n", (unsigned)batch.worst.place,
               (unsigned)batch.worst.differing);
    else
        printf("worst line: none\n");
}

/* Judges what comes on standard input. A capture that is cut is told by how many whole ones there are before it and by
 * the byte where the file ends; those before it are reported. */
static int judge_all(void)
{
    uint8_t capture[CAPTURE_SIZE];
    unsigned long whole = 0;
    size_t size;
    draw_frame();
    batch = kuthbareen_empty_batch();
    while ((size = fread(capture, 1, sizeof capture, stdin)) == sizeof capture) {
        judge(capture);
        whole++;
    }
    report();
    if (ferror(stdin))
        fprintf(stderr, "judge: the captures cannot be read\n");
    else if (size != 0)
        fprintf(stderr, "judge: capture %lu is cut, at byte %lu\n", whole, whole * CAPTURE_SIZE + size);
    return size != 0 || ferror(stdin) || fflush(stdout) != 0;
}

/* What is spoilt: pixels of a line, from a column on, in these bits. The second of two lines that are spoilt as much
 * is not the worst, and one pixel differs in its intensity alone. */
static const struct {
    unsigned line, column, pixels;
    uint8_t bits;
} spoilt[] = {
    {0, 0, 1, 0x01}, {40, 160, 10, 0x3F}, {99, 0, 320, 0x20}, {100, 0, 320, 0xFF}, {150, 319, 1, KUTHBAREEN_HALF},
    {223, 317, 3, 0x02},
};

static void spoil(unsigned line, uint8_t *pixels)
{
    unsigned i, x;
    for (i = 0; i < sizeof spoilt / sizeof spoilt[0]; i++)
        if (spoilt[i].line == line)
            for (x = 0; x < spoilt[i].pixels; x++)
                pixels[spoilt[i].column + x] ^= spoilt[i].bits;
}

static void put_capture(unsigned line, const uint8_t *pixels)
{
    putchar((int)(line / 256));
    putchar((int)(line % 256));
    fwrite(pixels, 1, KUTHBAREEN_LINE_SIZE, stdout);
}

/* All lines, after line 99 one that there is not, and at last line 223 again, as it is. */
static int make(void)
{
    uint8_t pixels[KUTHBAREEN_LINE_SIZE], made[KUTHBAREEN_LINE_SIZE];
    unsigned line;
    for (line = 0; line < HEIGHT; line++) {
        done(kuthbareen_line(&chip, vram, sizeof vram, line, pixels, sizeof pixels));
        memcpy(made, pixels, sizeof made);
        spoil(line, made);
        put_capture(line, made);
        if (line == 99)
            put_capture(HEIGHT, made);
    }
    put_capture(HEIGHT - 1, pixels);
    return fflush(stdout) != 0;
}

int main(int argc, char **argv)
{
    set_up();
    if (argc == 1)
        return judge_all();
    if (argc == 2 && strcmp(argv[1], "make") == 0)
        return make();
    fprintf(stderr, "judge: usage: judge <CAPTURES, or judge make >CAPTURES\n");
    return 2;
}
