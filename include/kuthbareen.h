/* Kuthbareen for C: the VDP (mode 5) of the Sega Genesis, access by access, as docs/DEFINITION.md defines it.
 *
 * Hold one kuthbareen_state and 65,536 bytes of VRAM for each chip and lend both to every call. To step back, hold a
 * tape and its count too and make the recorded calls. Link with libkuthbareen.a, which examples/build makes.
 *
 * What a caller owes:
 *   - a state comes from kuthbareen_fresh, or has every field set; its bools hold 0 or 1, as C keeps them;
 *   - a pointer with a count is that many bytes and is never NULL, also where the count is 0;
 *   - memory that a call may write (no const) overlaps nothing else that the call is lent;
 *   - the count of a tape is 0 at first, and then the one that the last call on this tape gave; between two such calls
 *     neither the tape nor the state nor VRAM is changed by anything else, else a step back leads elsewhere.
 * Nothing else: any numbers and any counts are answered, and a refused call leaves all it was lent as it came; a script
 * that is run is many calls, and those before the refused one stand.
 * Compare states field by field; the bytes between fields are not kept. */
#ifndef KUTHBAREEN_H
#define KUTHBAREEN_H

#include <stdbool.h>
#include <stddef.h>
#include <stdint.h>

#ifdef __cplusplus
extern "C" {
#endif

/* The numbers a call may answer; 9 is never given. Where several would do, a call answers the first of 1, 2, 11, 12, 3,
 * 10, 8, 5, 4, 7, 6. */
enum {
    KUTHBAREEN_DONE = 0,             /* the call was made */
    KUTHBAREEN_BAD_STATE = 1,        /* the state is not GOOD, or a reader is outside its ranges */
    KUTHBAREEN_BAD_BUFFER = 2,       /* a buffer has a wrong size */
    KUTHBAREEN_BUSY = 3,             /* DMA is at work */
    KUTHBAREEN_NOT_MODELLED = 4,     /* the registers ask for what is not modelled, or a line begins with PAL set */
    KUTHBAREEN_NO_SUCH_PLACE = 5,    /* no such line, pattern or row */
    KUTHBAREEN_TAPE_FULL = 6,        /* fewer free records than steps to be made */
    KUTHBAREEN_SOURCE_NOT_LENT = 7,  /* a word to be moved lies in no lent memory */
    KUTHBAREEN_BAD_RECORD = 8,       /* a record of the tape breaks the layout */
    KUTHBAREEN_NOTHING_THERE = 10,   /* a step back of more than the count, or a level that is not offered */
    KUTHBAREEN_BAD_SCRIPT = 11,      /* a script is not well formed, or no whole item begins at the byte */
    KUTHBAREEN_MISSING_REGISTER = 12 /* a script writes a register that there is not, 24 to 31 */
};

/* The sizes that calls ask for, in bytes. */
enum {
    KUTHBAREEN_VRAM_SIZE = 65536,
    KUTHBAREEN_RAM_SIZE = 65536,
    KUTHBAREEN_MOST_CARTRIDGE = 4194304,
    KUTHBAREEN_LINE_SIZE = 320,
    KUTHBAREEN_ROW_SIZE = 8,
    KUTHBAREEN_RECORD_SIZE = 32
};

/* The most units of DMA that can remain: the length that registers 19 and 20 stand for while both are 0. */
enum { KUTHBAREEN_MOST_UNITS = 65536 };

/* The lines of a frame, 0 to KUTHBAREEN_LAST_LINE. */
enum { KUTHBAREEN_LAST_LINE = 261 };

/* A pixel byte is a colour index plus an intensity. Without register 12 bit 3 every intensity is normal. */
enum {
    KUTHBAREEN_INDEX = 0x3F,     /* the bits of the colour index */
    KUTHBAREEN_INTENSITY = 0xC0, /* the bits of the intensity, which are one of the three below */
    KUTHBAREEN_NORMAL = 0,
    KUTHBAREEN_HALF = 64,
    KUTHBAREEN_DOUBLE = 128
};

/* A script is the version and its items, one after the other. An item is a length of two bytes, a kind and a content,
 * upper byte first; the kinds are these, and the first item begins at byte KUTHBAREEN_FIRST_ITEM. */
enum { KUTHBAREEN_SCRIPT_VERSION = 1, KUTHBAREEN_FIRST_ITEM = 1, KUTHBAREEN_MOST_ITEM_SIZE = 5 };
enum {
    KUTHBAREEN_ITEM_CONTROL_WORD = 1, /* content: the word */
    KUTHBAREEN_ITEM_DATA_WORD = 2,    /* content: the word */
    KUTHBAREEN_ITEM_DATA_READ = 3,
    KUTHBAREEN_ITEM_STATUS_READ = 4,
    KUTHBAREEN_ITEM_RUN = 5,  /* content: the budget */
    KUTHBAREEN_ITEM_LINE = 6, /* content: the line number */
    KUTHBAREEN_ITEM_NEW_FRAME = 7
};

/* How many steps a tape of n bytes can hold. */
#define KUTHBAREEN_TAPE_CAPACITY(n) ((n) / KUTHBAREEN_RECORD_SIZE)

/* The address and code registers, and whether the second half of a command is awaited. */
typedef struct {
    uint16_t address;
    uint8_t code; /* CD5-CD0 */
    bool pending;
} kuthbareen_port;

/* DMA at work. */
typedef struct {
    uint8_t kind;       /* 0 idle, 1 fill waiting, 2 transfer, 3 fill, 4 copy */
    uint32_t remaining; /* words of a transfer, bytes of a fill or copy; at most KUTHBAREEN_MOST_UNITS */
    uint32_t source;    /* a byte address: of the 68000 in a transfer, of VRAM in a copy */
    uint8_t fill;       /* the fill byte */
} kuthbareen_dma;

/* The sprite flags: two of the status word, and one for the next line, where a first sprite with X 0 masks by it. */
typedef struct {
    bool overflow;
    bool collision;
    bool used_up; /* the sprites of the line drawn last used up its pixels */
} kuthbareen_flags;

/* Frame timing. */
typedef struct {
    uint16_t line;   /* the line that the display is on; at most KUTHBAREEN_LAST_LINE */
    uint8_t counter; /* the line counter */
    bool vertical;   /* status bit 7: the vertical interrupt has come and was not acknowledged */
    bool horizontal; /* a level 4 interrupt waits */
} kuthbareen_timing;

/* The port, DMA, the flags and frame timing. */
typedef struct {
    kuthbareen_port port;
    kuthbareen_dma dma;
    kuthbareen_flags flags;
    kuthbareen_timing timing;
} kuthbareen_control;

/* The chip's state, without VRAM. */
typedef struct {
    uint8_t registers[24];
    uint16_t cram[64];  /* colours, bits of 0EEEh only */
    uint16_t vsram[40]; /* vertical scrolls, at most 3FFh */
    kuthbareen_control control;
    bool pal;
} kuthbareen_state;

/* What a call on a lent state gives back. */
typedef struct {
    uint8_t number;  /* one of the numbers above */
    uint32_t result; /* the word or counter read, the units made, the sprites visited or the level, else 0 */
} kuthbareen_answer;

/* What a call on a tape gives back. */
typedef struct {
    uint8_t number;  /* one of the numbers above */
    uint32_t result; /* as of the plain call */
    size_t count;    /* the records on the tape, for the next call */
} kuthbareen_recorded;

/* What a script that is run or judged gives back. */
typedef struct {
    uint8_t number; /* one of the numbers above */
    size_t place;   /* of the item that is refused, from 0; with KUTHBAREEN_DONE how many items there are */
} kuthbareen_script_answer;

/* What one item of a script gives back. */
typedef struct {
    uint8_t number;  /* one of the numbers above */
    uint32_t result; /* as of the plain call */
    size_t next;     /* the byte after the item; where it was refused, the byte that was given */
} kuthbareen_item_answer;

/* What writing an item gives back. */
typedef struct {
    uint8_t number; /* KUTHBAREEN_DONE, _BAD_BUFFER or _BAD_SCRIPT */
    size_t next;    /* the byte after the item, 0 where it was refused */
} kuthbareen_item_written;

/* What a reader keeps of a script that comes a few bytes at a time, from one call to the next. It comes from
 * kuthbareen_start_reader; any other that is in no row of the definition's table answers KUTHBAREEN_BAD_STATE. */
typedef struct {
    uint8_t stage;  /* 0 to 6: how much has come; KUTHBAREEN_STOPPED: it takes no more bytes */
    uint8_t kind;   /* in stages 5 and 6, that of the unfinished item, else 0 */
    uint8_t upper;  /* in stage 6, the first byte of its content, else 0 */
    uint8_t number; /* stopped, the number that it answers, else 0 */
} kuthbareen_reader;

/* The stage of a stopped reader. */
enum { KUTHBAREEN_STOPPED = 7 };

/* What bytes that are delivered to a reader give back. */
typedef struct {
    uint8_t number;           /* that of the reader that is left; where a call was refused, the call's */
    bool called;              /* whether a call was made, done or refused */
    uint32_t result;          /* as of the plain call, 0 where none was made */
    size_t taken;             /* how many of the bytes were taken */
    kuthbareen_reader reader; /* for the next call */
} kuthbareen_delivery;

/* What the end notice to a reader gives back. */
typedef struct {
    uint8_t number;           /* KUTHBAREEN_DONE where whole items have come; else why the reader is stopped */
    kuthbareen_reader reader; /* stopped, if it was in its ranges */
} kuthbareen_end_answer;

/* A fresh state: all zero but for the line, which is KUTHBAREEN_LAST_LINE, and PAL, which is as asked. */
kuthbareen_state kuthbareen_fresh(bool pal);

/* Writes a word to the control port: a register, or the first or second half of a command. */
kuthbareen_answer kuthbareen_control_write(kuthbareen_state *state, uint16_t word);

/* Writes a byte to the control port: it stands in both halves of the word. */
kuthbareen_answer kuthbareen_control_write_byte(kuthbareen_state *state, uint8_t byte);

/* Writes a word to the data port. */
kuthbareen_answer kuthbareen_data_write(kuthbareen_state *state, uint8_t *vram, size_t vram_size, uint16_t word);

/* Writes a byte to the data port: it stands in both halves of the word. */
kuthbareen_answer kuthbareen_data_write_byte(kuthbareen_state *state, uint8_t *vram, size_t vram_size, uint8_t byte);

/* Reads a word from the data port: the result. */
kuthbareen_answer kuthbareen_data_read(kuthbareen_state *state, const uint8_t *vram, size_t vram_size);

/* Reads the status word: the result, as it was before the read. Then clears pending, overflow and collision. */
kuthbareen_answer kuthbareen_status_read(kuthbareen_state *state);

/* Begins a new frame: clears overflow, collision and used up. The timing is for kuthbareen_line_begins. */
kuthbareen_answer kuthbareen_new_frame(kuthbareen_state *state);

/* The next line of the frame begins: the line counter is loaded or counts, and may make a level 4 interrupt wait; line
 * 224 sets status bit 7. A PAL state answers KUTHBAREEN_NOT_MODELLED. */
kuthbareen_answer kuthbareen_line_begins(kuthbareen_state *state);

/* Acknowledges the interrupt level that is offered, 4 or 6: what it is for no longer waits. Another level answers
 * KUTHBAREEN_NOTHING_THERE. */
kuthbareen_answer kuthbareen_acknowledge(kuthbareen_state *state, uint8_t level);

/* Reads the V counter: the result. The state stays as it is. */
kuthbareen_answer kuthbareen_v_counter(kuthbareen_state *state);

/* Reads the interrupt level that is offered, 0 if none is: the result. The state stays as it is. */
kuthbareen_answer kuthbareen_level_offered(kuthbareen_state *state);

/* Makes DMA units, at most as many as the budget: the result says how many. A budget of KUTHBAREEN_MOST_UNITS or above
 * makes all that remain. A transfer finds its words in the cartridge, and from E00000h up in work RAM. */
kuthbareen_answer kuthbareen_run(kuthbareen_state *state, uint8_t *vram, size_t vram_size, const uint8_t *cartridge,
                                 size_t cartridge_size, const uint8_t *ram, size_t ram_size, uint32_t budget);

/* Draws a line of the screen into 320 pixels: a pixel byte for each column of the visible width, which is 320 or 256;
 * the pixels beyond it stay. Sets overflow or collision where the line meets them and clears neither; sets or clears
 * used_up. The result says how many sprites were visited. */
kuthbareen_answer kuthbareen_line(kuthbareen_state *state, const uint8_t *vram, size_t vram_size, uint32_t line,
                                  uint8_t *pixels, size_t pixels_size);

/* The recorded calls do what the calls above do and put a record on the tape for each step; a run has a step for each
 * unit, so KUTHBAREEN_MOST_UNITS at most. A tape without room for all of a call's steps refuses it. The reads of the V
 * counter and the level have no recorded form: they change nothing. */
kuthbareen_recorded kuthbareen_recorded_control_write(kuthbareen_state *state, uint8_t *tape, size_t tape_size,
                                                      size_t count, uint16_t word);

kuthbareen_recorded kuthbareen_recorded_control_write_byte(kuthbareen_state *state, uint8_t *tape, size_t tape_size,
                                                           size_t count, uint8_t byte);

kuthbareen_recorded kuthbareen_recorded_data_write(kuthbareen_state *state, uint8_t *vram, size_t vram_size,
                                                   uint8_t *tape, size_t tape_size, size_t count, uint16_t word);

kuthbareen_recorded kuthbareen_recorded_data_write_byte(kuthbareen_state *state, uint8_t *vram, size_t vram_size,
                                                        uint8_t *tape, size_t tape_size, size_t count, uint8_t byte);

kuthbareen_recorded kuthbareen_recorded_data_read(kuthbareen_state *state, const uint8_t *vram, size_t vram_size,
                                                  uint8_t *tape, size_t tape_size, size_t count);

kuthbareen_recorded kuthbareen_recorded_status_read(kuthbareen_state *state, uint8_t *tape, size_t tape_size,
                                                    size_t count);

kuthbareen_recorded kuthbareen_recorded_new_frame(kuthbareen_state *state, uint8_t *tape, size_t tape_size,
                                                  size_t count);

kuthbareen_recorded kuthbareen_recorded_line_begins(kuthbareen_state *state, uint8_t *tape, size_t tape_size,
                                                    size_t count);

kuthbareen_recorded kuthbareen_recorded_acknowledge(kuthbareen_state *state, uint8_t *tape, size_t tape_size,
                                                    size_t count, uint8_t level);

kuthbareen_recorded kuthbareen_recorded_run(kuthbareen_state *state, uint8_t *vram, size_t vram_size,
                                            const uint8_t *cartridge, size_t cartridge_size, const uint8_t *ram,
                                            size_t ram_size, uint8_t *tape, size_t tape_size, size_t count,
                                            uint32_t budget);

kuthbareen_recorded kuthbareen_recorded_line(kuthbareen_state *state, const uint8_t *vram, size_t vram_size,
                                             uint8_t *tape, size_t tape_size, size_t count, uint32_t line,
                                             uint8_t *pixels, size_t pixels_size);

/* Takes the last k steps back: state and VRAM are as before them, and the count is k less. The tape's bytes stay. */
kuthbareen_recorded kuthbareen_step_back(kuthbareen_state *state, uint8_t *vram, size_t vram_size, const uint8_t *tape,
                                         size_t tape_size, size_t count, size_t k);

/* Runs a script. It is judged as a whole first, with the state's pending flag, and one that is refused there makes no
 * call. Then its plain calls are made in their order. The first that is refused ends it, and those before it stand:
 * here a number other than KUTHBAREEN_DONE does not say that all is as it came. */
kuthbareen_script_answer kuthbareen_run_script(kuthbareen_state *state, uint8_t *vram, size_t vram_size,
                                               const uint8_t *cartridge, size_t cartridge_size, const uint8_t *ram,
                                               size_t ram_size, uint8_t *pixels, size_t pixels_size,
                                               const uint8_t *script, size_t script_size);

/* Makes the call of the item that begins at byte at of a script; what stands before it is not looked at, and a write to
 * a missing register is made as the control port does it. With kuthbareen_judge_script first and then from
 * KUTHBAREEN_FIRST_ITEM on to the end, this runs a script and has each call's answer. */
kuthbareen_item_answer kuthbareen_script_item(kuthbareen_state *state, uint8_t *vram, size_t vram_size,
                                              const uint8_t *cartridge, size_t cartridge_size, const uint8_t *ram,
                                              size_t ram_size, uint8_t *pixels, size_t pixels_size,
                                              const uint8_t *script, size_t script_size, size_t at);

/* Judges a script that is to be run from a state with this pending flag (its control.port.pending): whether it is well
 * formed, whether it writes a missing register, and where. */
kuthbareen_script_answer kuthbareen_judge_script(bool pending, const uint8_t *script, size_t script_size);

/* Writes the item of a kind with this content at byte at of a script, over what stands there; kinds without a content
 * do not look at it. The version is the caller's to write, at byte 0. */
kuthbareen_item_written kuthbareen_write_item(uint8_t *script, size_t script_size, size_t at, uint8_t kind,
                                              uint16_t content);

/* "A reader that is started anew is in stage 0.": it awaits the version. */
kuthbareen_reader kuthbareen_start_reader(void);

/* Delivers bytes of a script to a reader and makes one call at most: "it ends behind the byte that makes an item whole
 * or is faulty, and, where there is none, behind the last byte." Go on with the bytes that were not taken as long as
 * some were taken and some are left. A number other than KUTHBAREEN_DONE says that the reader takes no more bytes and
 * that state, VRAM and pixels are as this call found them; the calls before it stand. */
kuthbareen_delivery kuthbareen_deliver(kuthbareen_state *state, uint8_t *vram, size_t vram_size,
                                       const uint8_t *cartridge, size_t cartridge_size, const uint8_t *ram,
                                       size_t ram_size, uint8_t *pixels, size_t pixels_size, kuthbareen_reader reader,
                                       const uint8_t *bytes, size_t bytes_size);

/* Tells a reader that no more bytes come. "The end notice stops a reader: in stage 1 with 0, in stages 0 and 2 to 6
 * with 11." */
kuthbareen_end_answer kuthbareen_end_notice(kuthbareen_reader reader);

/* The parts of a colour word, given register 0: 256 x blue + 16 x green + red, each 0 to 7. Never refused. */
uint32_t kuthbareen_colour_parts(uint16_t word, uint8_t register0);

/* Writes the eight unflipped pixels of a pattern's row, left to right, and answers 0, 2 or 5. */
uint8_t kuthbareen_pattern_row(const uint8_t *vram, size_t vram_size, uint16_t name, uint8_t row, uint8_t *pixels,
                               size_t pixels_size);

#ifdef __cplusplus
}
#endif

#endif
