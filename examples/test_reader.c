/* Tests of the reader. What must come of a script is told from a list of its items, by plain calls and by counting
 * bytes, and from the definition's tables, which stand here as tables too; it is never told by another delivery. */
#include "items.h"

enum {
    ITEMS = 12,
    TAIL = 5,
    SCRIPT_SIZE = KUTHBAREEN_FIRST_ITEM + ITEMS * KUTHBAREEN_MOST_ITEM_SIZE + TAIL,
    NOWHERE = SCRIPT_SIZE /* the byte of a fault that there is not */
};

_Static_assert(KUTHBAREEN_STOPPED == 7, "stopped");
_Static_assert(sizeof(kuthbareen_reader) == 4, "reader");
_Static_assert(offsetof(kuthbareen_reader, kind) == 1, "kind");
_Static_assert(offsetof(kuthbareen_reader, upper) == 2, "upper");
_Static_assert(offsetof(kuthbareen_reader, number) == 3, "number");
_Static_assert(sizeof(kuthbareen_delivery) == 24, "delivery");
_Static_assert(offsetof(kuthbareen_delivery, called) == 1, "called");
_Static_assert(offsetof(kuthbareen_delivery, result) == 4, "result");
_Static_assert(offsetof(kuthbareen_delivery, taken) == 8, "taken");
_Static_assert(offsetof(kuthbareen_delivery, reader) == 16, "reader left");
_Static_assert(sizeof(kuthbareen_end_answer) == 5, "end answer");
_Static_assert(offsetof(kuthbareen_end_answer, reader) == 1, "reader left");

/* The script: its items, its bytes, and which of these is faulty. */
static item list[ITEMS];
static unsigned items;
static uint8_t script[SCRIPT_SIZE];
static size_t size, fault;

/* What must come of it: the calls, what each of them leaves, the number that stops the reader, DONE if none does, and
 * the byte behind which it stops. */
typedef struct {
    kuthbareen_answer answer;
    board left;
} call;

static call calls[ITEMS];
static unsigned called;
static uint8_t ends;
static size_t ends_at;

/* The board at the start, the one under test and one for plain calls; the reader, and how many bytes have come and how
 * many of them were taken. */
static board start, ours, theirs;
static kuthbareen_reader reader;
static size_t come, at;

/* Whether the pixels change between deliveries, and how often a reader ended with each number. */
static bool own_pixels;
static unsigned long ended[13];

/* ---- what there is to compare */

static kuthbareen_reader in_stage(unsigned stage)
{
    return (kuthbareen_reader){(uint8_t)stage, 0, 0, 0};
}

static kuthbareen_reader stopped(uint8_t number)
{
    return (kuthbareen_reader){7, 0, 0, number};
}

static void same_reader(const char *what, kuthbareen_reader r, kuthbareen_reader wanted)
{
    expect(what, r.stage, wanted.stage);
    expect(what, r.kind, wanted.kind);
    expect(what, r.upper, wanted.upper);
    expect(what, r.number, wanted.number);
}

static void answered(const char *what, kuthbareen_delivery d, kuthbareen_delivery wanted)
{
    expect(what, d.number, wanted.number);
    expect(what, d.called, wanted.called);
    expect(what, d.result, wanted.result);
    expect(what, d.taken, wanted.taken);
    same_reader(what, d.reader, wanted.reader);
}

/* Delivers bytes out of a buffer that has others around them, and sees that they stay. */
static kuthbareen_delivery deliver(const uint8_t *bytes, size_t n)
{
    static uint8_t buffer[GUARD + SCRIPT_SIZE + GUARD], before[sizeof buffer];
    kuthbareen_delivery d;
    memset(buffer, 0xA5, sizeof buffer);
    memcpy(buffer + GUARD, bytes, n);
    memcpy(before, buffer, sizeof buffer);
    d = kuthbareen_deliver(&ours.chip, ours.lent.vram, lengths.vram, cartridge, lengths.cartridge, ram, lengths.ram,
                           ours.lent.pixels, lengths.pixels, reader, buffer + GUARD, n);
    expect("bytes stay", (unsigned long)memcmp(buffer, before, sizeof buffer), 0);
    return d;
}

/* The end notice stops the reader with a number. */
static void notice(uint8_t number)
{
    kuthbareen_end_answer e = kuthbareen_end_notice(reader);
    expect("end notice", e.number, number);
    same_reader("reader left by it", e.reader, stopped(number));
    reader = e.reader;
}

/* A stopped reader takes no byte and answers its number, to bytes, to none and to the end notice. */
static void stays(uint8_t number)
{
    static const uint8_t bytes[] = {1, 0, 1, 4};
    size_t n;
    for (n = 0; n <= sizeof bytes; n++) {
        kuthbareen_delivery d = deliver(bytes, n);
        answered("stopped", d, (kuthbareen_delivery){number, false, 0, 0, stopped(number)});
        reader = d.reader;
    }
    notice(number);
}

/* The bytes around the buffers are as they were. */
static void guarded(void)
{
    unsigned i, changed = 0;
    for (i = 0; i < GUARD; i++)
        changed += (ours.lent.before[i] != 0xEE) + (ours.lent.between[i] != 0xEE) + (ours.lent.behind[i] != 0xEE);
    expect("bytes around the buffers", changed, 0);
}

/* And so are work RAM and the cartridge, which no call writes. */
static void only_read(void)
{
    unsigned i, changed = 0;
    for (i = 0; i < sizeof ram; i++)
        changed += ram[i] != 0;
    for (i = 0; i < sizeof cartridge; i++)
        changed += cartridge[i] != (uint8_t)(i * 11 + 3);
    expect("bytes that are only read", changed, 0);
}

/* Lends the buffers whole, or no byte of them. */
static void lend(bool all)
{
    lengths.vram = all ? KUTHBAREEN_VRAM_SIZE : 0;
    lengths.cartridge = all ? sizeof cartridge : 0;
    lengths.ram = all ? sizeof ram : 0;
    lengths.pixels = all ? KUTHBAREEN_LINE_SIZE : 0;
}

/* ---- a script, and what must come of it */

static void put_byte(uint8_t byte)
{
    script[size++] = byte;
}

static void put(item i)
{
    list[items++] = i;
    put_byte(0);
    put_byte((uint8_t)(size_of(i) - 2));
    put_byte(i.kind);
    if (size_of(i) == 5) {
        put_byte((uint8_t)(i.content / 256));
        put_byte((uint8_t)(i.content % 256));
    }
}

static void clear(uint8_t version)
{
    items = 0;
    size = 0;
    put_byte(version);
    fault = version == 1 ? NOWHERE : 0;
}

/* How many items are whole with the first n bytes. */
static unsigned whole(size_t n)
{
    unsigned place = 0;
    while (place < items && byte_of(list, place + 1) <= n)
        place++;
    return place;
}

/* "An item names a missing register if it is a control write, its word would be taken as a register write, and the
 * register is one of those." */
static bool names_missing(bool pending, item i)
{
    return i.kind == 1 && !pending && i.content / 16384 == 2 && i.content / 256 % 32 >= 24;
}

/* Makes the calls of the items, plain, up to where the reader must stop. */
static void play(void)
{
    unsigned place;
    theirs = start;
    called = 0;
    ends = KUTHBAREEN_DONE;
    for (place = 0; fault != 0 && place < items && ends == KUTHBAREEN_DONE; place++) {
        ends_at = byte_of(list, place + 1);
        if (names_missing(theirs.chip.control.port.pending, list[place])) {
            ends = KUTHBAREEN_MISSING_REGISTER;
        } else {
            calls[called].answer = plain(&theirs, list[place]);
            calls[called].left = theirs;
            ends = calls[called++].answer.number;
        }
    }
    if (ends == KUTHBAREEN_DONE && fault != NOWHERE) {
        ends = KUTHBAREEN_BAD_SCRIPT;
        ends_at = fault + 1;
    }
}

/* ---- deliveries of the script */

/* Whether the reader is stopped behind the first n bytes. */
static bool over(size_t n)
{
    return ends != KUTHBAREEN_DONE && n == ends_at;
}

/* The reader behind the first n bytes, by the table of stages. */
static kuthbareen_reader reader_at(size_t n)
{
    size_t begun = byte_of(list, whole(n));
    if (over(n))
        return stopped(ends);
    if (n == 0)
        return in_stage(0);
    switch (n - begun) {
    case 0: return in_stage(1);
    case 1: return in_stage(2);
    case 2: return in_stage(script[begun + 1] == 1 ? 3 : 4);
    case 3: return (kuthbareen_reader){5, script[begun + 2], 0, 0};
    default: return (kuthbareen_reader){6, script[begun + 2], script[begun + 3], 0};
    }
}

/* What the calls of the first n bytes leave. */
static const board *left(size_t n)
{
    unsigned made = whole(n) < called ? whole(n) : called;
    return made == 0 ? &start : &calls[made - 1].left;
}

/* The byte behind which the item that is begun, or awaited, behind the first n bytes is whole or faulty. */
static size_t next_end(size_t n)
{
    unsigned place = whole(n);
    if (fault == 0 || (place == items && fault != NOWHERE))
        return fault + 1;
    return place < items ? byte_of(list, place + 1) : SIZE_MAX;
}

static void compare(void)
{
    const board *wanted = left(at);
    expect("state", (unsigned long)same_state(&ours.chip, &wanted->chip), 1);
    expect("VRAM", (unsigned long)memcmp(ours.lent.vram, wanted->lent.vram, sizeof ours.lent.vram), 0);
    if (!own_pixels)
        expect("pixels", (unsigned long)memcmp(ours.lent.pixels, wanted->lent.pixels, sizeof ours.lent.pixels), 0);
}

/* One `deliver` of the next n bytes, and all that must come of it; gives how many must be taken. */
static size_t step(size_t n)
{
    size_t end = next_end(at), taken = over(at) ? 0 : end <= at + n ? end - at : n;
    unsigned place = whole(at);
    bool made = taken != 0 && at + taken == end && place < called;
    kuthbareen_delivery d, wanted = {over(at + taken) ? ends : KUTHBAREEN_DONE, made,
                                     made ? calls[place].answer.result : 0, taken, reader_at(at + taken)};
    if (own_pixels)
        memset(ours.lent.pixels, (int)below(256), sizeof ours.lent.pixels);
    d = deliver(script + come, n);
    answered("delivered", d, wanted);
    reader = d.reader;
    at += taken;
    come += taken;
    compare();
    return taken;
}

/* A delivery of the next n bytes: goes on with those that were not taken, as long as some were and some are left. */
static void piece(size_t n)
{
    size_t end = come + n, taken;
    do
        taken = step(end - come);
    while (taken != 0 && come < end);
    come = end;
}

/* The end notice behind what has come. */
static void finish(void)
{
    uint8_t number = at == byte_of(list, whole(at)) ? KUTHBAREEN_DONE : KUTHBAREEN_BAD_SCRIPT;
    if (over(at))
        number = ends;
    notice(number);
    stays(number);
    compare();
    guarded();
    ended[number]++;
}

/* The board as at the start, and a reader that is started anew. */
static void anew(void)
{
    ours = start;
    reader = kuthbareen_start_reader();
    same_reader("started anew", reader, in_stage(0));
    come = at = 0;
}

/* The end notice behind every byte, and the script in two pieces. */
static void cut_in_two(void)
{
    size_t first;
    for (first = 0; first <= size; first++) {
        anew();
        piece(first);
        finish();
        anew();
        piece(first);
        piece(size - first);
        finish();
    }
}

static void cut_in_three(void)
{
    size_t first, second;
    for (first = 0; first <= size; first++)
        for (second = 0; second <= size - first; second++) {
            anew();
            piece(first);
            piece(second);
            piece(size - first - second);
            finish();
        }
}

/* Byte by byte, with deliveries of no bytes between them. */
static void byte_by_byte(void)
{
    size_t i;
    anew();
    for (i = 0; i < size; i++) {
        piece(0);
        piece(1);
        piece(0);
    }
    finish();
}

/* At random, as many bytes as may be at a time. */
static void in_pieces(size_t most)
{
    anew();
    while (come < size) {
        size_t n = below((unsigned)most + 1);
        piece(n < size - come ? n : size - come);
    }
    finish();
}

/* A script that is judged with 0 ends as the script that is run. */
static void as_run(void)
{
    if (kuthbareen_judge_script(start.chip.control.port.pending, script, size).number != KUTHBAREEN_DONE)
        return;
    theirs = start;
    expect("number of the script that is run", run(&theirs, script, size).number, ends);
    same_boards("the script that is run", &theirs, left(ends == KUTHBAREEN_DONE ? size : ends_at));
}

/* Every cut of the script, from the board at the start. */
static void every_cut(void)
{
    play();
    as_run();
    cut_in_two();
    cut_in_three();
    byte_by_byte();
    own_pixels = true;
    byte_by_byte();
    in_pieces(9);
    own_pixels = false;
}

/* ---- the scripts that are cut */

#define CONTROL(word) {KUTHBAREEN_ITEM_CONTROL_WORD, word}
#define DATA(word) {KUTHBAREEN_ITEM_DATA_WORD, word}
#define READ {KUTHBAREEN_ITEM_DATA_READ, 0}
#define STATUS {KUTHBAREEN_ITEM_STATUS_READ, 0}
#define RUN(budget) {KUTHBAREEN_ITEM_RUN, budget}
#define LINE(number) {KUTHBAREEN_ITEM_LINE, number}
#define FRAME {KUTHBAREEN_ITEM_NEW_FRAME, 0}

/* The version, the items, and bytes behind them, of which one is faulty. */
static const struct {
    uint8_t version;
    item items[ITEMS + 1]; /* up to the kind 0 */
    size_t bytes;
    uint8_t tail[TAIL];
    size_t fault;
} scripts[] = {
    /* every kind of item: words at C000h are written and read back; a line, which is blanked */
    {1, {CONTROL(0x8F02), CONTROL(0x4000), CONTROL(0x0003), DATA(0x1234), DATA(0x5678), CONTROL(0x0000),
         CONTROL(0x0003), READ, STATUS, FRAME, LINE(3), RUN(5)}, 0, {0}, 0},
    /* a fill of five bytes in two runs, with the status between them */
    {1, {CONTROL(0x8F01), CONTROL(0x9305), CONTROL(0x9780), CONTROL(0x4000), CONTROL(0x0080), DATA(0x1200), RUN(3),
         STATUS, RUN(9), READ, FRAME}, 0, {0}, 0},
    /* a line that there is not; one under registers that are not modelled; a busy port; a source that is not lent */
    {1, {CONTROL(0x8F02), LINE(300), STATUS}, 0, {0}, 0},
    {1, {CONTROL(0x8104), LINE(0), CONTROL(0x8100), LINE(0), STATUS}, 0, {0}, 0},
    {1, {CONTROL(0x9302), CONTROL(0x9700), CONTROL(0x4000), CONTROL(0x0080), FRAME, STATUS, FRAME}, 0, {0}, 0},
    {1, {CONTROL(0x9301), CONTROL(0x9710), CONTROL(0x4000), CONTROL(0x0080), RUN(0), RUN(1), FRAME}, 0, {0}, 0},
    /* missing registers, one of them in a second half */
    {1, {CONTROL(0x8F02), CONTROL(0x9800), STATUS}, 0, {0}, 0},
    {1, {CONTROL(0x4000), CONTROL(0x9800), CONTROL(0xBFFF), STATUS}, 0, {0}, 0},
    {1, {CONTROL(0x9FFF), STATUS}, 0, {0}, 0},
    {1, {CONTROL(0x4000), LINE(0), RUN(1), FRAME, CONTROL(0x9800), STATUS, CONTROL(0xB800)}, 0, {0}, 0},
    /* no items; wrong versions; a faulty byte in each stage, with more bytes behind it */
    {1, {{0, 0}}, 0, {0}, 0},
    {0, {STATUS, DATA(1)}, 0, {0}, 0},
    {2, {STATUS}, 0, {0}, 0},
    {1, {STATUS}, 4, {1, 0, 1, 4}, 0},
    {1, {DATA(0x1234)}, 5, {0, 2, 0, 1, 4}, 1},
    {1, {FRAME}, 5, {0, 1, 1, 0, 1}, 2},
    {1, {READ}, 5, {0, 3, 4, 0, 0}, 2},
};

enum { SCRIPTS = sizeof scripts / sizeof scripts[0] };

static void write_script(unsigned n)
{
    unsigned i;
    clear(scripts[n].version);
    for (i = 0; scripts[n].items[i].kind != 0; i++)
        put(scripts[n].items[i]);
    if (scripts[n].bytes != 0)
        fault = size + scripts[n].fault;
    for (i = 0; i < scripts[n].bytes; i++)
        put_byte(scripts[n].tail[i]);
}

/* Cuts each script with a board and lengths as they are set. */
static void all_scripts(void)
{
    unsigned n;
    for (n = 0; n < SCRIPTS; n++) {
        write_script(n);
        every_cut();
    }
}

/* On good boards, and on such as some or all calls refuse. */
static void boards(void)
{
    unsigned pending;
    for (pending = 0; pending < 2; pending++) {
        begin(&start, pending != 0);
        all_scripts();
        start.chip.control.port.code = 64;
        all_scripts();
    }
    begin(&start, false);
    lengths.vram--;
    all_scripts();
    lend(true);
    lengths.pixels--;
    all_scripts();
    lend(true);
    lengths.ram = 0;
    all_scripts();
    lend(true);
    lengths.cartridge--;
    all_scripts();
    lend(true);
}

/* Items at random, in pieces at random. */
static void at_random(void)
{
    unsigned n, i, wanted;
    for (n = 0; n < 3000; n++) {
        begin(&start, below(2) != 0);
        clear(1);
        wanted = below(ITEMS + 1);
        for (i = 0; i < wanted; i++)
            put(some_item());
        play();
        as_run();
        in_pieces(1 + below(12));
        byte_by_byte();
    }
}

/* ---- single bytes */

/* What a byte does, in the definition's rows: the stage that it leads to, WHOLE, or FAULTY where there is no row. */
enum { ANY = 256, WHOLE = 8, FAULTY = 9 };

static unsigned next_stage(unsigned stage, unsigned byte)
{
    static const struct {
        unsigned stage, byte, next;
    } rows[] = {{0, 1, 1},     {1, 0, 2},     {2, 1, 3}, {2, 3, 4}, {3, 3, WHOLE}, {3, 4, WHOLE},  {3, 7, WHOLE},
                {4, 1, 5},     {4, 2, 5},     {4, 5, 5}, {4, 6, 5}, {5, ANY, 6},   {6, ANY, WHOLE}};
    unsigned i;
    for (i = 0; i < sizeof rows / sizeof rows[0]; i++)
        if (rows[i].stage == stage && (rows[i].byte == byte || rows[i].byte == ANY))
            return rows[i].next;
    return FAULTY;
}

/* What an item that is whole must answer; its call is made on the other board. */
static kuthbareen_delivery of_whole(item i)
{
    kuthbareen_answer a;
    if (names_missing(theirs.chip.control.port.pending, i))
        return (kuthbareen_delivery){KUTHBAREEN_MISSING_REGISTER, false, 0, 1, stopped(KUTHBAREEN_MISSING_REGISTER)};
    a = plain(&theirs, i);
    return (kuthbareen_delivery){a.number, true, a.result, 1,
                                 a.number == KUTHBAREEN_DONE ? in_stage(1) : stopped(a.number)};
}

/* What a byte must answer. */
static kuthbareen_delivery of_byte(kuthbareen_reader r, uint8_t byte)
{
    unsigned next = next_stage(r.stage, byte);
    kuthbareen_delivery wanted = {KUTHBAREEN_DONE, false, 0, 1, in_stage(next)};
    if (next == FAULTY) {
        wanted.number = KUTHBAREEN_BAD_SCRIPT;
        wanted.reader = stopped(KUTHBAREEN_BAD_SCRIPT);
    } else if (next == WHOLE && r.stage == 3) {
        return of_whole((item){byte, 0});
    } else if (next == WHOLE) {
        return of_whole((item){r.kind, (uint16_t)(256 * r.upper + byte)});
    } else if (next == 5) {
        wanted.reader.kind = byte;
    } else if (next == 6) {
        wanted.reader.kind = r.kind;
        wanted.reader.upper = byte;
    }
    return wanted;
}

/* Every byte to a reader, each from the state at the start. */
static void every_byte_to(kuthbareen_reader r)
{
    unsigned b;
    for (b = 0; b < 256; b++) {
        uint8_t byte = (uint8_t)b;
        ours.chip = theirs.chip = start.chip;
        reader = r;
        kuthbareen_delivery wanted = of_byte(r, byte);
        answered("a byte", deliver(&byte, 1), wanted);
        expect("its state", (unsigned long)same_state(&ours.chip, &theirs.chip), 1);
    }
    same_boards("every byte", &ours, &theirs);
}

/* Every byte in every stage, with each kind, and in stage 6 with each upper byte. */
static void every_byte(void)
{
    static const uint8_t kinds[] = {1, 2, 5, 6};
    unsigned stage, kind, upper;
    ours = theirs = start;
    for (stage = 0; stage <= 4; stage++)
        every_byte_to(in_stage(stage));
    for (kind = 0; kind < sizeof kinds; kind++) {
        every_byte_to((kuthbareen_reader){5, kinds[kind], 0, 0});
        for (upper = 0; upper < 256; upper++)
            every_byte_to((kuthbareen_reader){6, kinds[kind], (uint8_t)upper, 0});
    }
    guarded();
}

/* On a board that takes every word, with pending clear and set; in a fill; and with a state that is not GOOD. */
static void single_bytes(void)
{
    unsigned pending;
    for (pending = 0; pending < 2; pending++) {
        begin(&start, pending != 0);
        start.chip.control.port.code = 1;
        start.chip.control.port.address = 0x0100;
        every_byte();
        start.chip.control.dma = (kuthbareen_dma){3, 5, 0, 0xAB};
        every_byte();
        start.chip.control.dma.kind = 5;
        every_byte();
    }
}

/* ---- registers that there are not */

/* The flag counts that the state has when the item is whole, whatever it had before. */
static void present_flag(void)
{
    static const uint8_t bytes[] = {1, 0, 3, 1, 0x98, 0x00};
    unsigned was, is;
    for (was = 0; was < 2; was++)
        for (is = 0; is < 2; is++) {
            begin(&ours, was != 0);
            reader = kuthbareen_start_reader();
            kuthbareen_delivery d = deliver(bytes, 5);
            answered("all but a byte", d, (kuthbareen_delivery){0, false, 0, 5, {6, 1, 0x98, 0}});
            reader = d.reader;
            ours.chip.control.port.pending = is != 0;
            theirs = ours;
            if (is)
                expect("a second half", plain(&theirs, (item){1, 0x9800}).number, KUTHBAREEN_DONE);
            answered("its last byte", deliver(bytes + 5, 1),
                     is ? (kuthbareen_delivery){0, true, 0, 1, in_stage(1)}
                        : (kuthbareen_delivery){12, false, 0, 1, stopped(12)});
            same_boards("after it", &ours, &theirs);
        }
}

/* Two control words on a board as it is set: the missing register is told without a call, the other is called. */
static void two_words(const char *what, uint8_t number)
{
    static const uint8_t missing[] = {1, 0, 3, 1, 0x98, 0x00}, other[] = {1, 0, 3, 1, 0x80, 0x00};
    theirs = ours;
    reader = kuthbareen_start_reader();
    answered(what, deliver(missing, 6), (kuthbareen_delivery){12, false, 0, 6, stopped(12)});
    same_boards(what, &ours, &theirs);
    reader = kuthbareen_start_reader();
    answered(what, deliver(other, 6),
             (kuthbareen_delivery){number, true, 0, 6, number == 0 ? in_stage(1) : stopped(number)});
}

/* 12 comes before 1, 2 and 3, as the call would answer them. */
static void before_the_call(void)
{
    begin(&ours, false);
    ours.chip.control.port.code = 64;
    two_words("bad state", KUTHBAREEN_BAD_STATE);
    begin(&ours, false);
    lend(false);
    two_words("no buffers, which a control write does not ask for", KUTHBAREEN_DONE);
    lend(true);
    begin(&ours, false);
    ours.chip.control.dma = (kuthbareen_dma){2, 1, 0, 0};
    two_words("in a transfer", KUTHBAREEN_BUSY);
    ours.chip.control.dma = (kuthbareen_dma){4, 1, 0, 0};
    two_words("in a copy", KUTHBAREEN_BUSY);
}

/* ---- readers as a caller may make them */

#define BIT(n) (1u << (n))

/* The table of stages: a bit for each kind and number that there may be, and whether there may be an upper byte. */
static bool in_a_row(kuthbareen_reader r)
{
    enum { NONE = BIT(0), CONTENT = BIT(1) | BIT(2) | BIT(5) | BIT(6), ANSWERS = BIT(13) - 1 - BIT(9) };
    static const struct {
        unsigned kinds, most_upper, numbers;
    } rows[] = {{NONE, 0, NONE}, {NONE, 0, NONE},    {NONE, 0, NONE},      {NONE, 0, NONE},
                {NONE, 0, NONE}, {CONTENT, 0, NONE}, {CONTENT, 255, NONE}, {NONE, 0, ANSWERS}};
    return r.stage < sizeof rows / sizeof rows[0] && r.kind < 32 && (rows[r.stage].kinds & BIT(r.kind)) != 0 &&
           r.upper <= rows[r.stage].most_upper && r.number < 32 && (rows[r.stage].numbers & BIT(r.number)) != 0;
}

/* A reader in a row: no bytes leave it, and the end notice stops it by its stage. */
static void in_range(kuthbareen_reader r)
{
    reader = r;
    answered("no bytes", deliver(script, 0), (kuthbareen_delivery){r.number, false, 0, 0, r});
    if (r.stage == 7)
        stays(r.number);
    else
        notice(r.stage == 1 ? KUTHBAREEN_DONE : KUTHBAREEN_BAD_SCRIPT);
}

/* One in no row answers 1 and stays, and so does all else. */
static void outside(kuthbareen_reader r)
{
    static const uint8_t bytes[] = {1, 0, 1, 7};
    size_t n;
    reader = r;
    for (n = 0; n <= sizeof bytes; n++)
        answered("outside its ranges", deliver(bytes, n), (kuthbareen_delivery){KUTHBAREEN_BAD_STATE, false, 0, 0, r});
    kuthbareen_end_answer e = kuthbareen_end_notice(r);
    expect("end notice outside", e.number, KUTHBAREEN_BAD_STATE);
    same_reader("it stays", e.reader, r);
}

static bool some_reader(kuthbareen_reader r)
{
    bool known = in_a_row(r);
    if (known)
        in_range(r);
    else
        outside(r);
    same_boards("any reader", &ours, &theirs);
    return known;
}

/* A grid of the four bytes. In a row are stages 0 to 4; stage 5 with four kinds; stage 6 with four kinds and each upper
 * byte; stage 7 with twelve numbers. */
static void grid(void)
{
    static const uint8_t stages[] = {0, 1, 2, 3, 4, 5, 6, 7, 8, 9, 127, 128, 255}, uppers[] = {0, 1, 0x98, 255},
                         kinds[] = {0, 1, 2, 3, 4, 5, 6, 7, 8, 33, 255},
                         numbers[] = {0, 1, 2, 3, 4, 5, 6, 7, 8, 9, 10, 11, 12, 13, 14, 44, 255};
    size_t s, k, u, n;
    unsigned known = 0;
    for (s = 0; s < sizeof stages; s++)
        for (k = 0; k < sizeof kinds; k++)
            for (u = 0; u < sizeof uppers; u++)
                for (n = 0; n < sizeof numbers; n++)
                    known += some_reader((kuthbareen_reader){stages[s], kinds[k], uppers[u], numbers[n]});
    expect("readers in a row", known, 5 + 4 + 4 * 4 + 12);
}

/* Every value of each byte of a reader that is in a row. The sum has, for each of these, how many values of its stage,
 * its kind, its upper byte and its number are in a row too: beside 0 0 0 these are the stages 0 to 4 and 7. */
static void one_byte_changed(void)
{
    static const kuthbareen_reader bases[] = {{0, 0, 0, 0}, {5, 1, 0, 0}, {6, 6, 9, 0}, {7, 0, 0, 4}};
    unsigned b, v, known = 0;
    for (b = 0; b < sizeof bases / sizeof bases[0]; b++)
        for (v = 0; v < 256; v++) {
            kuthbareen_reader stage = bases[b], kind = stage, upper = stage, number = stage;
            stage.stage = kind.kind = upper.upper = number.number = (uint8_t)v;
            known += some_reader(stage) + some_reader(kind) + some_reader(upper) + some_reader(number);
        }
    expect("readers in a row", known, (6 + 1 + 1 + 1) + (2 + 4 + 1 + 1) + (1 + 4 + 256 + 1) + (1 + 1 + 1 + 12));
}

/* On a good board, and in a bad state and without buffers, for which no such call asks. */
static void any_readers(void)
{
    begin(&ours, false);
    theirs = ours;
    grid();
    one_byte_changed();
    ours.chip.control.port.code = theirs.chip.control.port.code = 64;
    lend(false);
    grid();
    lend(true);
    guarded();
}

/* Bytes of half an item, in a bad state and without buffers. */
static void half_an_item(void)
{
    static const uint8_t bytes[] = {1, 0, 3, 2, 0x12};
    static const kuthbareen_reader behind[] = {{0, 0, 0, 0}, {1, 0, 0, 0}, {2, 0, 0, 0},
                                               {4, 0, 0, 0}, {5, 2, 0, 0}, {6, 2, 0x12, 0}};
    size_t n;
    begin(&ours, false);
    ours.chip.control.port.code = 64;
    theirs = ours;
    lend(false);
    for (n = 0; n <= sizeof bytes; n++) {
        reader = kuthbareen_start_reader();
        answered("half an item", deliver(bytes, n), (kuthbareen_delivery){0, false, 0, n, behind[n]});
        same_boards("half an item", &ours, &theirs);
    }
    lend(true);
}

int main(void)
{
    static const uint8_t come_up[] = {0, 1, 2, 3, 4, 5, 7, 11, 12};
    unsigned i;
    fill_cartridge();
    boards();
    at_random();
    for (i = 0; i < sizeof come_up; i++)
        expect("each number comes up", ended[come_up[i]] > 100, 1);
    single_bytes();
    present_flag();
    before_the_call();
    any_readers();
    half_an_item();
    only_read();
    return tested();
}
