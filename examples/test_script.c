/* Tests of scripts. Random items are kept in a list beside the script that is written of them; what must come is told
 * from that list, by plain calls and by counting bytes, and never by reading the script. */
#include "items.h"

enum { ITEMS = 40, SCRIPT_SIZE = KUTHBAREEN_FIRST_ITEM + ITEMS * KUTHBAREEN_MOST_ITEM_SIZE };

_Static_assert(sizeof(kuthbareen_script_answer) == 16, "script answer");
_Static_assert(offsetof(kuthbareen_script_answer, place) == 8, "place");
_Static_assert(sizeof(kuthbareen_item_answer) == 16, "item answer");
_Static_assert(offsetof(kuthbareen_item_answer, result) == 4, "result");
_Static_assert(offsetof(kuthbareen_item_answer, next) == 8, "next");
_Static_assert(sizeof(kuthbareen_item_written) == 16, "item written");
_Static_assert(offsetof(kuthbareen_item_written, next) == 8, "next");

static board ours, theirs, spare;
static item list[ITEMS];
static uint8_t script[SCRIPT_SIZE];

static kuthbareen_item_answer step(board *b, size_t size, size_t at)
{
    return kuthbareen_script_item(&b->chip, b->lent.vram, lengths.vram, cartridge, lengths.cartridge, ram, lengths.ram,
                                  b->lent.pixels, lengths.pixels, script, size, at);
}

/* Writes so many random items, keeps them in the list, and gives the script's size. */
static size_t written(unsigned items)
{
    size_t at = KUTHBAREEN_FIRST_ITEM;
    unsigned i;
    script[0] = KUTHBAREEN_SCRIPT_VERSION;
    for (i = 0; i < items; i++) {
        list[i] = some_item();
        kuthbareen_item_written w = kuthbareen_write_item(script, sizeof script, at, list[i].kind, list[i].content);
        expect("written", w.number, KUTHBAREEN_DONE);
        at += size_of(list[i]);
        expect("byte after it", w.next, at);
    }
    return at;
}

/* The place of the first item that writes a missing register, or how many items there are. It is told by plain calls on
 * a spare board of which only the pending flag is kept, so that no call is busy: a register write to another register
 * clears the code there, and the half of a command moves pending. */
static unsigned first_missing(bool pending, unsigned items)
{
    unsigned place;
    for (place = 0; place < items; place++) {
        kuthbareen_state before = kuthbareen_fresh(false);
        before.control.port.code = 1;
        before.control.port.pending = pending;
        spare.chip = before;
        plain(&spare, list[place]);
        if (list[place].kind == KUTHBAREEN_ITEM_CONTROL_WORD && same_state(&spare.chip, &before))
            return place;
        pending = spare.chip.control.port.pending;
    }
    return items;
}

/* What a well formed script of the list answers when it is judged. */
static void judged(const char *what, bool pending, size_t size, unsigned items)
{
    unsigned place = first_missing(pending, items);
    kuthbareen_script_answer answer = kuthbareen_judge_script(pending, script, size);
    expect(what, answer.number, place < items ? KUTHBAREEN_MISSING_REGISTER : KUTHBAREEN_DONE);
    expect(what, answer.place, place);
}

/* What a script that is refused before its first call answers and leaves. */
static void refused(const char *what, bool pending, size_t size, unsigned number, unsigned place)
{
    kuthbareen_script_answer answer = kuthbareen_judge_script(pending, script, size);
    expect(what, answer.number, number);
    expect(what, answer.place, place);
    begin(&ours, pending);
    begin(&theirs, pending);
    answer = run(&ours, script, size);
    expect(what, answer.number, number);
    expect(what, answer.place, place);
    same_boards(what, &ours, &theirs);
}

/* A script is its plain calls, as a whole and item by item, up to the first that is refused. */
static unsigned as_plain_calls(bool pending, unsigned items)
{
    size_t size = written(items), at = KUTHBAREEN_FIRST_ITEM;
    unsigned place = first_missing(pending, items);
    uint8_t number = KUTHBAREEN_DONE;
    judged("judged", pending, size, items);
    if (place < items) {
        refused("missing register", pending, size, KUTHBAREEN_MISSING_REGISTER, place);
        return KUTHBAREEN_MISSING_REGISTER;
    }
    begin(&ours, pending);
    begin(&theirs, pending);
    for (place = 0; place < items && number == KUTHBAREEN_DONE; place++) {
        kuthbareen_answer a = plain(&theirs, list[place]);
        kuthbareen_item_answer b = step(&ours, size, at);
        number = a.number;
        expect("number of an item", b.number, number);
        expect("result of an item", b.result, a.result);
        at = number == KUTHBAREEN_DONE ? byte_of(list, place + 1) : byte_of(list, place);
        expect("next byte", b.next, at);
    }
    same_boards("item by item", &ours, &theirs);
    begin(&ours, pending);
    kuthbareen_script_answer whole = run(&ours, script, size);
    expect("number of a script", whole.number, number);
    expect("place", whole.place, number == KUTHBAREEN_DONE ? items : place - 1);
    same_boards("as a whole", &ours, &theirs);
    return number;
}

/* Cut at every byte: well formed exactly where an item ends. */
static void cut(unsigned items)
{
    size_t size = written(items), at;
    unsigned place = 0;
    refused("nothing at all", false, 0, KUTHBAREEN_BAD_SCRIPT, 0);
    for (at = KUTHBAREEN_FIRST_ITEM; at <= size; at++) {
        if (at == byte_of(list, place + 1) && place < items)
            place++;
        if (at == byte_of(list, place)) {
            judged("whole items", at % 2, at, place);
            expect("no item at the end", step(&ours, at, at).number, KUTHBAREEN_BAD_SCRIPT);
        } else {
            refused("cut", at % 2, at, KUTHBAREEN_BAD_SCRIPT, place);
        }
    }
}

/* Each byte changed, one bit after the other: a length is never right then, a kind only where it has the same length. */
static void changed(unsigned items)
{
    size_t size = written(items), at;
    unsigned place, bit;
    for (place = 0; place < items; place++)
        for (at = byte_of(list, place); at < byte_of(list, place + 1); at++)
            for (bit = 0; bit < 8; bit++) {
                size_t offset = at - byte_of(list, place);
                item kept = list[place], other = kept;
                script[at] ^= (uint8_t)(1 << bit);
                if (offset == 2)
                    other.kind = script[at];
                if (offset > 2)
                    other.content ^= (uint16_t)(1 << (offset == 3 ? bit + 8 : bit));
                if (offset >= 2 && other.kind >= 1 && other.kind <= KINDS && size_of(other) == size_of(kept)) {
                    list[place] = other;
                    judged("well formed", bit % 2, size, items);
                    list[place] = kept;
                } else {
                    refused("changed", bit % 2, size, KUTHBAREEN_BAD_SCRIPT, place);
                }
                script[at] ^= (uint8_t)(1 << bit);
            }
    script[0] = 2;
    refused("version 2", false, size, KUTHBAREEN_BAD_SCRIPT, 0);
}

/* Items at every byte of a short buffer and behind it, and kinds that there are not. */
static void rooms(void)
{
    enum { ROOM = 9 };
    static const size_t far[] = {SIZE_MAX, SIZE_MAX - 1, SIZE_MAX - 3, SIZE_MAX - 4, SIZE_MAX / 2};
    uint8_t buffer[ROOM], before[ROOM];
    size_t at, size;
    unsigned kind, i;
    for (kind = 0; kind < 256; kind++)
        for (at = 0; at < ROOM + 3 + sizeof far / sizeof far[0]; at++)
            for (size = 0; size <= ROOM; size++) {
                size_t byte = at < ROOM + 3 ? at : far[at - ROOM - 3];
                bool known = kind >= 1 && kind <= KINDS;
                size_t bytes = size_of((item){(uint8_t)kind, 0});
                bool fits = known && byte <= size && bytes <= size - byte;
                memset(buffer, 0xEE, ROOM);
                memcpy(before, buffer, ROOM);
                kuthbareen_item_written w = kuthbareen_write_item(buffer, size, byte, (uint8_t)kind, 0x12AB);
                if (fits) {
                    const uint8_t wanted[5] = {0, (uint8_t)(bytes - 2), (uint8_t)kind, 0x12, 0xAB};
                    for (i = 0; i < bytes; i++)
                        before[byte + i] = wanted[i];
                }
                expect("room", w.number,
                       fits ? KUTHBAREEN_DONE : known ? KUTHBAREEN_BAD_BUFFER : KUTHBAREEN_BAD_SCRIPT);
                expect("byte after it", w.next, fits ? byte + bytes : 0);
                expect("no other byte", (unsigned long)memcmp(buffer, before, ROOM), 0);
            }
}

/* Every control word, with pending clear and set, alone and behind a first half. */
static void words(void)
{
    unsigned word, behind;
    for (word = 0; word < 65536; word++)
        for (behind = 0; behind < 2; behind++) {
            size_t size = KUTHBAREEN_FIRST_ITEM;
            list[0] = (item){KUTHBAREEN_ITEM_CONTROL_WORD, 0x4000};
            list[behind] = (item){KUTHBAREEN_ITEM_CONTROL_WORD, (uint16_t)word};
            if (behind == 1)
                size = kuthbareen_write_item(script, sizeof script, size, list[0].kind, list[0].content).next;
            size = kuthbareen_write_item(script, sizeof script, size, list[behind].kind, list[behind].content).next;
            judged("a word, pending clear", false, size, behind + 1);
            judged("a word, pending set", true, size, behind + 1);
        }
}

/* A state and buffers that are wrong are refused by the calls, and only by those that ask. */
static void bad_boards(void)
{
    size_t size = written(0);
    begin(&ours, false);
    ours.chip.control.port.code = 64;
    expect("no items, bad state", run(&ours, script, size).number, KUTHBAREEN_DONE);
    size = kuthbareen_write_item(script, sizeof script, size, KUTHBAREEN_ITEM_STATUS_READ, 0).next;
    expect("bad state", run(&ours, script, size).number, KUTHBAREEN_BAD_STATE);
    size_t more = kuthbareen_write_item(script, sizeof script, size, KUTHBAREEN_ITEM_CONTROL_WORD, 0x9800).next;
    expect("bad state, missing register", run(&ours, script, more).number, KUTHBAREEN_MISSING_REGISTER);
    begin(&ours, false);
    size = kuthbareen_write_item(script, sizeof script, size, KUTHBAREEN_ITEM_LINE, 0).next;
    lengths.cartridge = lengths.ram = 0;
    lengths.pixels--;
    kuthbareen_script_answer a = run(&ours, script, size);
    expect("bad pixels", a.number, KUTHBAREEN_BAD_BUFFER);
    expect("place of the line", a.place, 1);
}

int main(void)
{
    unsigned i, ended[13] = {0};
    fill_cartridge();
    for (i = 0; i < 3000; i++)
        ended[as_plain_calls(below(2), below(ITEMS + 1))]++;
    expect("scripts that are done come up", ended[KUTHBAREEN_DONE] > 100, 1);
    expect("missing registers do", ended[KUTHBAREEN_MISSING_REGISTER] > 100, 1);
    expect("busy ones do", ended[KUTHBAREEN_BUSY] > 100, 1);
    expect("lines that are not there do", ended[KUTHBAREEN_NO_SUCH_PLACE] > 10, 1);
    for (i = 0; i < 10; i++) {
        cut(1 + below(8));
        changed(1 + below(5));
    }
    script[0] = KUTHBAREEN_SCRIPT_VERSION;
    words();
    rooms();
    bad_boards();
    return tested();
}
