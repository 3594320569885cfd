/* interface: what distantarm.h says, tried through C. Where the registers, notes, descriptors and the low byte stand and each kind of
 * answer; every low byte; the distance at every block under every limit; then all that is refused: buffers that are too short, damaged
 * units, orphans in the VTR, strange notes, cycles out of range, commands that are not there. A refusal must give its number and leave what
 * it says it leaves. Status 0 if all is so, else 1. */
#include <stdio.h>
#include <string.h>

#include "distantarm.h"

enum { UNIT = DISTANTARM_UNIT_BYTES, ANSWER = DISTANTARM_ANSWER_BYTES, PAST = 8, SHOWN = 20 };

static int tried, failed;

/* Failures are all counted, and the first ones shown: a mistake in the distance is met at thousands of blocks. */
static void expect(bool holds, const char *what)
{
    tried++;
    if (holds)
        return;
    failed++;
    if (failed <= SHOWN)
        fprintf(stderr, "interface: %s: not as distantarm.h says\n", what);
}

/* A selected cycle, without its master. */
struct cycle {
    uint8_t status, segment, offset, low, byte;
    bool read, normal, reset;
};

/* a read of the VTR; a cycle out of range */
static const struct cycle plain = {3, 0, 0x02, 0x5A, 0, true, false, false}, outside = {16, 128, 0x12, 0x5A, 0, true, false, false};

static uint8_t call_as(bool dma, uint8_t *unit, size_t unit_length, uint8_t *answer, size_t answer_length, struct cycle c)
{
    return distantarm_cycle(unit, unit_length, answer, answer_length, c.status, c.read, c.normal, dma, true, c.segment, c.offset, c.low,
                            c.byte, c.reset);
}

/* The same of the CPU. */
static uint8_t call(uint8_t *unit, size_t unit_length, uint8_t *answer, size_t answer_length, struct cycle c)
{
    return call_as(false, unit, unit_length, answer, answer_length, c);
}

/* Cycles one after another from power-on: the kind of each, and a byte of the unit after it. Descriptor 7 begins at byte 38. Each cycle has
 * the number of its row, from 0, for its low byte: rows 8, 19 and 26 are first entries in the VTR, and keep it. */
static const struct row {
    struct cycle c;
    int kind, at, value;
} rows[] = {
    {{3, 0, 0x00, 0, 0xC5, false, false, false}, DISTANTARM_COMMAND, DISTANTARM_MR, 0xC5},
    {{3, 0, 0x01, 1, 7, false, false, false}, DISTANTARM_COMMAND, DISTANTARM_SAR, 7},
    {{3, 0, 0x0B, 2, 0x12, false, false, false}, DISTANTARM_COMMAND, DISTANTARM_DSCR, 1},
    {{3, 0, 0x0B, 3, 0x34, false, false, false}, DISTANTARM_COMMAND, DISTANTARM_TABLE + DISTANTARM_DESCRIPTOR_BYTES * 7 + 1, 0x34},
    {{3, 0, 0x0B, 4, 2, false, false, false}, DISTANTARM_COMMAND, DISTANTARM_TABLE + DISTANTARM_DESCRIPTOR_BYTES * 7 + 2, 2},
    {{3, 0, 0x0B, 5, 1, false, false, false}, DISTANTARM_COMMAND, 38, 0x12},
    {{13, 7, 0x01, 6, 0, true, false, false}, DISTANTARM_TRANSLATED, DISTANTARM_ISN, 7},
    {{13, 7, 0x02, 7, 0, true, false, false}, DISTANTARM_TRANSLATED, DISTANTARM_IOFF, 2},
    {{8, 7, 0x93, 8, 0, false, true, false}, DISTANTARM_TRANSLATED, DISTANTARM_VTR, 5},
    {{0, 0, 0, 9, 0, true, false, false}, DISTANTARM_IGNORED, DISTANTARM_VSN, 7},
    {{0, 0, 0, 10, 0, true, false, false}, DISTANTARM_IGNORED, DISTANTARM_VOFF, 0x93},
    {{0, 0, 0, 11, 0, true, false, false}, DISTANTARM_IGNORED, DISTANTARM_BCSR, 0x28},
    {{0, 0, 0, 12, 0, true, false, false}, DISTANTARM_IGNORED, DISTANTARM_NOTES,
     DISTANTARM_REQUEST + DISTANTARM_AWAIT + DISTANTARM_OWN + DISTANTARM_HOLD},
    {{0, 0, 0, 13, 0, true, false, false}, DISTANTARM_IGNORED, DISTANTARM_LOW, 8},
    {{13, 7, 0x02, 14, 0, true, false, false}, DISTANTARM_ABORTED, DISTANTARM_NOTES, DISTANTARM_REQUEST},
    {{8, 7, 0x93, 15, 0, false, true, false}, DISTANTARM_TRANSLATED, DISTANTARM_NOTES, DISTANTARM_REQUEST + DISTANTARM_AWAIT + DISTANTARM_HOLD},
    {{4, 0, 0, 16, 0, true, false, false}, DISTANTARM_ACKNOWLEDGE, DISTANTARM_NOTES, 0},
    {{3, 0, 0x11, 17, 0, false, false, false}, DISTANTARM_COMMAND, DISTANTARM_VTR, 0},
    {{3, 0, 0x0A, 18, 0x20, false, false, false}, DISTANTARM_COMMAND, 41, 0x20},
    {{8, 7, 0x02, 19, 0, false, false, false}, DISTANTARM_TRANSLATED, DISTANTARM_NOTES, DISTANTARM_REQUEST + DISTANTARM_AWAIT + DISTANTARM_OWN},
    {{3, 0, 0x00, 20, 0x80, false, false, false}, DISTANTARM_COMMAND, DISTANTARM_MR, 0x80},
    {{8, 7, 0x02, 21, 0, true, false, false}, DISTANTARM_PASSED, DISTANTARM_VTR, 0x20},
    {{0, 0, 0, 22, 0, true, false, true}, DISTANTARM_RESET, DISTANTARM_VTR, 0},
    {{0, 0, 0, 23, 0, true, false, true}, DISTANTARM_RESET, DISTANTARM_LOW, 19},
    {{3, 0, 0x00, 24, 0xE5, false, false, false}, DISTANTARM_COMMAND, DISTANTARM_MR, 0xE5},
    {{13, 71, 0x03, 25, 0, true, false, false}, DISTANTARM_TRANSLATED, DISTANTARM_ISN, 71},
    {{8, 71, 0x01, 26, 0, false, false, false}, DISTANTARM_TRANSLATED, DISTANTARM_VSN, 71},
};

static void layout(void)
{
    uint8_t unit[UNIT], answer[ANSWER];
    char what[32];
    size_t i;

    expect(distantarm_power_on(unit, UNIT) == 0, "power-on");
    for (i = 0; i < sizeof rows / sizeof rows[0]; i++) {
        snprintf(what, sizeof what, "row %d of the layout", (int)i);
        expect(call(unit, UNIT, answer, ANSWER, rows[i].c) == 0, what);
        expect(answer[DISTANTARM_KIND] == rows[i].kind, what);
        expect(unit[rows[i].at] == rows[i].value, what);
    }
}

/* Bytes of all kinds in the places where a unit takes any byte; the VTR gets %7A, which is no orphan. */
static void fill(uint8_t *bytes, size_t length)
{
    size_t i;

    for (i = 0; i < length; i++)
        bytes[i] = (uint8_t)(i * 37 + 11);
    if (length >= UNIT) {
        bytes[DISTANTARM_SAR] = 63;
        bytes[DISTANTARM_DSCR] = 3;
        bytes[DISTANTARM_VSN] = 127;
        bytes[DISTANTARM_BCSR] = 63;
        bytes[DISTANTARM_ISN] = 127;
        bytes[DISTANTARM_NOTES] = 0;
    }
}

/* The cycle must be refused by the number, with the trap line as said, and leave every byte of the unit and all past the answer. */
static void refuses(uint8_t number, const uint8_t *unit, struct cycle c, const char *what)
{
    const bool request = (unit[DISTANTARM_NOTES] & DISTANTARM_REQUEST) != 0;
    const uint8_t said[ANSWER] = {DISTANTARM_REFUSED, number, 0, 0, request ? DISTANTARM_TRAP : 0, 0, 0};
    uint8_t after[UNIT + PAST], answer[ANSWER + PAST], before[ANSWER + PAST];

    memcpy(after, unit, UNIT + PAST);
    fill(before, sizeof before);
    memcpy(answer, before, sizeof answer);
    expect(call(after, sizeof after, answer, sizeof answer, c) == number, what);
    expect(memcmp(answer, said, ANSWER) == 0, what);
    expect(memcmp(answer + ANSWER, before + ANSWER, PAST) == 0, what);
    expect(memcmp(after, unit, UNIT + PAST) == 0, what);
}

/* Every length that is too short: the number, and all as it was. */
static void short_buffers(void)
{
    uint8_t unit[UNIT], answer[ANSWER], unit_was[UNIT], answer_was[ANSWER];
    size_t length;

    fill(unit_was, UNIT);
    fill(answer_was, ANSWER);
    memcpy(unit, unit_was, UNIT);
    memcpy(answer, answer_was, ANSWER);
    for (length = 0; length < UNIT; length++) {
        expect(distantarm_power_on(unit, length) == DISTANTARM_NO_ROOM, "power-on in a short buffer");
        expect(call(unit, length, answer, ANSWER, plain) == DISTANTARM_NO_ROOM, "a cycle of a short unit");
    }
    for (length = 0; length < ANSWER; length++)
        expect(call(unit, UNIT, answer, length, plain) == DISTANTARM_NO_ROOM, "a cycle with a short answer");
    expect(memcmp(unit, unit_was, UNIT) == 0 && memcmp(answer, answer_was, ANSWER) == 0, "short buffers are left");
}

/* Every low byte over some others, in units that are alike but for it: the violation's own is kept, and nothing else differs. */
static void low_bytes(void)
{
    static const uint8_t older[] = {0, 1, 127, 128, 254, 255};
    struct cycle past = {8, 0, 0x01, 0, 0, false, false, false};
    uint8_t unit[UNIT], answer[ANSWER], bare[UNIT], said[ANSWER];
    size_t i;
    int low;

    for (i = 0; i < sizeof older; i++)
        for (low = 0; low < 256; low++) {
            distantarm_power_on(unit, UNIT);
            unit[DISTANTARM_MR] = 0xC0;
            unit[DISTANTARM_LOW] = older[i];
            past.low = (uint8_t)low;
            expect(call(unit, UNIT, answer, ANSWER, past) == 0, "a violation with a low byte");
            expect(unit[DISTANTARM_VOFF] == 0x01 && unit[DISTANTARM_LOW] == low, "the low byte is kept with VOFF");
            unit[DISTANTARM_LOW] = 0;
            if (i == 0 && low == 0) {
                memcpy(bare, unit, UNIT);
                memcpy(said, answer, ANSWER);
            }
            expect(memcmp(unit, bare, UNIT) == 0 && memcmp(answer, said, ANSWER) == 0, "nothing else reads the low byte");
        }
}

/* Flags of the attributes and of MR. */
enum { RD = 0x01, SYS = 0x02, CPUI = 0x04, EXC = 0x08, DMAI = 0x10, DIRW = 0x20 };
enum { MST = 0x10, URS = 0x20, TRNS = 0x40, MSEN = 0x80, ON = MSEN + TRNS };

/* Where the distance is tried: a segment with a base so high that the sum passes the top. The status of a data cycle and of a fetch. What
 * an answer's bytes are before the call, so that one that is not written shows. */
enum { SEGMENT = 5, BASE = 0xFFA0, DATA = 8, FETCH = 13, BLANK = 0x69 };

/* Cycles in that segment: the kind and the number of the answer, the unit's MR and notes, and the attributes without DIRW. Where the cycle
 * is translated, `sup` is what turns SUP on within the limit. */
static const struct way {
    const char *what;
    int kind;
    uint8_t number, mr, notes, attributes, status;
    bool read, normal, dma, reset;
    enum { NOTHING, HOLD, RIGHTS } sup;
} ways[] = {
    {.what = "a read", .kind = DISTANTARM_TRANSLATED, .mr = ON, .status = DATA, .read = true},
    {.what = "a write", .kind = DISTANTARM_TRANSLATED, .mr = ON, .status = DATA},
    {.what = "a fetch", .kind = DISTANTARM_TRANSLATED, .mr = ON, .notes = DISTANTARM_HOLD, .status = FETCH, .read = true},
    {.what = "a fetch, EXC", .kind = DISTANTARM_TRANSLATED, .mr = ON, .attributes = EXC, .status = FETCH, .read = true},
    {.what = "a write at %D", .kind = DISTANTARM_TRANSLATED, .mr = ON, .notes = DISTANTARM_AWAIT, .status = FETCH},
    {.what = "a read, hold", .kind = DISTANTARM_TRANSLATED, .mr = ON, .notes = DISTANTARM_HOLD, .status = DATA, .read = true, .sup = HOLD},
    {.what = "a write, hold", .kind = DISTANTARM_TRANSLATED, .mr = ON, .notes = DISTANTARM_HOLD, .status = DATA, .sup = HOLD},
    {.what = "a write, RD", .kind = DISTANTARM_TRANSLATED, .mr = ON, .attributes = RD, .status = DATA, .sup = RIGHTS},
    {.what = "a read, SYS", .kind = DISTANTARM_TRANSLATED, .mr = ON, .attributes = SYS, .status = DATA, .read = true, .normal = true,
     .sup = RIGHTS},
    {.what = "a read, EXC", .kind = DISTANTARM_TRANSLATED, .mr = ON, .attributes = EXC, .status = DATA, .read = true, .sup = RIGHTS},
    {.what = "a read, CPUI", .kind = DISTANTARM_TRANSLATED, .mr = ON, .attributes = CPUI, .status = DATA, .read = true, .sup = RIGHTS},
    {.what = "DMA read", .kind = DISTANTARM_TRANSLATED, .mr = ON, .attributes = CPUI, .status = DATA, .read = true, .dma = true},
    {.what = "DMA write, hold", .kind = DISTANTARM_TRANSLATED, .mr = ON, .notes = DISTANTARM_HOLD, .status = DATA, .dma = true},
    {.what = "DMA read at %D", .kind = DISTANTARM_TRANSLATED, .mr = ON, .notes = DISTANTARM_REQUEST + DISTANTARM_AWAIT, .status = FETCH,
     .read = true, .dma = true},
    {.what = "DMA write, RD", .kind = DISTANTARM_TRANSLATED, .mr = ON, .attributes = RD, .status = DATA, .dma = true, .sup = RIGHTS},
    {.what = "DMA read, DMAI", .kind = DISTANTARM_TRANSLATED, .mr = ON, .attributes = DMAI, .status = DATA, .read = true, .dma = true,
     .sup = RIGHTS},
    {.what = "aborted, translated", .kind = DISTANTARM_ABORTED, .mr = ON, .notes = DISTANTARM_AWAIT, .status = FETCH, .read = true},
    {.what = "aborted, passed", .kind = DISTANTARM_ABORTED, .mr = MSEN, .notes = DISTANTARM_AWAIT, .status = FETCH, .read = true},
    {.what = "passed", .kind = DISTANTARM_PASSED, .mr = MSEN, .status = DATA, .read = true},
    {.what = "DMA, passed", .kind = DISTANTARM_PASSED, .mr = MSEN, .status = DATA, .read = true, .dma = true},
    {.what = "MSEN clear", .kind = DISTANTARM_IGNORED, .mr = TRNS, .status = DATA, .read = true},
    {.what = "another half", .kind = DISTANTARM_IGNORED, .mr = ON + URS, .status = DATA, .read = true},
    {.what = "another mode", .kind = DISTANTARM_IGNORED, .mr = ON + MST, .status = DATA, .read = true, .normal = true},
    {.what = "no memory cycle", .kind = DISTANTARM_IGNORED, .mr = ON, .read = true},
    {.what = "acknowledge", .kind = DISTANTARM_ACKNOWLEDGE, .mr = ON, .notes = DISTANTARM_REQUEST, .status = 4, .read = true},
    {.what = "reset", .kind = DISTANTARM_RESET, .mr = ON, .status = DATA, .read = true, .reset = true},
    {.what = "strange notes", .kind = DISTANTARM_REFUSED, .number = DISTANTARM_DAMAGED, .mr = ON, .notes = 16, .status = DATA,
     .read = true},
    {.what = "no such status", .kind = DISTANTARM_REFUSED, .number = DISTANTARM_OUT_OF_RANGE, .mr = ON, .status = DATA + 16, .read = true},
};

/* Whether the answer is as the header says at a block that is `left` blocks before the last permitted one, or past it where that is less
 * than 0. The answer of a translated cycle is held to it in every byte. */
static bool carries(const struct way *w, const uint8_t *answer, int block, int left, bool downwards)
{
    const bool violates = left < 0 || w->sup == RIGHTS;
    const bool warns = !violates && downwards && left == 0 && !w->read;
    const bool sup = violates || w->sup == HOLD;
    const bool trap = (w->notes & DISTANTARM_REQUEST) != 0 || (!w->dma && (violates || warns));
    const uint16_t lines = (uint16_t)(BASE + block);
    const uint8_t said[ANSWER] = {
        [DISTANTARM_KIND] = DISTANTARM_TRANSLATED,
        [DISTANTARM_NUMBER] = 0,
        [DISTANTARM_LINES_HIGH] = (uint8_t)(lines / 256),
        [DISTANTARM_LINES_LOW] = (uint8_t)(lines % 256),
        [DISTANTARM_FLAGS] = (uint8_t)(DISTANTARM_ADDRESS + (sup ? DISTANTARM_SUP : 0) + (trap ? DISTANTARM_TRAP : 0)),
        [DISTANTARM_BYTE] = 0,
        [DISTANTARM_DISTANCE] = (uint8_t)(left < 0 ? 0 : left),
    };

    if (w->kind == DISTANTARM_TRANSLATED)
        return memcmp(answer, said, ANSWER) == 0;
    return answer[DISTANTARM_KIND] == w->kind && answer[DISTANTARM_DISTANCE] == 0;
}

/* Every block under one limit, in one direction. */
static void try_blocks(const struct way *w, int limit, bool downwards)
{
    const uint8_t descriptor[] = {BASE / 256, BASE % 256, (uint8_t)limit, (uint8_t)(w->attributes + (downwards ? DIRW : 0))};
    struct cycle c = {w->status, SEGMENT, 0, 0x5A, 0, w->read, w->normal, w->reset};
    uint8_t unit[UNIT], answer[ANSWER + PAST], blank[PAST];
    char what[64];
    int block;

    snprintf(what, sizeof what, "%s, limit %02X, DIRW %d", w->what, (unsigned)limit, downwards);
    memset(blank, BLANK, sizeof blank);
    for (block = 0; block < 256; block++) {
        distantarm_power_on(unit, UNIT);
        unit[DISTANTARM_MR] = w->mr;
        unit[DISTANTARM_NOTES] = w->notes;
        memcpy(unit + DISTANTARM_TABLE + DISTANTARM_DESCRIPTOR_BYTES * SEGMENT, descriptor, sizeof descriptor);
        memset(answer, BLANK, sizeof answer);
        c.offset = (uint8_t)block;
        expect(call_as(w->dma, unit, UNIT, answer, sizeof answer, c) == w->number, what);
        expect(carries(w, answer, block, downwards ? block - limit : limit - block, downwards), what);
        expect(memcmp(answer + ANSWER, blank, PAST) == 0, what);
    }
}

/* The distance: every way at every block under every limit in both directions. */
static void distances(void)
{
    size_t i;
    int limit;

    for (i = 0; i < sizeof ways / sizeof ways[0]; i++)
        for (limit = 0; limit < 256; limit++) {
            try_blocks(&ways[i], limit, false);
            try_blocks(&ways[i], limit, true);
        }
}

/* Every command code, listed or not, read and written, in a segment with blocks to spare: no answer has a distance. */
static void commands(void)
{
    struct cycle c = {3, 0, 0, 0x5A, 0, true, false, false};
    uint8_t unit[UNIT], answer[ANSWER], number;
    int code, read;

    for (code = 0; code < 256; code++)
        for (read = 0; read < 2; read++) {
            distantarm_power_on(unit, UNIT);
            unit[DISTANTARM_MR] = ON;
            memset(unit + DISTANTARM_TABLE, 0xFF, 3); /* base and limit */
            memset(answer, BLANK, ANSWER);
            c.offset = (uint8_t)code;
            c.read = read != 0;
            number = call(unit, UNIT, answer, ANSWER, c);
            expect(answer[DISTANTARM_KIND] == (number == 0 ? DISTANTARM_COMMAND : DISTANTARM_REFUSED), "a command, or none");
            expect(answer[DISTANTARM_NUMBER] == number && answer[DISTANTARM_DISTANCE] == 0, "a command's number, and no distance");
        }
}

static void power_on(void)
{
    static const uint8_t zeros[UNIT];
    uint8_t unit[UNIT + PAST], was[UNIT + PAST];

    fill(was, sizeof was);
    memcpy(unit, was, sizeof unit);
    expect(distantarm_power_on(unit, sizeof unit) == 0, "power-on");
    expect(memcmp(unit, zeros, UNIT) == 0, "all zero at power-on");
    expect(memcmp(unit + UNIT, was + UNIT, PAST) == 0, "power-on leaves what is past the unit");
}

/* Refusal 2, before 1, for exactly the values past a register's bound, and for notes above 15. */
static void damaged_units(void)
{
    static const struct { int at, least; } bounds[] = {
        {DISTANTARM_SAR, 64}, {DISTANTARM_VSN, 128}, {DISTANTARM_ISN, 128}, {DISTANTARM_BCSR, 64}, {DISTANTARM_DSCR, 4}, {DISTANTARM_NOTES, 16},
    };
    uint8_t unit[UNIT + PAST];
    size_t i;
    int value, request;

    for (i = 0; i < sizeof bounds / sizeof bounds[0]; i++)
        for (request = 0; request < 2; request++)
            for (value = 0; value < 256; value++) {
                fill(unit, sizeof unit);
                unit[DISTANTARM_NOTES] = (uint8_t)request;
                unit[bounds[i].at] = (uint8_t)value;
                if (value < bounds[i].least) {
                    refuses(DISTANTARM_OUT_OF_RANGE, unit, outside, "a unit within its bounds, and a cycle out of range");
                    continue;
                }
                refuses(DISTANTARM_DAMAGED, unit, plain, "a damaged unit");
                refuses(DISTANTARM_DAMAGED, unit, outside, "a damaged unit, and a cycle out of range");
            }
}

/* Refusal 2 for the VTR: for exactly those values that have SWW or FATL and no primary flag, %40, %80 and %C0, in a reset too. */
static void orphans(void)
{
    const struct cycle reset = {0, 0, 0, 0x5A, 0, true, false, true};
    uint8_t unit[UNIT + PAST];
    int vtr, notes;

    for (vtr = 0; vtr < 256; vtr++)
        for (notes = 0; notes < 16; notes++) {
            fill(unit, sizeof unit);
            unit[DISTANTARM_NOTES] = (uint8_t)notes;
            unit[DISTANTARM_VTR] = (uint8_t)vtr;
            if (vtr != 0x40 && vtr != 0x80 && vtr != 0xC0) {
                refuses(DISTANTARM_OUT_OF_RANGE, unit, outside, "no orphan, and a cycle out of range");
                continue;
            }
            refuses(DISTANTARM_DAMAGED, unit, plain, "an orphan");
            refuses(DISTANTARM_DAMAGED, unit, outside, "an orphan, and a cycle out of range");
            refuses(DISTANTARM_DAMAGED, unit, reset, "an orphan, and a reset");
        }
}

/* Refusals 1, 3 and 4 of an undamaged unit, for each of the sixteen notes bytes. */
static void refused_cycles(void)
{
    static const struct cycle status = {16, 0, 0x02, 0x5A, 0, true, false, false}, segment = {3, 128, 0x02, 0x5A, 0, true, false, false};
    static const struct cycle unlisted = {3, 0, 0x12, 0x5A, 0, true, false, false}, read = {3, 0, 0x10, 0x5A, 0, true, false, false};
    static const struct cycle written = {3, 0, 0x02, 0x5A, 0, false, false, false};
    uint8_t unit[UNIT + PAST];
    int notes;

    for (notes = 0; notes < 16; notes++) {
        fill(unit, sizeof unit);
        unit[DISTANTARM_NOTES] = (uint8_t)notes;
        refuses(DISTANTARM_OUT_OF_RANGE, unit, status, "status 16");
        refuses(DISTANTARM_OUT_OF_RANGE, unit, segment, "segment 128");
        refuses(DISTANTARM_UNLISTED, unit, unlisted, "command %12");
        refuses(DISTANTARM_WRONG_WAY, unit, written, "a write to the VTR");
        refuses(DISTANTARM_WRONG_WAY, unit, read, "a read of software reset");
    }
}

/* A text buffer one byte too short, or with the room of interface 2, and a trace of no bytes. */
static void listing(void)
{
    static uint8_t text[DISTANTARM_TEXT_BYTES], was[DISTANTARM_TEXT_BYTES];

    fill(was, sizeof was);
    memcpy(text, was, sizeof text);
    expect(distantarm_list(was, 0, text, sizeof text - 1) == 0, "a listing in a short buffer");
    expect(distantarm_list(was, 0, text, 400012) == 0, "a listing in the room of interface 2");
    expect(memcmp(text, was, sizeof text) == 0, "a short text buffer is left");
    expect(distantarm_list(was, 0, text, sizeof text) == 3, "the listing of no trace");
    expect(memcmp(text, "X5\n", 3) == 0 && memcmp(text + 3, was + 3, sizeof text - 3) == 0, "the text of no trace, and the rest");
}

int main(void)
{
    layout();
    low_bytes();
    distances();
    commands();
    power_on();
    short_buffers();
    damaged_units();
    orphans();
    refused_cycles();
    listing();
    printf("interface: %d of %d tries as distantarm.h says\n", tried - failed, tried);
    return failed != 0;
}
