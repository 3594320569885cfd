/* board_interface: what distantarm.h says of distantarm_board_cycle, tried through C. The order in which it says no: a short answer, a wrong
 * count, short units, a unit's own refusal, two that drive, a read of several; what each leaves. Then what a cycle that is not refused joins:
 * every count of units, every unit as the one that drives, every set of select bits, every pair that collides, every set of requests in an
 * acknowledge. Each unit must be left as distantarm_cycle leaves it with its own select. Status 0 if all is so, else 1. */
#include <stdio.h>
#include <string.h>

#include "distantarm.h"

enum { UNIT = DISTANTARM_UNIT_BYTES, ANSWER = DISTANTARM_BOARD_ANSWER_BYTES, MOST = DISTANTARM_BOARD_UNITS, ALL = UNIT * MOST, PAST = 8 };
enum { SHOWN = 20, BLANK = 0x69 };

/* Bits of MR: without TRNS a unit drives every memory cycle. */
enum { URS = 0x20, TRNS = 0x40, MSEN = 0x80 };

static int tried, failed;

static void expect(bool holds, const char *what)
{
    tried++;
    if (holds)
        return;
    failed++;
    if (failed <= SHOWN)
        fprintf(stderr, "board_interface: %s: not as distantarm.h says\n", what);
}

/* A cycle of the CPU in system mode. */
struct cycle {
    uint8_t status, segment, offset, byte;
    bool read, reset;
};

static const struct cycle data_read = {8, 5, 0x15, 0, true, false}, fetch = {13, 5, 0x15, 0, true, false};
static const struct cycle past_limit = {8, 5, 0x21, 0x77, false, false};
static const struct cycle acknowledge = {4, 0, 0, 0, true, false}, reset = {8, 5, 0x15, 0, true, true}, nothing = {0, 0, 0, 0, true, false};
static const struct cycle write_mode = {3, 0, 0x00, 0x47, false, false}, read_mode = {3, 0, 0x00, 0, true, false};
static const struct cycle unlisted = {3, 0, 0x12, 0, true, false}, wrong_way = {3, 0, 0x11, 0, true, false};
static const struct cycle outside = {16, 128, 0x12, 0, true, false};

enum { LOW_BYTE = 0x5A };

static uint8_t call(uint8_t *units, size_t units_length, uint8_t *answer, size_t answer_length, size_t count, struct cycle c, uint16_t selects)
{
    return distantarm_board_cycle(units, units_length, answer, answer_length, count, c.status, c.read, false, false, c.segment, c.offset,
                                  LOW_BYTE, c.byte, c.reset, selects);
}

/* All sixteen units at power-on, and bytes behind them that nothing may touch. */
static void power_on(uint8_t *units)
{
    size_t i;

    for (i = 0; i < MOST; i++)
        expect(distantarm_power_on(units + UNIT * i, UNIT) == 0, "power-on of a unit of a board");
    memset(units + ALL, BLANK, PAST);
}

static uint8_t *unit(uint8_t *units, size_t n)
{
    return units + UNIT * n;
}

/* The call must give the number and just this answer, and leave every byte of the units. */
static void refuses(uint8_t number, uint8_t named, bool trap, const uint8_t *units, size_t units_length, size_t count, struct cycle c,
                    uint16_t selects, const char *what)
{
    const uint8_t said[ANSWER] = {DISTANTARM_REFUSED, number, 0, 0, trap ? DISTANTARM_TRAP : 0, 0, 0, named};
    uint8_t after[ALL + PAST], answer[ANSWER + PAST], blank[PAST];

    memcpy(after, units, sizeof after);
    memset(answer, BLANK, sizeof answer);
    memset(blank, BLANK, sizeof blank);
    expect(call(after, units_length, answer, sizeof answer, count, c, selects) == number, what);
    expect(memcmp(answer, said, ANSWER) == 0, what);
    expect(memcmp(answer + ANSWER, blank, PAST) == 0, what);
    expect(memcmp(after, units, sizeof after) == 0, what);
}

/* The call must not be refused: it gives 0 and this answer, and each unit of the count is as its own cycle leaves it; all else stays. */
static void answers(const uint8_t *said, uint8_t *units, size_t count, struct cycle c, uint16_t selects, const char *what)
{
    uint8_t own[ALL + PAST], own_answer[DISTANTARM_ANSWER_BYTES], answer[ANSWER + PAST], blank[PAST];
    size_t i;

    memcpy(own, units, sizeof own);
    for (i = 0; i < count; i++)
        distantarm_cycle(unit(own, i), UNIT, own_answer, sizeof own_answer, c.status, c.read, false, false, selects >> i & 1, c.segment,
                         c.offset, LOW_BYTE, c.byte, c.reset);
    memset(answer, BLANK, sizeof answer);
    memset(blank, BLANK, sizeof blank);
    expect(call(units, ALL + PAST, answer, sizeof answer, count, c, selects) == 0, what);
    expect(memcmp(answer, said, ANSWER) == 0, what);
    expect(memcmp(answer + ANSWER, blank, PAST) == 0, what);
    expect(memcmp(units, own, sizeof own) == 0, what);
}

/* Counts that no board has: about each edge, and such as a product or a cut to fewer bits would take for a good one. */
static const size_t wrong_counts[] = {
    0, 17, 18, 31, 32, 127, 128, 255, 256, 257, 272, 65535, 65536, 65537, 65540, (size_t)1 << 31, ((size_t)1 << 31) + 1,
    ((size_t)1 << 31) * 2 + 1, ((size_t)1 << 31) * 2 + 4, SIZE_MAX / UNIT, SIZE_MAX / UNIT + 1, SIZE_MAX / UNIT + 2, SIZE_MAX / 2,
    SIZE_MAX / 2 + 1, SIZE_MAX - 1, SIZE_MAX,
};
enum { WRONG_COUNTS = sizeof wrong_counts / sizeof wrong_counts[0] };

/* A short answer comes first, whatever the count and the units' length are; then the count; then the units' length. */
static void order(void)
{
    static const size_t lengths[] = {0, 1, UNIT - 1, UNIT, ALL - 1, ALL, ALL + PAST};
    uint8_t units[ALL + PAST], was[ALL + PAST], answer[ANSWER], answer_was[ANSWER];
    size_t i, j, count, length;

    power_on(was);
    was[DISTANTARM_MR] = MSEN;
    was[DISTANTARM_NOTES] = DISTANTARM_REQUEST; /* that 11 does not show */
    memcpy(units, was, sizeof units);
    memset(answer_was, BLANK, sizeof answer_was);
    memcpy(answer, answer_was, sizeof answer);
    for (i = 0; i < sizeof lengths / sizeof lengths[0]; i++)
        for (length = 0; length < ANSWER; length++) {
            for (j = 0; j < WRONG_COUNTS; j++)
                expect(call(units, lengths[i], answer, length, wrong_counts[j], data_read, 0) == DISTANTARM_NO_ROOM,
                       "a short answer, and a wrong count");
            for (count = 1; count <= MOST; count++)
                expect(call(units, lengths[i], answer, length, count, data_read, 0) == DISTANTARM_NO_ROOM, "a short answer");
        }
    for (count = 1; count <= MOST; count++)
        for (length = 0; length < UNIT * count; length++)
            expect(call(units, length, answer, ANSWER, count, length % 2 ? data_read : outside, 0) == DISTANTARM_NO_ROOM, "short units");
    expect(memcmp(units, was, sizeof units) == 0 && memcmp(answer, answer_was, sizeof answer) == 0, "short buffers are left");

    for (j = 0; j < WRONG_COUNTS; j++)
        for (i = 0; i < sizeof lengths / sizeof lengths[0]; i++) {
            refuses(DISTANTARM_WRONG_COUNT, DISTANTARM_NOBODY, false, was, lengths[i], wrong_counts[j], data_read, 0, "a wrong count");
            refuses(DISTANTARM_WRONG_COUNT, DISTANTARM_NOBODY, false, was, lengths[i], wrong_counts[j], unlisted, 0xFFFF,
                    "a wrong count, and other refusals");
        }
    was[DISTANTARM_SAR] = 64;
    refuses(DISTANTARM_WRONG_COUNT, DISTANTARM_NOBODY, false, was, sizeof was, 0, outside, 0, "a wrong count, and a damaged unit");
    refuses(DISTANTARM_DAMAGED, 0, true, was, UNIT, 1, outside, 0, "units of just the length");
}

/* Each unit damaged in turn, in every way that the header names: it is named, and nothing moves, in a reset neither. One past the count is
 * looked at by nothing. */
static void damaged_units(void)
{
    static const struct { int at, value; } damages[] = {
        {DISTANTARM_SAR, 64}, {DISTANTARM_SAR, 255}, {DISTANTARM_BCSR, 64}, {DISTANTARM_VSN, 128}, {DISTANTARM_ISN, 128}, {DISTANTARM_DSCR, 4},
        {DISTANTARM_VTR, 0x40}, {DISTANTARM_VTR, 0x80}, {DISTANTARM_VTR, 0xC0}, {DISTANTARM_NOTES, 16}, {DISTANTARM_NOTES, 0xF0},
        {DISTANTARM_NOTES, 17}, {DISTANTARM_NOTES, 255},
    };
    static const uint8_t ignored[ANSWER] = {DISTANTARM_IGNORED, 0, 0, 0, 0, 0, 0, DISTANTARM_NOBODY};
    uint8_t units[ALL + PAST];
    size_t i, n, count, requesting;

    for (count = 1; count <= MOST; count++)
        for (n = 0; n < MOST; n++)
            for (i = 0; i < sizeof damages / sizeof damages[0]; i++) {
                const bool strange_request = damages[i].at == DISTANTARM_NOTES && damages[i].value % 2;

                power_on(units);
                unit(units, n)[damages[i].at] = (uint8_t)damages[i].value;
                if (n >= count) {
                    answers(ignored, units, count, nothing, 0xFFFF, "a damaged unit past the count");
                    continue;
                }
                refuses(DISTANTARM_DAMAGED, (uint8_t)n, strange_request, units, sizeof units, count, nothing, 0, "a damaged unit");
                refuses(DISTANTARM_DAMAGED, (uint8_t)n, strange_request, units, sizeof units, count, reset, 0xFFFF, "a damaged unit, reset");
                for (requesting = 0; requesting < count; requesting++) {
                    if (requesting == n)
                        continue;
                    unit(units, requesting)[DISTANTARM_NOTES] = DISTANTARM_REQUEST;
                    refuses(DISTANTARM_DAMAGED, (uint8_t)n, true, units, sizeof units, count, acknowledge, 0, "another unit's request");
                    unit(units, requesting)[DISTANTARM_NOTES] = 0;
                }
            }
}

/* "the lowest unit that has one": two units of sixteen, one damaged and one with 3 or 4; two damaged; 1, which all have, is unit 0's. */
static void lowest_first(void)
{
    uint8_t units[ALL + PAST];
    size_t a, b;

    for (a = 0; a < MOST; a++)
        for (b = 0; b < MOST; b++) {
            const uint8_t lower = (uint8_t)(a < b ? a : b);
            const uint16_t select = (uint16_t)(1u << b);

            power_on(units);
            unit(units, a)[DISTANTARM_DSCR] = 4;
            refuses(a <= b ? DISTANTARM_DAMAGED : DISTANTARM_UNLISTED, lower, false, units, sizeof units, MOST, unlisted, select, "2 and 3");
            refuses(a <= b ? DISTANTARM_DAMAGED : DISTANTARM_WRONG_WAY, lower, false, units, sizeof units, MOST, wrong_way, select, "2 and 4");
            refuses(a == 0 ? DISTANTARM_DAMAGED : DISTANTARM_OUT_OF_RANGE, 0, false, units, sizeof units, MOST, outside, select, "2 and 1");
            unit(units, b)[DISTANTARM_NOTES] = 16;
            refuses(DISTANTARM_DAMAGED, lower, false, units, sizeof units, MOST, nothing, 0xFFFF, "two damaged units");
        }
}

/* The answer of a board whose unit n alone drives: it is named, if it is within the count. */
static void drives(const uint8_t *within, uint8_t *units, size_t n, size_t count, struct cycle c, uint16_t selects, const char *what)
{
    uint8_t said[ANSWER] = {DISTANTARM_IGNORED, 0, 0, 0, 0, 0, 0, DISTANTARM_NOBODY};

    if (n < count) {
        memcpy(said, within, DISTANTARM_ANSWER_BYTES);
        said[DISTANTARM_NAMED] = (uint8_t)n;
    }
    answers(said, units, count, c, selects, what);
}

/* Every unit as the one that drives, in a board of every count: its own lines, distance and kind. Its violation is its own, and keeps the low
 * byte. */
static void drivers(void)
{
    static const uint8_t descriptor[] = {0x23, 0x11, 0x20, 0};
    static const uint8_t translated[DISTANTARM_ANSWER_BYTES] = {DISTANTARM_TRANSLATED, 0, 0x23, 0x26, DISTANTARM_ADDRESS, 0, 11};
    static const uint8_t passed[DISTANTARM_ANSWER_BYTES] = {DISTANTARM_PASSED, 0, 0x05, 0x15, DISTANTARM_ADDRESS, 0, 0};
    static const uint8_t violates[DISTANTARM_ANSWER_BYTES] = {
        DISTANTARM_TRANSLATED, 0, 0x23, 0x32, DISTANTARM_ADDRESS + DISTANTARM_SUP + DISTANTARM_TRAP, 0, 0,
    };
    uint8_t units[ALL + PAST];
    size_t n, count;

    for (count = 1; count <= MOST; count++)
        for (n = 0; n < MOST; n++) {
            power_on(units);
            memcpy(unit(units, n) + DISTANTARM_TABLE + DISTANTARM_DESCRIPTOR_BYTES * 5, descriptor, sizeof descriptor);
            unit(units, n)[DISTANTARM_MR] = MSEN;
            drives(passed, units, n, count, data_read, 0, "a unit passes");
            unit(units, n)[DISTANTARM_MR] = MSEN + TRNS;
            drives(translated, units, n, count, data_read, 0xFFFF, "a unit translates");
            drives(translated, units, n, count, fetch, 0, "a unit translates a fetch");
            drives(violates, units, n, count, past_limit, 0, "a unit's violation");
            expect(unit(units, n)[DISTANTARM_LOW] == (n < count ? LOW_BYTE : 0), "the low byte is kept where the violation is");
        }
}

/* Every pair of units of sixteen: 12 where both drive; else one's hold turns SUP on in the other's cycle, its request the trap line, and a
 * fetch is the aborted one in it and an ordinary one in the other. With nobody who drives, that fetch has kind F. */
static void pairs(void)
{
    uint8_t units[ALL + PAST];
    size_t a, b;

    for (a = 0; a < MOST; a++)
        for (b = 0; b < MOST; b++) {
            const uint8_t on = DISTANTARM_ADDRESS + DISTANTARM_TRAP;
            const uint8_t held[ANSWER] = {DISTANTARM_PASSED, 0, 0x05, 0x15, on + DISTANTARM_SUP, 0, 0, (uint8_t)a};
            const uint8_t driven[ANSWER] = {DISTANTARM_PASSED, 0, 0x05, 0x15, on, 0, 0, (uint8_t)a};
            const uint8_t aborted[ANSWER] = {DISTANTARM_ABORTED, 0, 0, 0, DISTANTARM_TRAP, 0, 0, DISTANTARM_NOBODY};

            if (a == b)
                continue;
            power_on(units);
            unit(units, a)[DISTANTARM_MR] = MSEN;
            unit(units, b)[DISTANTARM_MR] = MSEN;
            refuses(DISTANTARM_TWO_DRIVE, DISTANTARM_NOBODY, false, units, sizeof units, MOST, data_read, 0, "two drive");
            unit(units, b)[DISTANTARM_NOTES] = DISTANTARM_REQUEST + DISTANTARM_AWAIT + DISTANTARM_HOLD;
            refuses(DISTANTARM_TWO_DRIVE, DISTANTARM_NOBODY, true, units, sizeof units, MOST, fetch, 0, "two drive a fetch");
            unit(units, b)[DISTANTARM_MR] = MSEN + TRNS + URS;
            answers(held, units, MOST, data_read, 0, "another unit's hold");
            answers(driven, units, MOST, fetch, 0, "another unit's aborted fetch");
            unit(units, a)[DISTANTARM_MR] = 0;
            unit(units, b)[DISTANTARM_NOTES] = DISTANTARM_REQUEST + DISTANTARM_AWAIT;
            answers(aborted, units, MOST, fetch, 0, "an aborted fetch that nobody drives");
        }
}

/* Every set of select bits: a write reaches the units that are selected, a read is of one or is refused by 13, a reset selects any. Bits past
 * the count are looked at by nothing. */
static void selections(void)
{
    static const size_t counts[] = {1, 4, 15, 16};
    static const uint8_t resets[ANSWER] = {DISTANTARM_RESET, 0, 0, 0, 0, 0, 0, DISTANTARM_NOBODY};
    uint8_t units[ALL + PAST], said[ANSWER];
    size_t i, n, count;
    unsigned selects, step;

    for (i = 0; i < sizeof counts / sizeof counts[0]; i++) {
        count = counts[i];
        step = count == 4 ? 1 : 37;
        for (selects = 0; selects < 65536; selects += step) {
            int selected = 0, last = 0;

            power_on(units);
            for (n = 0; n < MOST; n++)
                unit(units, n)[DISTANTARM_MR] = (uint8_t)n;
            for (n = 0; n < count; n++)
                if (selects >> n & 1) {
                    selected++;
                    last = (int)n;
                }
            memcpy(said, resets, ANSWER);
            said[DISTANTARM_KIND] = selected ? DISTANTARM_COMMAND : DISTANTARM_IGNORED;
            if (selected == 1) {
                said[DISTANTARM_FLAGS] = DISTANTARM_DRIVES;
                said[DISTANTARM_BYTE] = (uint8_t)last;
            }
            if (selected > 1)
                refuses(DISTANTARM_SEVERAL_READ, DISTANTARM_NOBODY, false, units, sizeof units, count, read_mode, (uint16_t)selects,
                        "a read of several");
            else
                answers(said, units, count, read_mode, (uint16_t)selects, "a read of one unit or none");
            said[DISTANTARM_FLAGS] = said[DISTANTARM_BYTE] = 0;
            answers(said, units, count, write_mode, (uint16_t)selects, "a write");
            for (n = 0; n < MOST; n++)
                expect(unit(units, n)[DISTANTARM_MR] == (n < count && (selects >> n & 1) ? 0x47 : n), "a write reaches those selected");
            answers(resets, units, count, reset, (uint16_t)selects, "a reset");
            for (n = 0; n < count; n++)
                expect(unit(units, n)[DISTANTARM_MR] == (selects >> n & 1 ? MSEN : 0), "MR after a reset");
        }
    }
}

/* Eight units with one ID each, and every set of them that requests; then two for each line. */
static void acknowledges(void)
{
    uint8_t units[ALL + PAST];
    size_t n, count;
    int requests;

    for (count = 8; count <= MOST; count += 8)
        for (requests = 0; requests < 256; requests++) {
            const uint8_t said[ANSWER] = {DISTANTARM_ACKNOWLEDGE, 0, 0, 0, DISTANTARM_DRIVES, (uint8_t)requests, 0, DISTANTARM_NOBODY};

            power_on(units);
            for (n = 0; n < MOST; n++) {
                unit(units, n)[DISTANTARM_MR] = (uint8_t)(MSEN + n % 8);
                if (requests >> n % 8 & 1)
                    unit(units, n)[DISTANTARM_NOTES] = (uint8_t)(n < 8 || requests % 2 ? DISTANTARM_REQUEST : 0);
            }
            answers(said, units, count, acknowledge, 0, "an acknowledge");
        }
}

int main(void)
{
    order();
    damaged_units();
    lowest_first();
    drivers();
    pairs();
    selections();
    acknowledges();
    printf("board_interface: %d of %d tries as distantarm.h says\n", tried - failed, tried);
    return failed != 0;
}
