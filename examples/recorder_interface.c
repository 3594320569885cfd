/* recorder_interface: what distantarm.h says of distantarm_record_start and distantarm_record, tried through C. The start in buffers of
 * every short length; the order in which a cycle is refused, at counts of all sizes; every length about the edge; every status with every
 * segment and every value of every other field; buffers and counts of any content; a whole trace of 16,000 records, looked at after every
 * call, and the cycle after it; what distantarm_list reads of it; the table that docs/INTERFACE.md works through. The bytes before the
 * buffer, behind it and between the header and the record must stay. Status 0 if all is so, else 1. */
#include <stdio.h>
#include <string.h>

#include "distantarm.h"

enum { HEAD = DISTANTARM_HEAD_BYTES, RECORD = DISTANTARM_RECORD_BYTES, MOST = DISTANTARM_RECORDS, LONGEST = DISTANTARM_TRACE_BYTES };
enum { AROUND = 16, SHOWN = 20, SHORT = 20, WORKED = 15, READ = 1, NORMAL = 2, DMA = 4, SELECT = 8, RESET = 16 };

static int tried, failed;

static void expect(bool holds, const char *what)
{
    tried++;
    if (holds)
        return;
    failed++;
    if (failed <= SHOWN)
        fprintf(stderr, "recorder_interface: %s: not as distantarm.h says\n", what);
}

struct cycle {
    uint8_t status, segment, offset, low, byte;
    bool read, normal, dma, select, reset;
};

static const struct cycle fetch = {13, 5, 0x15, 0x99, 0x00, true, true, false, false, false};
static const struct cycle reset = {3, 127, 0xC3, 0x5A, 0x81, false, true, true, true, true};
static const struct cycle strange[] = {
    {16, 5, 0x15, 0x99, 0, true, true, false, false, false},
    {13, 128, 0x15, 0x99, 0, true, true, false, false, false},
    {255, 255, 0x15, 0x99, 0, true, true, true, true, false},
    {16, 0, 0, 0, 0, false, false, false, false, true},
    {0, 128, 0, 0, 0, false, false, false, false, true},
};

/* A lent buffer with bytes around it, and what all of them should be. The length may be less than the longest trace's. */
static uint8_t room[AROUND + LONGEST + AROUND], wanted[AROUND + LONGEST + AROUND];

static uint8_t *const trace = room + AROUND, *const should = wanted + AROUND;

/* Bytes of all kinds, other ones for another seed. */
static void fill(unsigned seed)
{
    size_t i;

    for (i = 0; i < sizeof room; i++)
        room[i] = wanted[i] = (uint8_t)(i * 37 + i / 256 * 11 + seed);
}

static bool as_wanted(void)
{
    return memcmp(room, wanted, sizeof room) == 0;
}

static void want_header(size_t count)
{
    const uint8_t header[HEAD] = {'M', 'B', 'T', 0, 1, (uint8_t)(count / 256), (uint8_t)(count % 256)};

    memcpy(should, header, HEAD);
}

/* The number that the header says for a cycle, from the sentences alone: no sum is formed that a size_t might not hold. */
static uint8_t refusal(size_t length, size_t count, const struct cycle *c)
{
    if (c->status > 15 || c->segment > 127)
        return DISTANTARM_OUT_OF_RANGE;
    if (count >= MOST)
        return DISTANTARM_TOO_MANY;
    return length < HEAD + RECORD * (count + 1) ? DISTANTARM_SHORT : 0;
}

/* One call at a count, on what the buffer holds: the number, the count after it, and what should stand in the buffer is brought up to date.
 * Whether the buffer is so is for the caller to see. */
static uint8_t record(size_t length, size_t *count, const struct cycle *c, const char *what)
{
    const size_t before = *count;
    const uint8_t said = refusal(length, before, c), number =
        distantarm_record(trace, length, count, c->status, c->read, c->normal, c->dma, c->select, c->segment, c->offset, c->low, c->byte,
                          c->reset);

    expect(number == said, what);
    expect(*count == (said == 0 ? before + 1 : before), what);
    if (said == 0) {
        uint8_t *at = should + HEAD + RECORD * before;

        want_header(before + 1);
        at[0] = (uint8_t)(c->status + (c->read ? 16 : 0) + (c->normal ? 32 : 0) + (c->dma ? 64 : 0) + (c->select ? 128 : 0));
        at[1] = (uint8_t)(c->segment + (c->reset ? 128 : 0));
        at[2] = c->offset;
        at[3] = c->byte;
    }
    return number;
}

/* The same on fresh bytes, which are looked at after it. */
static void try_once(size_t length, size_t count, const struct cycle *c, const char *what)
{
    fill((unsigned)(length + count));
    record(length, &count, c, what);
    expect(as_wanted(), what);
}

/* The start: 10 below seven bytes, and the count is 0 whatever it was. */
static void starts(void)
{
    static const size_t older[] = {0, 1, MOST, SIZE_MAX};
    size_t length, count, i;

    for (length = 0; length <= SHORT; length++)
        for (i = 0; i < sizeof older / sizeof older[0]; i++) {
            fill((unsigned)length);
            count = older[i];
            expect(distantarm_record_start(trace, length, &count) == (length < HEAD ? DISTANTARM_SHORT : 0), "the start's number");
            if (length >= HEAD)
                want_header(0);
            expect(count == 0, "the count at the start");
            expect(as_wanted(), "the header at the start, and no other byte");
        }
}

/* Every short length with counts of all sizes, and cycles in their numbers and out of them: the order 1, 7, 10. */
static void refusals(void)
{
    static const size_t counts[] = {
        0, 1, 2, 3, 4, 255, 256, MOST - 1, MOST, MOST + 1,
        65535, 65536, SIZE_MAX / 4 - 1, SIZE_MAX / 4, SIZE_MAX / 4 + 1, SIZE_MAX - 1, SIZE_MAX,
    };
    size_t length, i, k;

    for (length = 0; length <= SHORT; length++)
        for (i = 0; i < sizeof counts / sizeof counts[0]; i++) {
            try_once(length, counts[i], &fetch, "a short buffer");
            try_once(length, counts[i], &reset, "a short buffer, and a reset");
            for (k = 0; k < sizeof strange / sizeof strange[0]; k++)
                try_once(length, counts[i], &strange[k], "a short buffer, and a cycle out of its numbers");
        }
    for (i = 0; i < sizeof counts / sizeof counts[0]; i++) {
        try_once(LONGEST, counts[i], &fetch, "any count");
        for (k = 0; k < sizeof strange / sizeof strange[0]; k++)
            try_once(LONGEST, counts[i], &strange[k], "any count, and a cycle out of its numbers");
    }
}

/* Every length from a record too short to a record too long, for counts over the whole range. */
static void edges(void)
{
    size_t count, length;

    for (count = 0; count < MOST; count += count < 300 ? 1 : 157)
        for (length = HEAD + RECORD * count; length <= HEAD + RECORD * (count + 2) && length <= LONGEST; length++)
            try_once(length, count, &fetch, "a buffer about the edge");
    for (length = LONGEST - RECORD - 1; length <= LONGEST; length++) {
        try_once(length, MOST - 1, &fetch, "the last record about the edge");
        try_once(length, MOST, &fetch, "no record past the last");
    }
}

/* Every status with every segment, all flags among them; then every offset, low and data byte. */
static void fields(void)
{
    struct cycle c = fetch;
    unsigned n, flags;
    size_t count;

    fill(0);
    for (n = 0; n < 65536; n++) {
        flags = n + n / 32 + n / 1024;
        c = (struct cycle){(uint8_t)(n / 256), (uint8_t)n, (uint8_t)(n * 7), (uint8_t)(n * 5), (uint8_t)(n * 3), flags & READ,
                           flags & NORMAL, flags & DMA, flags & SELECT, flags & RESET};
        count = n % 16;
        record(HEAD + RECORD * 16, &count, &c, "a status and a segment");
        expect(memcmp(room, wanted, AROUND + HEAD + RECORD * 17) == 0, "the record of a status and a segment");
    }
    for (flags = 0; flags < 32; flags++)
        for (n = 0; n < 16 * 128; n++) {
            c = (struct cycle){(uint8_t)(n / 128), n % 128, 0x15, 0x99, 0x77, flags & READ, flags & NORMAL, flags & DMA, flags & SELECT,
                               flags & RESET};
            count = 1;
            record(SHORT, &count, &c, "all flags");
            expect(memcmp(room, wanted, AROUND + SHORT) == 0, "the record of all flags");
        }
    for (n = 0; n < 3 * 256; n++) {
        c = reset;
        *(n < 256 ? &c.offset : n < 512 ? &c.low : &c.byte) = (uint8_t)n;
        try_once(HEAD + RECORD, 0, &c, "a reset with every offset, low and data byte");
    }
}

/* A cycle that is other ones for other numbers; every hundredth is out of its numbers. */
static struct cycle some_cycle(unsigned n)
{
    const unsigned mixed = n * 2654435761u;

    return (struct cycle){(uint8_t)(n % 100 == 99 ? 16 : mixed >> 28), mixed >> 21 & 127, (uint8_t)(mixed >> 13), (uint8_t)n,
                          (uint8_t)(mixed >> 5), mixed & READ, mixed & NORMAL, mixed & DMA, mixed & SELECT, (mixed >> 8 & 15) == 0};
}

/* A whole trace: its header after every call, its bytes now and then and at the end; then no more, and what the listing reads of it. */
static void whole_trace(unsigned seed)
{
    static uint8_t text[DISTANTARM_TEXT_BYTES];
    const char *first = "MBT 1 16000\n";
    struct cycle c;
    size_t count = 77, length, lines = 0;
    unsigned n;

    fill(seed);
    want_header(0);
    expect(distantarm_record_start(trace, LONGEST, &count) == 0 && count == 0 && as_wanted(), "the start of a whole trace");
    for (n = 0; count < MOST && n < 2 * MOST; n++) {
        c = some_cycle(n);
        record(LONGEST, &count, &c, "a cycle of a whole trace");
        expect(memcmp(trace, should, HEAD) == 0, "the header after every call");
        if (n % 1000 == 0)
            expect(as_wanted(), "a trace in the making, and the bytes past its end");
    }
    expect(as_wanted(), "a whole trace");
    record(LONGEST, &count, &fetch, "the cycle after the last");
    record(LONGEST, &count, &strange[0], "the cycle after the last, out of its numbers");
    expect(as_wanted() && count == MOST, "a full trace stays");
    length = distantarm_list(trace, HEAD + RECORD * count, text, sizeof text);
    while (length > 0)
        lines += text[--length] == '\n';
    expect(lines == MOST + 1 && memcmp(text, first, strlen(first)) == 0, "the listing of what was recorded");
}

/* The listing of each prefix is that of a good trace; the same cycles give the same bytes, whatever stood in the buffer. */
static void prefixes(void)
{
    static uint8_t text[DISTANTARM_TEXT_BYTES];
    uint8_t once[HEAD + RECORD * SHORT];
    char first[16];
    unsigned n, seed;
    size_t count;

    for (seed = 0; seed < 2; seed++) {
        fill(seed);
        distantarm_record_start(trace, LONGEST, &count);
        for (n = 0; n < SHORT; n++) {
            const struct cycle c = some_cycle(n);

            record(LONGEST, &count, &c, "a cycle of a short trace");
            snprintf(first, sizeof first, "MBT 1 %u\n", n + 1);
            distantarm_list(trace, HEAD + RECORD * count, text, sizeof text);
            expect(memcmp(text, first, strlen(first)) == 0, "the listing after every call");
        }
        if (seed == 0)
            memcpy(once, trace, sizeof once);
        expect(memcmp(once, trace, sizeof once) == 0, "the same cycles give the same bytes");
    }
}

/* A line of the table that docs/INTERFACE.md works through: what a call gave, and the count and the bytes that it left. */
static void line(uint8_t number, uint8_t said, size_t count, size_t after, const char *bytes)
{
    expect(number == said && count == after && memcmp(trace, bytes, WORKED) == 0, "the worked table of docs/INTERFACE.md");
}

static void worked(void)
{
    static const char none[] = "MBT\0\1\0\0\xAA\xAA\xAA\xAA\xAA\xAA\xAA\xAA", one[] = "MBT\0\1\0\1\x3D\5\x15\0\xAA\xAA\xAA\xAA";
    static const char two[] = "MBT\0\1\0\2\x3D\5\x15\0\x98\xC1\x93\x77", again[] = "MBT\0\1\0\1\x3D\5\x15\0\x98\xC1\x93\x77";
    static const struct cycle second = {8, 65, 0x93, 0x28, 0x77, true, false, false, true, true};
    size_t count = 5, full = MOST, fresh = 0;
    uint8_t number;

    memset(trace, 0xAA, WORKED);
    number = distantarm_record_start(trace, WORKED, &count);
    line(number, 0, count, 0, none);
    number = record(WORKED, &count, &fetch, "the first cycle");
    line(number, 0, count, 1, one);
    number = record(WORKED, &count, &strange[0], "the first cycle with status 16");
    line(number, DISTANTARM_OUT_OF_RANGE, count, 1, one);
    number = record(WORKED, &count, &second, "the reset");
    line(number, 0, count, 2, two);
    number = record(WORKED, &count, &fetch, "the third cycle");
    line(number, DISTANTARM_SHORT, count, 2, two);
    number = record(WORKED, &full, &fetch, "at 16,000");
    line(number, DISTANTARM_TOO_MANY, full, MOST, two);
    number = record(WORKED, &fresh, &fetch, "at 0 again");
    line(number, 0, fresh, 1, again);
    number = distantarm_record_start(trace, HEAD - 1, &count);
    line(number, DISTANTARM_SHORT, count, 0, again);
}

int main(void)
{
    expect(LONGEST == HEAD + RECORD * MOST, "the longest trace");
    starts();
    refusals();
    edges();
    fields();
    whole_trace(1);
    whole_trace(200);
    prefixes();
    worked();
    printf("recorder_interface: %d of %d tries as distantarm.h says\n", tried - failed, tried);
    return failed != 0;
}
