/* bench CAPTURE: a test bench over the C interface. It steps a unit of its own through the capture, one distantarm_cycle for each record,
 * prints the lines that mmurun prints, and holds them to the text of distantarm_list. Put your own logic beside distantarm_cycle.
 * Status 0: the two texts agree; 1: they differ; 2: the capture cannot be read or the text not written. */
#include <stdio.h>
#include <stdlib.h>
#include <string.h>

#include "distantarm.h"

enum { HEAD = DISTANTARM_HEAD_BYTES, RECORD = DISTANTARM_RECORD_BYTES, MOST = DISTANTARM_RECORDS, LARGEST = 65536 };

static uint8_t trace[LARGEST];
static uint8_t listed[DISTANTARM_TEXT_BYTES];
static char own[DISTANTARM_TEXT_BYTES];

/* The first 65,536 bytes of the capture: the longest good trace has 64,007. */
static size_t read_capture(const char *name)
{
    FILE *file = fopen(name, "rb");
    size_t length;

    if (file == NULL) {
        fprintf(stderr, "bench: cannot open the capture %s\n", name);
        exit(2);
    }
    length = fread(trace, 1, sizeof trace, file);
    if (ferror(file)) {
        fprintf(stderr, "bench: cannot read the capture %s\n", name);
        exit(2);
    }
    fclose(file);
    return length;
}

static unsigned pair(size_t at)
{
    return trace[at] * 256u + trace[at + 1];
}

/* The number that refuses the trace, or 0. */
static int refusal(size_t length)
{
    if (length < HEAD || memcmp(trace, "MBT", 3) != 0)
        return DISTANTARM_NO_TRACE;
    if (pair(3) != 1)
        return DISTANTARM_VERSION;
    if (pair(5) > MOST)
        return DISTANTARM_TOO_MANY;
    return length == HEAD + RECORD * (size_t)pair(5) ? 0 : DISTANTARM_LENGTH;
}

/* The cycle of a record's four bytes, which have no low byte: it is 0. */
static void step(uint8_t *unit, uint8_t *answer, const uint8_t *record)
{
    uint8_t number = distantarm_cycle(unit, DISTANTARM_UNIT_BYTES, answer, DISTANTARM_ANSWER_BYTES, record[0] % 16, record[0] & 16,
                                      record[0] & 32, record[0] & 64, record[0] & 128, record[1] % 128, record[2], 0, record[3],
                                      record[1] & 128);

    if (number != answer[DISTANTARM_NUMBER]) {
        fprintf(stderr, "bench: the cycle gives %d, and its answer has %d\n", number, answer[DISTANTARM_NUMBER]);
        exit(1);
    }
}

/* The line of a packed answer; its length. */
static size_t put_line(char *text, unsigned n, const uint8_t *answer)
{
    const uint8_t flags = answer[DISTANTARM_FLAGS];
    char number[4] = "", lines[5] = "----", byte[3] = "--";

    if (answer[DISTANTARM_KIND] == DISTANTARM_REFUSED)
        snprintf(number, sizeof number, "%d", answer[DISTANTARM_NUMBER]);
    if (flags & DISTANTARM_ADDRESS)
        snprintf(lines, sizeof lines, "%02X%02X", answer[DISTANTARM_LINES_HIGH], answer[DISTANTARM_LINES_LOW]);
    if (flags & DISTANTARM_DRIVES)
        snprintf(byte, sizeof byte, "%02X", answer[DISTANTARM_BYTE]);
    return (size_t)sprintf(text, "%u %c%s %s %d %d %s %d\n", n, answer[DISTANTARM_KIND], number, lines, (flags & DISTANTARM_SUP) != 0,
                           (flags & DISTANTARM_TRAP) != 0, byte, answer[DISTANTARM_DISTANCE]);
}

/* The text of the trace from one call after another; its length. */
static size_t step_all(size_t length)
{
    uint8_t unit[DISTANTARM_UNIT_BYTES], answer[DISTANTARM_ANSWER_BYTES];
    const int no = refusal(length);
    size_t at;
    unsigned n;

    if (no != 0)
        return (size_t)sprintf(own, "X%d\n", no);
    if (distantarm_power_on(unit, sizeof unit) != 0) {
        fprintf(stderr, "bench: power-on finds no room in %d bytes\n", DISTANTARM_UNIT_BYTES);
        exit(1);
    }
    at = (size_t)sprintf(own, "MBT %u %u\n", pair(3), pair(5));
    for (n = 0; n < pair(5); n++) {
        step(unit, answer, trace + HEAD + RECORD * (size_t)n);
        at += put_line(own + at, n, answer);
    }
    return at;
}

int main(int count, char **words)
{
    size_t length, stepped, text;

    if (count != 2) {
        fprintf(stderr, "usage: bench CAPTURE\n");
        return 2;
    }
    length = read_capture(words[1]);
    stepped = step_all(length);
    text = distantarm_list(trace, length, listed, sizeof listed);
    if (text != stepped || memcmp(listed, own, text) != 0) {
        fprintf(stderr, "bench: %s: the cycles and the listing differ\n", words[1]);
        return 1;
    }
    if (fwrite(own, 1, stepped, stdout) != stepped || fflush(stdout) != 0) {
        fprintf(stderr, "bench: cannot write the text\n");
        return 2;
    }
    return 0;
}
