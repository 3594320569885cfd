/* recorder FILE CYCLES: a recorder over the C interface, for a builder who has what his bus saw as text. It reads cycles from the file
 * CYCLES, records each by distantarm_record, writes the trace to FILE, which is a capture for mmurun, and prints its listing. In a bench of
 * your own call distantarm_record where the bus ends a cycle, beside your logic.
 * A line has one cycle: C and six bytes, each of two hexadecimal digits behind one space: status, flags (from bit 0 up: read, normal, DMA,
 * select, reset line), segment, offset byte, low byte, data byte. It ends with LF, or with CR and LF. Empty lines and those that begin with
 * # are left out.
 * Two mistakes of a caller's, which the listing must show: with FRESH_COUNT defined each cycle is recorded at the count 0; with
 * WHOLE_BUFFER the whole buffer is taken for the trace.
 * Status 0: all is recorded; 1: a cycle was refused, which is said, and is not in the trace; 2: wrongly called, a line is no cycle (FILE is
 * then not touched), or a file cannot be read or written. */
#include <stdio.h>
#include <stdlib.h>

#include "distantarm.h"

enum { READ = 1, NORMAL = 2, DMA = 4, SELECT = 8, RESET = 16 };
/* bytes of a cycle; characters of a byte, of a cycle, and of a line that are kept */
enum { BYTES = 6, PER_BYTE = 3, CYCLE = 1 + PER_BYTE * BYTES, ROOM = 80 };

struct line {
    char text[ROOM + 1];
    int length;  /* of the text */
    long number; /* from 1 up */
};

static uint8_t trace[DISTANTARM_TRACE_BYTES];
static uint8_t listed[DISTANTARM_TEXT_BYTES];

/* Ends the program with status 2. */
static void fail(const char *what, const char *name)
{
    fprintf(stderr, "recorder: %s %s\n", what, name);
    exit(2);
}

/* The next line without its end; whether there is one. Of a long line the first characters are kept: more than a cycle has. */
static bool next_line(FILE *file, struct line *line)
{
    int c = getc(file);

    if (c == EOF)
        return false;
    line->length = 0;
    line->number++;
    for (; c != EOF && c != '\n'; c = getc(file))
        if (line->length < ROOM)
            line->text[line->length++] = (char)c;
    if (line->length > 0 && line->text[line->length - 1] == '\r')
        line->length--;
    line->text[line->length] = '\0';
    return true;
}

/* The value of a hexadecimal digit, or -1. */
static int digit(char c)
{
    if (c >= '0' && c <= '9')
        return c - '0';
    if (c >= 'A' && c <= 'F')
        return c - 'A' + 10;
    return c >= 'a' && c <= 'f' ? c - 'a' + 10 : -1;
}

/* The six bytes of a line, or the program ends. */
static void read_bytes(const struct line *line, uint8_t *bytes)
{
    bool good = line->length == CYCLE && line->text[0] == 'C';
    const char *at;
    int i;

    for (i = 0; good && i < BYTES; i++) {
        at = line->text + 1 + PER_BYTE * i;
        good = at[0] == ' ' && digit(at[1]) >= 0 && digit(at[2]) >= 0;
        bytes[i] = (uint8_t)(16 * digit(at[1]) + digit(at[2]));
    }
    if (good)
        return;
    fprintf(stderr, "recorder: line %ld is no cycle: %s\n", line->number, line->text);
    exit(2);
}

/* Records the cycle of six bytes; the number that says no, or 0. */
static uint8_t record(size_t *count, const uint8_t *bytes)
{
    const uint8_t flags = bytes[1];

#ifdef FRESH_COUNT
    *count = 0;
#endif
    return distantarm_record(trace, sizeof trace, count, bytes[0], flags & READ, flags & NORMAL, flags & DMA, flags & SELECT, bytes[2],
                             bytes[3], bytes[4], bytes[5], flags & RESET);
}

/* Records every cycle of the file up to the first one too many; whether one was refused. */
static bool record_all(const char *name, size_t *count)
{
    FILE *file = fopen(name, "rb");
    struct line line = {"", 0, 0};
    uint8_t bytes[BYTES], number = 0;
    bool refused = false;

    if (file == NULL)
        fail("cannot read the file", name);
    while (number != DISTANTARM_TOO_MANY && next_line(file, &line)) {
        if (line.length == 0 || line.text[0] == '#')
            continue;
        read_bytes(&line, bytes);
        number = record(count, bytes);
        if (number == 0)
            continue;
        refused = true;
        fprintf(stderr, "recorder: line %ld, refusal %d, and %s: %s\n", line.number, number,
                number == DISTANTARM_TOO_MANY ? "from here on nothing is recorded" : "not recorded", line.text);
    }
    if (ferror(file))
        fail("cannot read the file", name);
    fclose(file);
    return refused;
}

static void write_trace(const char *name, size_t length)
{
    FILE *file = fopen(name, "wb");

    if (file == NULL || fwrite(trace, 1, length, file) != length || fclose(file) != 0)
        fail("cannot write the file", name);
}

int main(int words, char **word)
{
    size_t count, length, text;
    bool refused;

    if (words != 3) {
        fprintf(stderr, "usage: recorder FILE CYCLES\n");
        return 2;
    }
    distantarm_record_start(trace, sizeof trace, &count);
    refused = record_all(word[2], &count);
#ifdef WHOLE_BUFFER
    length = sizeof trace;
#else
    length = DISTANTARM_HEAD_BYTES + DISTANTARM_RECORD_BYTES * count;
#endif
    write_trace(word[1], length);
    text = distantarm_list(trace, length, listed, sizeof listed);
    if (fwrite(listed, 1, text, stdout) != text || fflush(stdout) != 0)
        fail("cannot write the listing of", word[1]);
    return refused;
}
