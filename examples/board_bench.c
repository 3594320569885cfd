/* board_bench SCRIPT: a test bench for boards of 1 to 16 units over the C interface. It keeps the units of a board one behind another, steps
 * them through the script, one distantarm_board_cycle for each C line, and prints what test_board prints.
 *
 * Beside each call stands logic of a builder's own, `glue`: it is handed the same units, each of which answers for itself with its own select
 * (distantarm_cycle stands for the chips), and joins what they answer, as the wires and the decoder of a board do. It must have the same answer
 * and leave the same units, in every byte. Put your own logic in its place. Built with -DOWN_SUP or -DWIRED_AND it has a mistake, which the
 * bench must find (examples/four_units.script).
 * Status 0: all rows agree; 1: one differs; 2: wrongly called, or the script cannot be read or the text not written.
 *
 * Lines of a script, all numbers hexadecimal, of two digits where no more are shown:
 *   B nn                          a board of nn units, all sixteen at power-on; before the first such line it has one
 *   U ii mr sar dscr vtr vsn voff bcsr isn ioff notes low
 *                                 unit ii, 00 to 0F: these registers, and a table of zeros
 *   D ii nn base limit attr       descriptor nn of unit ii; base has four digits
 *   C st fl sg of lo by ssss      a cycle: status, flags (from bit 0 up read, normal mode, DMA, a bit that nothing looks at, reset line),
 *                                 segment, offset byte, low byte, data byte, and 16 select bits, unit 0 in bit 0
 * Empty lines and those that begin with # are printed as they are; any other line prints a question mark. */
#include <stdio.h>
#include <stdlib.h>
#include <string.h>

#include "distantarm.h"

enum { UNIT = DISTANTARM_UNIT_BYTES, ANSWER = DISTANTARM_BOARD_ANSWER_BYTES, MOST = DISTANTARM_BOARD_UNITS, DESCRIPTORS = 64 };
enum { LARGEST = 65536, FIELDS = 12, LINE = 40 };

struct cycle {
    uint8_t status, segment, offset, low, byte;
    bool read, normal, dma, reset;
    uint16_t selects;
};

static uint8_t units[MOST * UNIT];
static size_t count = 1;

static void power_on(void)
{
    size_t i;

    for (i = 0; i < MOST; i++)
        if (distantarm_power_on(units + UNIT * i, UNIT) != 0) {
            fprintf(stderr, "board_bench: power-on finds no room in %d bytes\n", UNIT);
            exit(1);
        }
}

/* A refusal, which drives nothing; its number. */
static uint8_t refuse(uint8_t *answer, uint8_t number, uint8_t named, bool trap)
{
    memset(answer, 0, ANSWER);
    answer[DISTANTARM_KIND] = DISTANTARM_REFUSED;
    answer[DISTANTARM_NUMBER] = number;
    answer[DISTANTARM_FLAGS] = trap ? DISTANTARM_TRAP : 0;
    answer[DISTANTARM_NAMED] = named;
    return number;
}

/* A builder's own logic: what makes a board of so many units. `chips` has their bytes. */
static uint8_t glue(uint8_t *chips, uint8_t *answer, size_t number_of_chips, struct cycle c)
{
    uint8_t said[MOST][DISTANTARM_ANSWER_BYTES], stepped[MOST * UNIT];
    uint8_t named = DISTANTARM_NOBODY, flags = 0, byte = 0;
    size_t i, driving = 0, commanded = 0;
    bool stood = false;

    if (number_of_chips < 1 || number_of_chips > MOST)
        return refuse(answer, DISTANTARM_WRONG_COUNT, DISTANTARM_NOBODY, false);

    /* each unit by itself */
    memcpy(stepped, chips, UNIT * number_of_chips);
    for (i = 0; i < number_of_chips; i++) {
        distantarm_cycle(stepped + UNIT * i, UNIT, said[i], sizeof said[i], c.status, c.read, c.normal, c.dma, c.selects >> i & 1,
                         c.segment, c.offset, c.low, c.byte, c.reset);
        stood = stood || (chips[UNIT * i + DISTANTARM_NOTES] & DISTANTARM_REQUEST) != 0;
    }

    /* what is refused */
    for (i = 0; i < number_of_chips; i++) {
        if (said[i][DISTANTARM_KIND] == DISTANTARM_REFUSED)
            return refuse(answer, said[i][DISTANTARM_NUMBER], (uint8_t)i, stood);
        driving += (said[i][DISTANTARM_FLAGS] & DISTANTARM_ADDRESS) != 0;
        commanded += said[i][DISTANTARM_KIND] == DISTANTARM_COMMAND;
    }
    if (driving > 1)
        return refuse(answer, DISTANTARM_TWO_DRIVE, DISTANTARM_NOBODY, stood);
    if (c.read && commanded > 1)
        return refuse(answer, DISTANTARM_SEVERAL_READ, DISTANTARM_NOBODY, stood);

    /* what is joined; where nobody drives, the kind is that of a unit that takes the cycle as something else than I */
    memset(answer, 0, ANSWER);
    answer[DISTANTARM_KIND] = DISTANTARM_IGNORED;
#ifdef WIRED_AND
    byte = 0xFF; /* a mistake: a line is low if any unit drives it so */
#endif
    for (i = 0; i < number_of_chips; i++) {
        if (said[i][DISTANTARM_FLAGS] & DISTANTARM_ADDRESS) {
            memcpy(answer, said[i], DISTANTARM_ANSWER_BYTES);
            named = (uint8_t)i;
        } else if (named == DISTANTARM_NOBODY && said[i][DISTANTARM_KIND] != DISTANTARM_IGNORED)
            answer[DISTANTARM_KIND] = said[i][DISTANTARM_KIND];
        flags |= said[i][DISTANTARM_FLAGS];
#ifndef WIRED_AND
        byte |= said[i][DISTANTARM_BYTE];
#else
        if (said[i][DISTANTARM_FLAGS] & DISTANTARM_DRIVES)
            byte &= said[i][DISTANTARM_BYTE];
#endif
    }
#ifdef OWN_SUP
    flags = (uint8_t)((flags & ~DISTANTARM_SUP) | (answer[DISTANTARM_FLAGS] & DISTANTARM_SUP)); /* a mistake: SUP of the driving unit alone */
#endif
    answer[DISTANTARM_FLAGS] = flags;
    answer[DISTANTARM_BYTE] = flags & DISTANTARM_DRIVES ? byte : 0;
    answer[DISTANTARM_NAMED] = named;
    memcpy(chips, stepped, UNIT * number_of_chips);
    return 0;
}

/* The line of a packed answer, as test_board prints it. */
static const char *line_of(char *text, const uint8_t *answer)
{
    const uint8_t flags = answer[DISTANTARM_FLAGS];
    char number[4] = "", lines[5] = "----", byte[3] = "--", named[3] = "--";

    if (answer[DISTANTARM_KIND] == DISTANTARM_REFUSED)
        snprintf(number, sizeof number, "%d", answer[DISTANTARM_NUMBER]);
    if (flags & DISTANTARM_ADDRESS)
        snprintf(lines, sizeof lines, "%02X%02X", answer[DISTANTARM_LINES_HIGH], answer[DISTANTARM_LINES_LOW]);
    if (flags & DISTANTARM_DRIVES)
        snprintf(byte, sizeof byte, "%02X", answer[DISTANTARM_BYTE]);
    if (answer[DISTANTARM_NAMED] != DISTANTARM_NOBODY)
        snprintf(named, sizeof named, "%02X", answer[DISTANTARM_NAMED]);
    snprintf(text, LINE, "%c%s %s %d %d %s %d | %s", answer[DISTANTARM_KIND], number, lines, (flags & DISTANTARM_SUP) != 0,
             (flags & DISTANTARM_TRAP) != 0, byte, answer[DISTANTARM_DISTANCE], named);
    return text;
}

/* The line of each unit that a cycle changed: its registers, and the descriptors that are not as they were. */
static void show_changes(const uint8_t *was)
{
    const uint8_t *now = units;
    size_t i, n;

    for (i = 0; i < MOST; i++, was += UNIT, now += UNIT) {
        if (memcmp(was, now, UNIT) == 0)
            continue;
        printf("%02X |", (unsigned)i);
        for (n = DISTANTARM_MR; n <= DISTANTARM_NOTES; n++)
            printf(" %02X", now[n]);
        printf(" %02X", now[DISTANTARM_LOW]);
        for (n = 0; n < DESCRIPTORS; n++) {
            const uint8_t *d = now + DISTANTARM_TABLE + DISTANTARM_DESCRIPTOR_BYTES * n;

            if (memcmp(d, was + (d - now), DISTANTARM_DESCRIPTOR_BYTES) != 0)
                printf(" | %02X %02X%02X %02X %02X", (unsigned)n, d[0], d[1], d[2], d[3]);
        }
        printf("\n");
    }
}

/* A row: the board beside the glue. */
static void step(struct cycle c, unsigned row, int length, const char *line)
{
    uint8_t was[sizeof units], own[sizeof units], answer[ANSWER], own_answer[ANSWER], number, own_number;
    char text[LINE], own_text[LINE];
    size_t i;

    memcpy(was, units, sizeof units);
    memcpy(own, units, sizeof units);
    number = distantarm_board_cycle(units, sizeof units, answer, sizeof answer, count, c.status, c.read, c.normal, c.dma, c.segment,
                                    c.offset, c.low, c.byte, c.reset, c.selects);
    own_number = glue(own, own_answer, count, c);
    if (number != answer[DISTANTARM_NUMBER]) {
        fprintf(stderr, "board_bench: line %u, %.*s: the cycle gives %d, and its answer has %d\n", row, length, line, number,
                answer[DISTANTARM_NUMBER]);
        exit(1);
    }
    if (own_number != number || memcmp(own_answer, answer, ANSWER) != 0) {
        fprintf(stderr, "board_bench: line %u, %.*s: the glue has %s, the board %s\n", row, length, line, line_of(own_text, own_answer),
                line_of(text, answer));
        exit(1);
    }
    for (i = 0; i < sizeof units; i++)
        if (own[i] != units[i]) {
            fprintf(stderr, "board_bench: line %u, %.*s: byte %d of unit %d is %02X by the glue, %02X by the board\n", row, length, line,
                    (int)(i % UNIT), (int)(i / UNIT), own[i], units[i]);
            exit(1);
        }
    printf("%s\n", line_of(text, answer));
    show_changes(was);
}

/* The value of a hexadecimal digit, or -1. */
static int digit(char letter)
{
    static const char digits[] = "0123456789ABCDEF0123456789abcdef";
    const char *at = letter == 0 ? NULL : strchr(digits, letter);

    return at == NULL ? -1 : (int)((at - digits) % 16);
}

/* Reads a line's numbers, each behind one space and with as many digits as `shape` says; whether there are just these. */
static bool numbers(const char *line, size_t length, const char *shape, unsigned *number)
{
    size_t at = 1;

    for (; *shape != 0; shape++, number++) {
        int left = *shape - '0';

        if (at == length || line[at++] != ' ')
            return false;
        for (*number = 0; left > 0; left--, at++) {
            const int value = at == length ? -1 : digit(line[at]);

            if (value < 0)
                return false;
            *number = *number * 16 + (unsigned)value;
        }
    }
    return at == length;
}

static void set_unit(const unsigned *n)
{
    uint8_t *unit = units + UNIT * n[0];
    size_t i;

    memset(unit, 0, UNIT);
    for (i = DISTANTARM_MR; i <= DISTANTARM_NOTES; i++)
        unit[i] = (uint8_t)n[1 + i];
    unit[DISTANTARM_LOW] = (uint8_t)n[11];
}

static void set_descriptor(const unsigned *n)
{
    const uint8_t bytes[] = {(uint8_t)(n[2] / 256), (uint8_t)n[2], (uint8_t)n[3], (uint8_t)n[4]};

    memcpy(units + UNIT * n[0] + DISTANTARM_TABLE + DISTANTARM_DESCRIPTOR_BYTES * n[1], bytes, sizeof bytes);
}

/* One line of the script. */
static void play(unsigned row, const char *line, size_t length)
{
    unsigned n[FIELDS];

    if (length == 0 || line[0] == '#') {
        fwrite(line, 1, length, stdout);
        printf("\n");
    } else if (line[0] == 'B' && numbers(line, length, "2", n)) {
        count = n[0];
        power_on();
    } else if (line[0] == 'U' && numbers(line, length, "222222222222", n) && n[0] < MOST) {
        set_unit(n);
    } else if (line[0] == 'D' && numbers(line, length, "22422", n) && n[0] < MOST && n[1] < DESCRIPTORS) {
        set_descriptor(n);
    } else if (line[0] == 'C' && numbers(line, length, "2222224", n)) {
        const struct cycle c = {
            .status = (uint8_t)n[0], .segment = (uint8_t)n[2], .offset = (uint8_t)n[3], .low = (uint8_t)n[4], .byte = (uint8_t)n[5],
            .read = n[1] & 1, .normal = n[1] & 2, .dma = n[1] & 4, .reset = n[1] & 16, .selects = (uint16_t)n[6],
        };

        step(c, row, (int)length, line);
    } else
        printf("?\n");
}

/* The first 65,536 bytes of the script; the rest is left. */
static size_t read_script(const char *name, char *script)
{
    FILE *file = fopen(name, "rb");
    size_t length;

    if (file == NULL) {
        fprintf(stderr, "board_bench: cannot open the script %s\n", name);
        exit(2);
    }
    length = fread(script, 1, LARGEST, file);
    if (ferror(file)) {
        fprintf(stderr, "board_bench: cannot read the script %s\n", name);
        exit(2);
    }
    fclose(file);
    return length;
}

int main(int words, char **word)
{
    static char script[LARGEST];
    size_t length, at, end;
    unsigned row;

    if (words != 2) {
        fprintf(stderr, "usage: board_bench SCRIPT\n");
        return 2;
    }
    length = read_script(word[1], script);
    power_on();
    for (at = 0, row = 1; at < length; at = end + 1, row++) {
        for (end = at; end < length && script[end] != '\n';)
            end++;
        play(row, script + at, end - at);
    }
    if (ferror(stdout) || fflush(stdout) != 0) {
        fprintf(stderr, "board_bench: cannot write the text\n");
        return 2;
    }
    return 0;
}
