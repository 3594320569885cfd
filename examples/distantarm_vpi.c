/* distantarm_vpi: the proved unit and recorder as system tasks of a Verilog simulator (VPI), for benches that compare logic of their own
 * with the unit, or send us what their bus saw.
 *   $distantarm_power_on;            one unit, kept here, at power-on
 *   $distantarm_cycle(record)        a cycle, from the 32 bits of a trace record, with 0 for its low byte; its packed answer, 56 bits, the
 *                                    kind's letter on top
 *   $distantarm_unit(index)          a byte of the unit, laid out as distantarm.h says; 0 past its end; an index of at most 32 bits
 *   $distantarm_record_start(file);  one trace, kept here, without records, in the file of this name; a second one begins another
 *   $distantarm_record(record);      one record more of it, from its 32 bits; the file is a whole capture after every call, but where it
 *                                    cannot be written a part of this record may stand in it
 * A call with other arguments ends the simulation before it begins, and an argument with a bit that is X or Z when it is called: a bus that
 * is not defined is no cycle. So does a record that is refused, or that cannot be written. All say why, and end with status 2 in Icarus
 * Verilog. */
#include <limits.h>
#include <stdio.h>
#include <string.h>
#include <vpi_user.h>

#include "distantarm.h"

#define WORD_BITS 32

/* The cycle of a record's 32 bits, as the library's calls take it. A record has no low byte: it is 0. */
#define CYCLE_OF(record) \
    record >> 24 & 15, record >> 28 & 1, record >> 29 & 1, record >> 30 & 1, record >> 31 & 1, record >> 16 & 127, \
    (uint8_t)(record >> 8), 0, (uint8_t)record, record >> 23 & 1

/* The only argument of a call: its name in messages, and how many bits it has at least and at most. */
struct argument {
    const char *name;
    int least, most;
};

static struct argument record_argument = {"record", WORD_BITS, WORD_BITS}, index_argument = {"index", 1, WORD_BITS};
static struct argument file_argument = {"file", 0, INT_MAX};
static uint8_t unit[DISTANTARM_UNIT_BYTES];

/* what is recorded, and where */
static uint8_t trace[DISTANTARM_TRACE_BYTES];
static size_t records;
static FILE *file;

/* Ends the simulation, with the place of the call as the end of the message. */
static void stop(vpiHandle call)
{
    /* one at a time: the next string may stand where the last one stood */
    vpi_printf(": %s", vpi_get_str(vpiName, call));
    vpi_printf(" in %s", vpi_get_str(vpiFile, call));
    vpi_printf(", line %d\n", (int)vpi_get(vpiLineNo, call));
#ifdef ICARUS_VPI_CONST /* Icarus has a name of its own for the status of the simulator */
    vpip_set_return_value(2);
#endif
    vpi_control(vpiFinish, 0);
}

/* The call's first argument, if it has one, and how many it has. */
static vpiHandle first_of(vpiHandle call, int *count)
{
    vpiHandle arguments = vpi_iterate(vpiArgument, call), first = NULL, next;

    *count = 0;
    while (arguments != NULL && (next = vpi_scan(arguments)) != NULL)
        if ((*count)++ == 0)
            first = next;
    return first;
}

/* What an argument is that has not its bits in their places, or NULL. A string in quotes names a file; as a number Icarus Verilog 11 hands
 * its bytes over in the wrong order. */
static const char *no_bits(vpiHandle value, const struct argument *wanted)
{
    const PLI_INT32 type = vpi_get(vpiType, value), of = type == vpiConstant ? vpi_get(vpiConstType, value) : 0;

    if (type == vpiRealVar || (type == vpiConstant && of == vpiRealConst))
        return "a real number";
    return type == vpiConstant && of == vpiStringConst && wanted != &file_argument ? "a string" : NULL;
}

/* When the call is compiled: one argument with as many bits as it must have, or none where none is wanted. */
static PLI_INT32 check_arguments(PLI_BYTE8 *data)
{
    const struct argument *wanted = (const struct argument *)data;
    vpiHandle call = vpi_handle(vpiSysTfCall, NULL);
    int count, bits;
    vpiHandle first = first_of(call, &count);

    if (count != (wanted != NULL)) {
        vpi_printf("distantarm: %s is wanted, and there are %d", wanted != NULL ? "one argument" : "no argument", count);
        stop(call);
    } else if (wanted != NULL && no_bits(first, wanted) != NULL) {
        vpi_printf("distantarm: %s is %s, where there must be bits", wanted->name, no_bits(first, wanted));
        stop(call);
    } else if (wanted != NULL) {
        bits = (int)vpi_get(vpiSize, first);
        if (bits < wanted->least || bits > wanted->most) {
            vpi_printf("distantarm: %s has %d bits, %s than %d", wanted->name, bits, bits > wanted->most ? "more" : "fewer", WORD_BITS);
            stop(call);
        }
    }
    return 0;
}

/* Says what the argument is called in the bench. The value of an expression is a constant here, and has no name of the bench. */
static void say_name(vpiHandle argument)
{
    const char *full = vpi_get(vpiType, argument) == vpiConstant ? NULL : vpi_get_str(vpiFullName, argument);

    if (full != NULL)
        vpi_printf(" of %s", full);
}

/* Says which bits of an argument are X or Z: the highest of them, and those below it that are the same. */
static void say_undefined(vpiHandle argument, const char *name, uint32_t value, uint32_t undefined)
{
    int high = WORD_BITS - 1, low;
    bool is_x;

    while ((undefined >> high & 1) == 0)
        high--;
    is_x = value >> high & 1;
    if (!is_x)
        value = ~value;
    low = high;
    while (low > 0 && ((undefined & value) >> (low - 1) & 1) != 0)
        low--;
    vpi_printf("distantarm: %s[%d:%d]", name, high, low);
    say_name(argument);
    vpi_printf(" is %c", is_x ? 'X' : 'Z');
}

/* The value of the call's only argument: true, or the simulation ends where a bit of it is not defined. */
static bool argument_of(vpiHandle call, const struct argument *wanted, uint32_t *number)
{
    int count;
    vpiHandle first = first_of(call, &count);
    const int bits = (int)vpi_get(vpiSize, first);
    const uint32_t used = bits < WORD_BITS ? (UINT32_C(1) << bits) - 1 : UINT32_MAX;
    s_vpi_value value;
    uint32_t undefined;

    value.format = vpiVectorVal;
    vpi_get_value(first, &value);
    *number = (uint32_t)value.value.vector[0].aval & used;
    undefined = (uint32_t)value.value.vector[0].bval & used;
    if (undefined == 0)
        return true;
    say_undefined(first, wanted->name, *number, undefined);
    stop(call);
    return false;
}

/* Gives the low bits of a number as the value of the call. */
static void give(vpiHandle call, uint64_t number)
{
    s_vpi_vecval words[2] = {{(PLI_INT32)(uint32_t)number, 0}, {(PLI_INT32)(uint32_t)(number >> 32), 0}};
    s_vpi_value value;

    value.format = vpiVectorVal;
    value.value.vector = words;
    vpi_put_value(call, &value, NULL, vpiNoDelay);
}

static PLI_INT32 power_on(PLI_BYTE8 *unused)
{
    (void)unused;
    distantarm_power_on(unit, sizeof unit);
    return 0;
}

static PLI_INT32 cycle(PLI_BYTE8 *wanted)
{
    vpiHandle call = vpi_handle(vpiSysTfCall, NULL);
    uint8_t answer[DISTANTARM_ANSWER_BYTES];
    uint64_t packed = 0;
    uint32_t record;
    int i;

    if (!argument_of(call, (const struct argument *)wanted, &record))
        return 0;
    distantarm_cycle(unit, sizeof unit, answer, sizeof answer, CYCLE_OF(record));
    for (i = 0; i < DISTANTARM_ANSWER_BYTES; i++)
        packed = packed << 8 | answer[i];
    give(call, packed);
    return 0;
}

static PLI_INT32 unit_byte(PLI_BYTE8 *wanted)
{
    vpiHandle call = vpi_handle(vpiSysTfCall, NULL);
    uint32_t index;

    if (argument_of(call, (const struct argument *)wanted, &index))
        give(call, index < DISTANTARM_UNIT_BYTES ? unit[index] : 0);
    return 0;
}

/* Puts these bytes of the trace into the file, at their place; whether that could be done. */
static bool put(size_t at, size_t bytes)
{
    return fseek(file, (long)at, SEEK_SET) == 0 && fwrite(trace + at, 1, bytes, file) == bytes && fflush(file) == 0;
}

static PLI_INT32 record_start(PLI_BYTE8 *wanted)
{
    const char *name = ((const struct argument *)wanted)->name;
    vpiHandle call = vpi_handle(vpiSysTfCall, NULL);
    int arguments;
    vpiHandle first = first_of(call, &arguments);
    s_vpi_value value;

    value.format = vpiBinStrVal;
    vpi_get_value(first, &value);
    if (strpbrk(value.value.str, "xXzZ") != NULL) {
        vpi_printf("distantarm: %s", name);
        say_name(first);
        vpi_printf(" is X or Z");
        stop(call);
        return 0;
    }
    value.format = vpiStringVal;
    vpi_get_value(first, &value);
    if (file != NULL)
        fclose(file);
    file = fopen(value.value.str, "wb");
    distantarm_record_start(trace, sizeof trace, &records);
    if (file == NULL || !put(0, DISTANTARM_HEAD_BYTES)) {
        vpi_printf("distantarm: the file '%s' cannot be written", value.value.str);
        stop(call);
    }
    return 0;
}

/* The record first, and then the header that counts it. */
static PLI_INT32 record_cycle(PLI_BYTE8 *wanted)
{
    vpiHandle call = vpi_handle(vpiSysTfCall, NULL);
    const size_t at = DISTANTARM_HEAD_BYTES + DISTANTARM_RECORD_BYTES * records;
    uint32_t record;
    uint8_t number;

    if (!argument_of(call, (const struct argument *)wanted, &record))
        return 0;
    if (file == NULL) {
        vpi_printf("distantarm: no recording was started");
        stop(call);
        return 0;
    }
    number = distantarm_record(trace, sizeof trace, &records, CYCLE_OF(record));
    if (number != 0) {
        vpi_printf("distantarm: refusal %d, and the cycle is not recorded", number);
        stop(call);
    } else if (!put(at, DISTANTARM_RECORD_BYTES) || !put(0, DISTANTARM_HEAD_BYTES)) {
        vpi_printf("distantarm: the recorder's file cannot be written");
        stop(call);
    }
    return 0;
}

static PLI_INT32 answer_bits(PLI_BYTE8 *unused)
{
    (void)unused;
    return 8 * DISTANTARM_ANSWER_BYTES;
}

static PLI_INT32 byte_bits(PLI_BYTE8 *unused)
{
    (void)unused;
    return 8;
}

static void register_tasks(void)
{
    s_vpi_systf_data tasks[] = {
        {vpiSysTask, 0, "$distantarm_power_on", power_on, check_arguments, NULL, NULL},
        {vpiSysFunc, vpiSizedFunc, "$distantarm_cycle", cycle, check_arguments, answer_bits, (PLI_BYTE8 *)&record_argument},
        {vpiSysFunc, vpiSizedFunc, "$distantarm_unit", unit_byte, check_arguments, byte_bits, (PLI_BYTE8 *)&index_argument},
        {vpiSysTask, 0, "$distantarm_record_start", record_start, check_arguments, NULL, (PLI_BYTE8 *)&file_argument},
        {vpiSysTask, 0, "$distantarm_record", record_cycle, check_arguments, NULL, (PLI_BYTE8 *)&record_argument},
    };
    size_t i;

    for (i = 0; i < sizeof tasks / sizeof tasks[0]; i++)
        vpi_register_systf(&tasks[i]);
}

void (*vlog_startup_routines[])(void) = {register_tasks, NULL};
