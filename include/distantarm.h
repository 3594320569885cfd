/* distantarm.h: the proved model of the U8010 memory management unit, for C and C++.
 *
 * The library keeps no state. A unit is 267 bytes that the caller keeps and hands to each call, so there may be as many units as the
 * caller likes, and a unit is copied, stored or compared as bytes. A board is 1 to 16 units, the bytes of one behind those of another.
 * A trace that is being recorded is a buffer and a count, which the caller keeps too.
 *
 * A buffer passes as a pointer and then its length in bytes. The pointer is never null, and points to that many bytes; the two buffers
 * of one call do not overlap. A pointer to a count is never null either, and the count lies outside the buffer. That is all that a caller
 * has to see to: every value of every other parameter, every length and every content of a buffer has an answer, and bytes past those named
 * here are left as they were.
 *
 * This is interface 5. Interface 4 knew no recorder. A caller of it has nothing to change, and need not be compiled again: there are two
 * functions more, distantarm_record_start and distantarm_record, and all else is as it was.
 *
 * Interface 3 knew no boards. A caller of it has nothing to change either: distantarm_board_cycle came.
 *
 * Interface 2 knew no distance. A caller of it must give an answer one byte more, DISTANTARM_DISTANCE behind those that it had, and the
 * text of distantarm_list 96,000 bytes more; where it reads that text, each record's line has a seventh field. No other place has moved,
 * and the declarations are the same, so one that takes the sizes from this header has only to be compiled again. A program that was not is
 * told if its buffers have the sizes of interface 2: 6 bytes get 255, and 400,012 get 0. In a longer answer the seventh byte is now
 * written.
 *
 * Interface 1, whose header had no number, knew no low byte either. A caller of it must hand distantarm_cycle one number more, `low` behind
 * `offset`, 0 where there is none: whatever it is, the answers are the same. It must give a unit one byte more, DISTANTARM_LOW behind those
 * that it had, 0 in a unit that was stored; no other place has moved. And it must be compiled again: its call is short of a number, and all
 * that tells is that a unit of 266 bytes, or an answer of 6, which it may have, gets 255.
 *
 * What is proved is the library's source (crates/distantarm). Nothing checks these declarations against it but the test bench
 * (sh tools/interface). A bool is C's: a conversion to it makes 0 or 1, and no other byte may be passed.
 */
#ifndef DISTANTARM_H
#define DISTANTARM_H

#include <stdbool.h>
#include <stddef.h>
#include <stdint.h>

#ifdef __cplusplus
extern "C" {
#endif

/* ---- the interface's version: it goes up where a function is added, or a caller must change something */
#define DISTANTARM_INTERFACE 5

/* ---- sizes in bytes: a unit, a packed answer, a board's packed answer, and the room that any text of distantarm_list has */
#define DISTANTARM_UNIT_BYTES 267
#define DISTANTARM_ANSWER_BYTES 7
#define DISTANTARM_BOARD_ANSWER_BYTES 8
#define DISTANTARM_TEXT_BYTES 496012

/* ---- a trace: the bytes of its header and of a record, the most records, and the bytes of the longest trace */
#define DISTANTARM_HEAD_BYTES 7
#define DISTANTARM_RECORD_BYTES 4
#define DISTANTARM_RECORDS 16000
#define DISTANTARM_TRACE_BYTES 64007

/* ---- the most units that a board has: unit n stands at byte DISTANTARM_UNIT_BYTES * n of its bytes */
#define DISTANTARM_BOARD_UNITS 16

/* ---- a unit: where its registers stand, the bits of its notes, and where its 64 descriptors begin */
#define DISTANTARM_MR 0
#define DISTANTARM_SAR 1
#define DISTANTARM_DSCR 2
#define DISTANTARM_VTR 3
#define DISTANTARM_VSN 4
#define DISTANTARM_VOFF 5
#define DISTANTARM_BCSR 6
#define DISTANTARM_ISN 7
#define DISTANTARM_IOFF 8
#define DISTANTARM_NOTES 9
#define DISTANTARM_REQUEST 1
#define DISTANTARM_AWAIT 2
#define DISTANTARM_OWN 4
#define DISTANTARM_HOLD 8
#define DISTANTARM_TABLE 10

/* A descriptor has four bytes: base (high byte first), limit, attributes. */
#define DISTANTARM_DESCRIPTOR_BYTES 4

/* The low byte of the address that VSN and VOFF keep, stored in the same cycles. It stands last, behind the descriptors, so that no other
 * place moved when it came. No command shows it: read it here. */
#define DISTANTARM_LOW 266

/* ---- a packed answer: the letter of its kind, the number of a refusal or 0, address lines A23 to A16 and A15 to A8, the flags, the
 * data byte, the distance. Lines and a data byte that are not driven are 0. */
#define DISTANTARM_KIND 0
#define DISTANTARM_NUMBER 1
#define DISTANTARM_LINES_HIGH 2
#define DISTANTARM_LINES_LOW 3
#define DISTANTARM_FLAGS 4
#define DISTANTARM_BYTE 5

/* The distance: how many whole blocks remain between the accessed block and the last permitted one in the segment's direction. It is the
 * limit less the offset byte, or the offset byte less the limit with DIRW, and 0 in a length violation. Every answer of kind T has it, for
 * the CPU and for DMA, in other violations and under SUP too; all other answers have 0. It stands last, so that no other place moved when
 * it came. */
#define DISTANTARM_DISTANCE 6

/* A board's answer has one byte more: the number of the unit that drives the address, or whose own refusal, 1 to 4, the board gives. It is
 * DISTANTARM_NOBODY where there is none: in refusals 11, 12 and 13, in resets, acknowledges and commands, and where nobody drives. */
#define DISTANTARM_NAMED 7
#define DISTANTARM_NOBODY 255

/* flags: the address lines are driven, SUP is on, the trap line is on after the cycle, the data byte is driven */
#define DISTANTARM_ADDRESS 1
#define DISTANTARM_SUP 2
#define DISTANTARM_TRAP 4
#define DISTANTARM_DRIVES 8

/* kinds */
#define DISTANTARM_RESET 'R'
#define DISTANTARM_ACKNOWLEDGE 'A'
#define DISTANTARM_COMMAND 'C'
#define DISTANTARM_ABORTED 'F'
#define DISTANTARM_TRANSLATED 'T'
#define DISTANTARM_PASSED 'P'
#define DISTANTARM_IGNORED 'I'
#define DISTANTARM_REFUSED 'X'

/* ---- numbers that say no. 1 to 4 refuse a cycle, 5 to 8 a trace, 1, 7 and 10 a cycle that is to be recorded, 11 to 13 a cycle of a board;
 * 255 says that a buffer is too short, 10 that one for a trace is. */
#define DISTANTARM_OUT_OF_RANGE 1
#define DISTANTARM_DAMAGED 2
#define DISTANTARM_UNLISTED 3
#define DISTANTARM_WRONG_WAY 4
#define DISTANTARM_NO_TRACE 5
#define DISTANTARM_VERSION 6
#define DISTANTARM_TOO_MANY 7
#define DISTANTARM_LENGTH 8
#define DISTANTARM_SHORT 10
#define DISTANTARM_WRONG_COUNT 11
#define DISTANTARM_TWO_DRIVE 12
#define DISTANTARM_SEVERAL_READ 13
#define DISTANTARM_NO_ROOM 255

/* Puts the unit at power-on, all zero and false, into the first 267 bytes of `unit`, and gives 0.
 * Where `unit` is shorter it gives 255 and leaves it as it was. */
uint8_t distantarm_power_on(uint8_t *unit, size_t unit_length);

/* One bus cycle. The packed answer stands in the first 7 bytes of `answer` and the unit after the cycle in the first 267 of `unit`.
 *
 *   status    0 to 15            read, normal, dma   read and not write, normal and not system mode, DMA and not CPU
 *   segment   0 to 127           select              chip select
 *   offset    the byte on AD8 to AD15 in the address phase: the offset's high byte, or the command code
 *   low       the offset's low byte: a fault that stores VOFF keeps it, and nothing else reads it
 *   byte      the data byte      reset               the reset line
 *
 * It gives 0, or the number of the refusal, 1 to 4, as the answer has it too; a refusal drives nothing, shows the trap line as it was
 * and leaves every byte of the unit. Refusal 2, a damaged unit, is given for a notes byte above 15 as well as for SAR or BCSR above 63,
 * VSN or ISN above 127, DSCR above 3, or a VTR with SWW or FATL and no primary flag. Where a buffer is too short it gives 255, and both
 * are left as they were. */
uint8_t distantarm_cycle(uint8_t *unit, size_t unit_length, uint8_t *answer, size_t answer_length, uint8_t status, bool read, bool normal,
                         bool dma, bool select, uint8_t segment, uint8_t offset, uint8_t low, uint8_t byte, bool reset);

/* One bus cycle of a board of `count` units, 1 to 16: it goes to all of them. They stand in the first 267 * count bytes of `units`, unit 0
 * first; distantarm_power_on puts a unit at power-on into its own 267. The cycle is that of distantarm_cycle, but that each unit has a chip
 * select of its own, bit n of `selects` for unit n; bits past the count are looked at by nothing.
 *
 * What it gives, by the first of these that holds:
 *
 *   255       `answer` is shorter than 8 bytes. Both buffers are left as they were
 *   11        `count` is not 1 to 16, however long `units` is. `units` is left as it was. The answer names nobody, and has the trap line off
 *   255       `units` is shorter than 267 * count bytes. Both buffers are left as they were
 *   1 to 4    a unit's own refusal, with its own select: of the lowest unit that has one, which the answer names. Damage, refusal 2, is what
 *             it is in distantarm_cycle, a notes byte above 15 too
 *   12        two units would drive the address        13        a command read selects more than one unit
 *   0         else
 *
 * 1 to 4, 12 and 13 show the trap line on if any unit's request stood, drive nothing, and leave every byte of every unit. With 0 each unit
 * has been stepped where it stands, as distantarm_cycle steps it with its own select, and the answer joins theirs: SUP and the trap line
 * are on if any unit's is, the bytes that the units drive are joined by or, and the address, its kind and the distance are those of the
 * unit that drives it, which is named. Where nobody drives, an aborted fetch of any unit has kind F. Except for 255, the packed answer
 * stands in the first 8 bytes of `answer`, and has the same number. */
uint8_t distantarm_board_cycle(uint8_t *units, size_t units_length, uint8_t *answer, size_t answer_length, size_t count, uint8_t status,
                               bool read, bool normal, bool dma, uint8_t segment, uint8_t offset, uint8_t low, uint8_t byte, bool reset,
                               uint16_t selects);

/* Puts the text of a trace, as mmurun prints it, at the start of `text`, and gives its length in bytes; no text is empty, and none ends
 * with a zero byte. Where `text` is shorter than 496,012 bytes it gives 0 and leaves it as it was. It needs about 115,000 bytes of stack. */
size_t distantarm_list(const uint8_t *trace, size_t trace_length, uint8_t *text, size_t text_length);

/* The recorder: from cycles one after another it fills a buffer with a trace that mmurun and distantarm_list read, cycle for cycle. The
 * trace is the first 7 + 4 * count bytes of `trace`: in a file they are a capture. From a start that gave 0 on it is a whole one after every
 * call, after a refused one too, where each call is given buffer and count as the one before it left them; what each call gives and leaves
 * holds for any.
 *
 * distantarm_record_start puts the header of a trace without records into the first 7 bytes, and gives 0. Where `trace` is shorter it gives
 * 10 and leaves it as it was. *count becomes 0 in both. */
uint8_t distantarm_record_start(uint8_t *trace, size_t trace_length, size_t *count);

/* Records one more cycle. Its parameters are those of distantarm_cycle; `low` is in no record, and is dropped. What it gives, by the first
 * of these that holds:
 *
 *   1         the cycle is out of its numbers: status above 15 or segment above 127, in a reset cycle too
 *   7         *count is 16,000 or more: with this cycle the trace would have more than 16,000 records
 *   10        `trace` is shorter than 7 + 4 * (*count + 1) bytes
 *   0         else: the record's four bytes stand from byte 7 + 4 * *count on, all seven bytes of the header are written anew, and *count
 *             is one more
 *
 * 1, 7 and 10 leave every byte of `trace`, and *count. The count of the header is not looked at, nor anything else that `trace` holds. */
uint8_t distantarm_record(uint8_t *trace, size_t trace_length, size_t *count, uint8_t status, bool read, bool normal, bool dma, bool select,
                          uint8_t segment, uint8_t offset, uint8_t low, uint8_t byte, bool reset);

#ifdef __cplusplus
}
#endif

#endif
