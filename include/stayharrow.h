/*
 * Stayharrow: from a column of up to 32,768 counts a record of its shape, two bits an entry; from the record
 * alone, where the leftmost smallest entry between two others stands. Link libstayharrow.a (bin/archive).
 *
 * Every function is proved to answer as said here for any bytes and numbers: no call is undefined for what
 * the lent memory holds, and a refusal leaves all of it as it was. What the caller owes is the memory itself:
 *   - a slice is a pointer and a length in elements; the pointer is aligned for its elements, is not null
 *     (a slice of length 0 may have any other address), and that many elements may be read, and written
 *     where it is not const;
 *   - for the length of the call nobody else writes what is lent, and a slice that is not const overlaps
 *     no other slice of the call.
 * The functions allocate nothing and keep nothing between calls, so any number of threads may call them.
 *
 * The answer is one number of 64 bits.
 *   bit 63 clear   the answer that the function names
 *   bit 63 set     a refusal:
 *     bits 0 to 7    its number, from the table below
 *     bits 8 to 39   its place where it has one, else 0 (no refusal has one today)
 *     bit 40         the drawer that gave it, 0 own and 1 shared (stayharrow_which alone; else 0)
 *   every other bit of a refusal is 0.
 */
#ifndef STAYHARROW_H
#define STAYHARROW_H

#include <stddef.h>
#include <stdint.h>

#ifdef __cplusplus
extern "C" {
#endif

/* The refusals. Each function gives them in the order that its comment names; the first fault decides. */
enum {
    STAYHARROW_TOO_MANY_ENTRIES = 1, /* n above 32,768 */
    STAYHARROW_OUTPUT_SHORT = 2,     /* output shorter than needed */
    STAYHARROW_WORK_SHORT = 3,       /* work shorter than n, or summary shorter than 896 */
    STAYHARROW_UNMARKED = 4,         /* mark not 52 4D (hex) */
    STAYHARROW_CUT_SHORT = 5,        /* bytes end before the head or the record does */
    STAYHARROW_UNUSED_BIT = 6,       /* an unused bit is 1 */
    STAYHARROW_UNBALANCED = 7,       /* the parentheses are not balanced */
    STAYHARROW_OUT_OF_RANGE = 8,     /* i > j, or j >= n, or outside the window */
    STAYHARROW_FOREIGN = 9,          /* quick ask only: the summary is not this record's */
    STAYHARROW_NO_RECORD = 10,       /* the drawer has no such record */
    STAYHARROW_BYTES_AFTER = 11,     /* bytes after a single record */
    STAYHARROW_DRAWER_LONG = 12,     /* drawer or its buffer above 65,536 bytes */
    STAYHARROW_USED_WRONG = 13,      /* used length past the buffer, or used bytes not whole framed records */
    STAYHARROW_DRAWER_FULL = 14      /* 64 records stand already, or more */
};

enum {
    STAYHARROW_MOST_ENTRIES = 32768,
    STAYHARROW_SUMMARY_NUMBERS = 896,
    STAYHARROW_MOST_DRAWER_BYTES = 65536,
    STAYHARROW_MOST_DRAWER_RECORDS = 64
};

/* Lengths and places are numbers of 64 bits. */
typedef char stayharrow_wants_64_bits[sizeof(size_t) == 8 ? 1 : -1];

/* ---- Records ---- */

/*
 * Writes the record of a column of n counts at the start of out, and nothing past it; answers its length,
 * stayharrow_record_length(n). The first n work numbers end at 0, the rest stay. Of equal counts the
 * leftmost is the smallest. Time in proportion to n.
 * Refusals: 1; 2 for out; 3 for work.
 */
uint64_t stayharrow_build(const uint32_t *column, size_t column_length, uint16_t *work, size_t work_length,
                          uint8_t *out, size_t out_length);

/*
 * The record check: answers 0 where the bytes are one whole record, with no unused bit set and with balanced
 * parentheses. Reads each byte once.
 * Refusals: 5 for fewer than 4 bytes; 4; 1; 5; 11; 6; 7.
 */
uint64_t stayharrow_check(const uint8_t *record, size_t record_length);

/*
 * Fills the first 896 numbers of the summary, which make asks quick; a longer slice keeps what follows.
 * Answers 0. Time in proportion to n.
 * Refusals: the record check's; 3 for a summary shorter than 896.
 */
uint64_t stayharrow_fill(const uint8_t *record, size_t record_length, uint16_t *summary, size_t summary_length);

/*
 * Answers the place of the leftmost smallest entry from i to j, both counted in, of the column whose record
 * this is. Entries are numbered from 0. Time in proportion to n.
 * Refusals: the record check's; 8.
 */
uint64_t stayharrow_ask(const uint8_t *record, size_t record_length, size_t i, size_t j);

/*
 * The same from the record and the summary that stayharrow_fill has filled from it: stayharrow_ask's answer,
 * in a handful of blocks whatever n is. It reads the record's head and those blocks, and does not check the
 * rest. Where the record would fail its check or the first 896 numbers are not its summary, it answers some
 * place from i to j, or refuses with 9; with 9 always where summary number 768 + i / 256 or 768 + j / 256
 * names a block that the record has not got.
 * Refusals: 5 for fewer than 4 bytes; 4; 1; 5; 11; 3 for a summary shorter than 896; 8; 9.
 */
uint64_t stayharrow_quick_ask(const uint8_t *record, size_t record_length, const uint16_t *summary,
                              size_t summary_length, size_t i, size_t j);

/*
 * Writes a column that has this record to the first n numbers, and no others; answers n. Its counts are the
 * excesses just after each closing parenthesis: the record holds the column's order, never its counts.
 * Refusals: the record check's; 2 for fewer than n numbers.
 */
uint64_t stayharrow_stand_in(const uint8_t *record, size_t record_length, uint32_t *column, size_t column_length);

/* ---- Drawers: records one after another with nothing between ---- */

/*
 * Answers place * 2^32 + length of record r of a drawer: stayharrow_found_place and stayharrow_found_length
 * take it apart. Reads the heads of records 0 to r alone, and judges no bit inside.
 * Refusals: 12; 10 for r of 64 or more; then the first fault of the frames from record 0 through r (5, 4, 1,
 * 5); 10 where the drawer ends before record r.
 */
uint64_t stayharrow_find(const uint8_t *drawer, size_t drawer_length, size_t r);

/*
 * Which drawer a look for record r takes its part from: 0 the own one, where it has a record r with entries;
 * 1 the shared one, where the own has none (10) or one without entries.
 * Refusals: find's, of the drawer that bit 40 names.
 */
uint64_t stayharrow_which(const uint8_t *own, size_t own_length, const uint8_t *shared, size_t shared_length,
                          size_t r);

/*
 * Writes the record of a column behind the used bytes of a drawer's buffer, changes no other byte of it, and
 * answers the new used length. The work ends as in stayharrow_build.
 * Refusals: 12 for the buffer's length; 13; 14; 1; 2 for the room behind the used bytes; 3.
 */
uint64_t stayharrow_append(uint8_t *buffer, size_t buffer_length, size_t used, const uint32_t *column,
                           size_t column_length, uint16_t *work, size_t work_length);

/* ---- Windows: a record beside the first and last entry that may be asked about ---- */

/*
 * Answers 0 where a window on the record from entry first to entry last stands.
 * Refusals: the record check's; 8 for first > last and for last >= n.
 */
uint64_t stayharrow_window(const uint8_t *record, size_t record_length, size_t first, size_t last);

/*
 * An ask in that window: the place that stayharrow_ask answers, where i and j lie from first to last.
 * Refusals: 5 where the window is refused, for it has no bytes; 8.
 */
uint64_t stayharrow_window_ask(const uint8_t *record, size_t record_length, size_t first, size_t last, size_t i,
                               size_t j);

/* ---- Reading an answer ---- */

static inline int stayharrow_is_refusal(uint64_t answer) { return (int)(answer >> 63); }

/* A refusal's number, from 1 to 14; 0 where the answer is none. */
static inline int stayharrow_refusal(uint64_t answer) {
    return stayharrow_is_refusal(answer) ? (int)(answer & 0xFF) : 0;
}

/* A refusal's place, 0 where it has none. */
static inline uint32_t stayharrow_refusal_place(uint64_t refusal) { return (uint32_t)(refusal >> 8); }

/* The drawer that gave a refusal of stayharrow_which: 0 own, 1 shared. */
static inline int stayharrow_refusal_drawer(uint64_t refusal) { return (int)(refusal >> 40 & 1); }

/* Place and length of what stayharrow_find found. */
static inline size_t stayharrow_found_place(uint64_t answer) { return (size_t)(answer >> 32); }
static inline size_t stayharrow_found_length(uint64_t answer) { return (size_t)(answer & 0xFFFFFFFF); }

/* The bytes of a record of n entries. */
static inline size_t stayharrow_record_length(size_t n) { return 4 + n / 4 + (n % 4 != 0); }

#ifdef __cplusplus
}
#endif

#endif
