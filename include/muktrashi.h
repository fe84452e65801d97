/* Muktrashi: a proved monitor for a pool's touch-pad board. docs/FIRMWARE.md tells how to build the library for a processor and what a caller sees to.
 *
 * A rule table in past-time metric temporal logic, lent as a row of 32-bit numbers, five per row: kind, x, y, a, b; 1 to 256 rows, counted from 0. A list
 * of the rows that are judged, lent as a row of 32-bit row numbers; 1 to 16, strictly rising. Every row is reached from a listed one: a listed row is
 * reached, and so is a row that a reached row names. A store, lent as a row of 64-bit words. A record, which the caller keeps. docs/RULES.md tells how to
 * write a rule.
 *
 * Every function answers every input, however damaged, with one code. The library has no data of its own and keeps no pointer: calls may run at the same
 * time, and one may interrupt another, if no two share a store or a record.
 *
 * Lengths and places are uint64_t on every processor; they count numbers, words and bytes, never the bytes of a number. A pointer to a row (table, list,
 * store, text) is aligned for its numbers and points at as many as the length beside it says; with length 0 it may be null, and means an empty table, list,
 * store or text. Any other pointer points at one record or number, aligned, and is not null. What a call may write (store, record, single numbers) overlaps
 * nothing else that the call is lent. No call can test any of this: a null, unaligned or overlapping pointer, or a length that is too great, is outside
 * every promise.
 *
 * Between calls leave table, store and record to the monitor. What was changed in between is refused (1 to 4, 10, 11 or 7) or, if it is still sound,
 * answered from the spans and truths found. The list may be another with each call: it says which truths are told, and one that leaves a row unreached is
 * refused 11.
 */
#ifndef MUKTRASHI_H
#define MUKTRASHI_H

#include <stddef.h>
#include <stdint.h>

#ifdef __cplusplus
extern "C" {
#endif

/* Raised whenever the record, a code or what a function takes changes; muk_version answers the library's. */
#define MUK_VERSION 6

/* The most rows that a table has. */
#define MUK_ROWS 256
/* The most row numbers that a list has. */
#define MUK_LIST 16

/* 2,336 bytes, whatever the table: entries past its rows are 0. `seen` and `truths` are 0 or 1; a record with any other byte there is not sound (7). Padding
 * between fields is nobody's: compare records field by field.
 *
 * A row of kind 6, 7 or 8 owns a stretch of the store, in row order; one for p spans has p places of two words, a span's first and last millisecond. The
 * row's spans stand rising from its first place round: the i-th, i from 0, at place (first place + i) modulo p. Free places hold 0 in both words. Each span
 * that ends moves the first place one on, round, and no other span; a row that is left without spans begins again at place 0. A first place at or past p, or
 * above 0 where the row has no span, is not sound (7). */
typedef struct {
    uint8_t seen;              /* whether an event was seen; a heartbeat is none */
    uint64_t clock;            /* the time of the last accepted call, heartbeats too; 0 before any */
    uint64_t last;             /* the time of the last event; 0 before any */
    uint32_t rows;             /* the row count */
    uint8_t truths[MUK_ROWS];  /* each row's truth at the last event */
    uint32_t counts[MUK_ROWS]; /* each row's span count */
    uint32_t firsts[MUK_ROWS]; /* each row's first place: where in its stretch its oldest span stands; 0 where it has none */
} muk_record;

/* The library is compiled for this layout; a compiler that has another is refused. */
#if defined(__cplusplus) && __cplusplus >= 201103L
#define MUK_HOLDS(fact) static_assert(fact, "the library has another layout of muk_record")
#elif defined(__STDC_VERSION__) && __STDC_VERSION__ >= 201112L
#define MUK_HOLDS(fact) _Static_assert(fact, "the library has another layout of muk_record")
#endif
#ifdef MUK_HOLDS
MUK_HOLDS(sizeof(muk_record) == 2336);
MUK_HOLDS(offsetof(muk_record, seen) == 0);
MUK_HOLDS(offsetof(muk_record, clock) == 8);
MUK_HOLDS(offsetof(muk_record, last) == 16);
MUK_HOLDS(offsetof(muk_record, rows) == 24);
MUK_HOLDS(offsetof(muk_record, truths) == 28);
MUK_HOLDS(offsetof(muk_record, counts) == 284);
MUK_HOLDS(offsetof(muk_record, firsts) == 1308);
#undef MUK_HOLDS
#endif

/* The refusals, in the order in which they are tried. 2, 3 and 11 give the row; among rows the first bad one decides, of dead ones the lowest. A refused
 * call leaves every word of the store, every field of the record and every single number as it was, but for two: a refused start leaves an all-zero record,
 * and a refused line moves the place. */
enum {
    MUK_BAD_LENGTH = 1,  /* the table's length is not a multiple of 5, or its rows are not 1 to 256 */
    MUK_BAD_ROW = 2,     /* a row: kind over 8, x or y not lower, bit over 30, unused number not 0 */
    MUK_BAD_LIMITS = 3,  /* a row passes 2, but a is over 86,400,000, or b is not a to 86,400,000 or 4,294,967,295 ("no end") */
    MUK_BAD_LIST = 10,   /* the list is not 1 to 16 numbers, strictly rising, each below the table's row count */
    MUK_DEAD_ROW = 11,   /* a row is dead: reached from no listed row */
    MUK_SHORT_STORE = 4, /* the store is shorter than the need */
    MUK_UNSOUND = 7,     /* the record, or what the store holds beside it, is not sound */
    MUK_LATE = 6,        /* the time is over 281,474,976,710,655 */
    MUK_EARLIER = 5,     /* the time is below the clock */
    MUK_BAD_LINE = 8,    /* a place before the end, but no 14 digits 0-9 A-F and line feed there */
    MUK_BAD_SUM = 9      /* a line that is well formed, its sum wrong */
};

/* A code: bits 16 to 23 are a refusal's number, 0 where nothing is refused. Bits 0 to 15 are then what the call says of itself (a verdict, a bit for each
 * listed row; whether a frame was read); of a refusal they are its row, 0 where it has none. Bit 31 alone is "clock moved", the answer to a heartbeat; in
 * every other code it is 0. Bits 24 to 30 are 0. */
#define MUK_MOVED 0x80000000u

/* These take a code apart. Ask for the refusal, then whether the clock moved, then for the verdict: a verdict of 0 is "no" of every listed row only where
 * both are 0. */
static inline uint32_t muk_refusal(uint32_t code) { return (code >> 16) & 0xFFu; }
static inline int muk_moved(uint32_t code) { return (code & MUK_MOVED) != 0; }
static inline uint32_t muk_row(uint32_t code) { return muk_refusal(code) != 0 ? code & 0xFFFFu : 0u; }
static inline uint32_t muk_verdict(uint32_t code) { return muk_refusal(code) != 0 ? 0u : code & 0xFFFFu; }

/* The library's version, which is MUK_VERSION where header and library belong together. This one is no code. */
uint32_t muk_version(void);

/* The table check: refusals 1 to 3, or 0, and the row count and the need in words are written. It has no list, so it finds no row dead. The need is the
 * sum over the rows of kinds 6, 7 and 8 of two words for each span: floor(b/(b-a+2))+1 spans, or 1 when b has no end. It is always enough. */
uint32_t muk_check(const uint32_t *table, uint64_t table_len, uint32_t *rows, uint64_t *need);

/* A start: refusals 1 to 3, 10, 11 and 4, or 0. A good start writes 0 to every word of the need and makes the record one that has seen no event, its clock
 * 0; what the record held does not matter. A refused one leaves the store, and the record all zero. Words past the need are never written, by any call,
 * and nothing depends on them. */
uint32_t muk_start(const uint32_t *table, uint64_t table_len, const uint32_t *list, uint64_t list_len, uint64_t *store, uint64_t store_len,
                   muk_record *record);

/* A mask with this bit makes its call a heartbeat; a rule that names bit 31 is refused 2. */
#define MUK_HEARTBEAT 0x80000000u

/* One event, its time in whole milliseconds and its mask: refusals 1 to 3, 10, 11 and 4, then 7, 6, 5, or the verdict: bit k is 1 where the k-th listed
 * row, k from 0, is true at this event, all other bits are 0. A time that equals the clock is accepted. The record is changed where it stands, and it has
 * every row's truth, listed or not.
 *
 * A heartbeat is no event; the other bits of its mask are ignored. The same refusals, or MUK_MOVED: the clock moves to its time, and every row's spans are
 * clipped there (ended ones are dropped, the first begins no earlier); `seen`, `last` and the truths stay. So "previous" (kind 5) measures from the last
 * event, and "since" (kind 6) does not break. Before any event the clock alone moves. */
uint32_t muk_event(const uint32_t *table, uint64_t table_len, const uint32_t *list, uint64_t list_len, uint64_t *store, uint64_t store_len,
                   muk_record *record, uint64_t time, uint32_t mask);

/* The same for a frame, whose time follows from its counter: clock + ((counter - clock) modulo 65,536), which for the first is its counter. Frames come
 * in order and at most 65,535 ms apart, events and heartbeats alike. The board's heartbeats, every 30 s, see to that, so hand them all on: a longer gap
 * between two accepted frames loses turns of 65,536 ms. A counter that steps back by 1 reads as 65,535 ms ahead. */
uint32_t muk_frame(const uint32_t *table, uint64_t table_len, const uint32_t *list, uint64_t list_len, uint64_t *store, uint64_t store_len,
                   muk_record *record, uint16_t counter, uint32_t mask);

/* The time of a frame where the clock is `clock` (0 after a start): refusal 6 where that is over 281,474,976,710,655; otherwise 0, and the time is
 * written. It may pass that limit by up to 65,535; a call at such a time is refused 6. */
uint32_t muk_frame_time(uint64_t clock, uint16_t counter, uint64_t *time);

/* What muk_read_frame answers where nothing is refused. */
#define MUK_END 0
#define MUK_FRAME 1

/* The line at a place in a text of frames: counter (4 digits), mask (8), sum (2) of the six bytes modulo 256, line feed; hexadecimal, capitals only.
 * A place at or past the end answers MUK_END, place unchanged. After a good line the answer is MUK_FRAME, counter and mask are written and the place moves
 * 15. After 8 or 9 it moves past the first line feed at or after it, or to the end if there is none. A line that the text's end cuts off is refused 8:
 * hand over whole lines. */
uint32_t muk_read_frame(const uint8_t *text, uint64_t text_len, uint64_t *place, uint16_t *counter, uint32_t *mask);

#ifdef __cplusplus
}
#endif

#endif
