/* Each function that include/muktrashi.h declares, with an answer that is known and with a refusal, what refused calls and heartbeats leave, where a stretch
 * holds its spans, and where each field of the record lies. examples/board.c calls four of the functions, and tests/board/reference/ has declarations of its
 * own. */
#include <stdio.h>
#include <string.h>

#include "muktrashi.h"

static int failures;

static void same(const char *what, uint64_t found, uint64_t wanted) {
    if (found != wanted) {
        fprintf(stderr, "header.c: %s is %llu, not %llu\n", what, (unsigned long long)found, (unsigned long long)wanted);
        failures++;
    }
}

#define SAME(found, wanted) same(#found, (uint64_t)(found), (uint64_t)(wanted))
#define AT(field, place, size) \
    same("the place of " #field, (uint64_t)offsetof(muk_record, field), place), same("the size of " #field, (uint64_t)sizeof one.field, size)

static void layout(void) {
    static const muk_record one;
    SAME(sizeof one, 2336);
    AT(seen, 0, 1);
    AT(clock, 8, 8);
    AT(last, 16, 8);
    AT(rows, 24, 4);
    AT(truths, 28, MUK_ROWS);
    AT(counts, 284, 4 * MUK_ROWS);
    AT(firsts, 1308, 4 * MUK_ROWS);
}

/* Bit 0 exactly 2 ms ago. */
static const uint32_t rules[] = {1, 0, 0, 0, 0, 0, 0, 0, 0, 0, 6, 1, 0, 2, 2};
/* The same, but its last row names itself: refusal 2, row 2; or has a over b: refusal 3, row 2. */
static const uint32_t bad_row[] = {1, 0, 0, 0, 0, 0, 0, 0, 0, 0, 6, 1, 2, 2, 2};
static const uint32_t bad_limits[] = {1, 0, 0, 0, 0, 0, 0, 0, 0, 0, 6, 1, 0, 2, 1};

/* The list of the last row alone. */
static const uint32_t list[] = {2};

#define NUMBERS (sizeof rules / sizeof rules[0])
#define RULES rules, NUMBERS, list, 1
#define NEED 4
/* The word past the need. */
#define PAST UINT64_C(0x5A5A5A5A5A5A5A5A)
/* A mask with bit 0 and a time that narrower numbers have no room for. */
#define MASK UINT32_C(0x10001)
#define TIME UINT64_C(5000000000)
#define TIME_LIMIT UINT64_C(281474976710655)
/* What a number that is cut to 32 bits loses. Only a test may lend a row by such a length: these calls end, or need no more, before its end. */
#define HIGH UINT64_C(0x100000000)
/* What the single numbers hold where a call must leave them. */
#define ODD16 UINT16_C(0xBEEF)
#define ODD32 UINT32_C(0xDEADBEEF)
#define ODD64 UINT64_C(0xDEADBEEFCAFEF00D)

static uint64_t store[NEED + 1];
static muk_record record;

static uint32_t refusal(uint32_t number, uint32_t row) {
    return number << 16 | row;
}

static void start(void) {
    int row;
    memset(&record, 0xFF, sizeof record);
    memset(store, 0xFF, sizeof store);
    store[NEED] = PAST;
    SAME(muk_start(RULES, store, NEED + 1, &record), 0);
    SAME(record.seen, 0);
    SAME(record.clock, 0);
    SAME(record.last, 0);
    SAME(record.rows, 3);
    for (row = 0; row < MUK_ROWS; row++) {
        SAME(record.truths[row], 0);
        SAME(record.counts[row], 0);
        SAME(record.firsts[row], 0);
    }
    for (row = 0; row < NEED; row++)
        SAME(store[row], 0);
    SAME(store[NEED], PAST);
}

/* After the second of two events or frames with bit 0, 2 ms apart: the spans are `time` and `time` + 2, the older at this place, the newer at the other. */
static void second_at(int place, const char *function, uint32_t code, uint64_t time) {
    int before = failures, row;
    SAME(code, 1);
    SAME(muk_refusal(code), 0);
    SAME(muk_moved(code), 0);
    SAME(muk_verdict(code), 1);
    SAME(record.seen, 1);
    SAME(record.clock, time);
    SAME(record.last, time);
    SAME(record.rows, 3);
    for (row = 0; row < MUK_ROWS; row++) {
        SAME(record.truths[row], row < 3 ? 1 : 0);
        SAME(record.counts[row], row == 2 ? 2 : 0);
        SAME(record.firsts[row], row == 2 ? place : 0);
    }
    SAME(store[2 * place], time);
    SAME(store[2 * place + 1], time);
    SAME(store[2 - 2 * place], time + 2);
    SAME(store[3 - 2 * place], time + 2);
    SAME(store[NEED], PAST);
    if (failures > before)
        fprintf(stderr, "header.c: this was %s\n", function);
}

/* The same where the older is at the stretch's begin, as it is after a start. */
static void second(const char *function, uint32_t code, uint64_t time) {
    second_at(0, function, code, time);
}

static void same_records(const muk_record *found, const muk_record *wanted) {
    int row;
    SAME(found->seen, wanted->seen);
    SAME(found->clock, wanted->clock);
    SAME(found->last, wanted->last);
    SAME(found->rows, wanted->rows);
    for (row = 0; row < MUK_ROWS; row++) {
        SAME(found->truths[row], wanted->truths[row]);
        SAME(found->counts[row], wanted->counts[row]);
        SAME(found->firsts[row], wanted->firsts[row]);
    }
}

/* An event, a frame and their heartbeats that are refused alike and leave store and record. */
static void refused(uint32_t number, uint32_t row, const uint32_t *table, uint64_t table_len, const uint32_t *rows, uint64_t rows_len, uint64_t store_len,
                    uint64_t time, uint16_t counter) {
    int before = failures;
    muk_record record_before = record;
    uint64_t store_before[NEED + 1];
    memcpy(store_before, store, sizeof store);
    SAME(muk_event(table, table_len, rows, rows_len, store, store_len, &record, time, MASK), refusal(number, row));
    SAME(muk_event(table, table_len, rows, rows_len, store, store_len, &record, time, MASK | MUK_HEARTBEAT), refusal(number, row));
    SAME(muk_frame(table, table_len, rows, rows_len, store, store_len, &record, counter, MASK), refusal(number, row));
    SAME(muk_frame(table, table_len, rows, rows_len, store, store_len, &record, counter, MASK | MUK_HEARTBEAT), refusal(number, row));
    SAME(memcmp(store_before, store, sizeof store), 0);
    same_records(&record, &record_before);
    if (failures > before)
        fprintf(stderr, "header.c: this was refusal %u\n", (unsigned)number);
}

static void codes(void) {
    SAME(MUK_VERSION, 6);
    SAME(muk_version(), MUK_VERSION);
    SAME(MUK_HEARTBEAT, UINT32_C(1) << 31);
    SAME(MUK_MOVED, UINT32_C(1) << 31);
    SAME(MUK_LIST, 16);
    SAME(MUK_BAD_LIST, 10);
    SAME(MUK_DEAD_ROW, 11);
    SAME(refusal(MUK_DEAD_ROW, 255), 0xB00FF);
    SAME(muk_refusal(refusal(MUK_BAD_LIMITS, 255)), 3);
    SAME(muk_row(refusal(MUK_BAD_LIMITS, 255)), 255);
    SAME(muk_verdict(refusal(MUK_BAD_LIMITS, 255)), 0);
    SAME(muk_moved(refusal(MUK_BAD_LIMITS, 255)), 0);
    SAME(muk_verdict(0xFFFF), 0xFFFF);
    SAME(muk_refusal(0xFFFF), 0);
    SAME(muk_moved(0xFFFF), 0);
    SAME(muk_row(0xFFFF), 0);
    SAME(muk_row(1), 0);
    SAME(muk_moved(1), 0);
    SAME(muk_moved(0), 0);
    SAME(muk_moved(MUK_MOVED), 1);
    SAME(muk_refusal(MUK_MOVED), 0);
    SAME(muk_row(MUK_MOVED), 0);
    SAME(muk_verdict(MUK_MOVED), 0);
}

static void checks(void) {
    static const uint32_t bit_30[] = {1, 30, 0, 0, 0}, bit_31[] = {1, 31, 0, 0, 0};
    uint32_t rows = ODD32;
    uint64_t need = ODD64;
    SAME(muk_check(NULL, 0, &rows, &need), refusal(MUK_BAD_LENGTH, 0));
    SAME(muk_check(rules, NUMBERS - 1, &rows, &need), refusal(MUK_BAD_LENGTH, 0));
    SAME(muk_check(rules, HIGH * 5 + NUMBERS, &rows, &need), refusal(MUK_BAD_LENGTH, 0));
    SAME(muk_check(bad_row, NUMBERS, &rows, &need), refusal(MUK_BAD_ROW, 2));
    SAME(muk_check(bad_limits, NUMBERS, &rows, &need), refusal(MUK_BAD_LIMITS, 2));
    SAME(muk_check(bit_31, 5, &rows, &need), refusal(MUK_BAD_ROW, 0));
    SAME(rows, ODD32);
    SAME(need, ODD64);
    SAME(muk_check(bit_30, 5, &rows, &need), 0);
    SAME(muk_check(rules, NUMBERS, &rows, &need), 0);
    SAME(rows, 3);
    SAME(need, NEED);
}

static void starts(void) {
    static const muk_record zero;
    static const uint32_t holds[] = {0, 0, 0, 0, 0}, first[] = {0};
    uint64_t odd[NEED] = {ODD64, ODD64, ODD64, ODD64};
    start();
    SAME(muk_start(bad_limits, NUMBERS, list, 1, odd, NEED, &record), refusal(MUK_BAD_LIMITS, 2));
    same_records(&record, &zero);
    start();
    SAME(muk_start(RULES, odd, NEED - 1, &record), refusal(MUK_SHORT_STORE, 0));
    same_records(&record, &zero);
    SAME(odd[0], ODD64);
    SAME(odd[NEED - 1], ODD64);
    SAME(muk_start(RULES, odd, HIGH, &record), 0);
    SAME(odd[NEED - 1], 0);
    /* A need of 0 is met by no store at all. */
    SAME(muk_start(holds, 5, first, 1, NULL, 0, &record), 0);
    SAME(record.rows, 1);
    SAME(muk_event(holds, 5, first, 1, NULL, 0, &record, 0, 0), 1);
}

static void events(void) {
    start();
    SAME(muk_event(RULES, store, NEED + 1, &record, TIME, MASK), 0);
    second("muk_event", muk_event(RULES, store, NEED + 1, &record, TIME + 2, MASK), TIME + 2);
    SAME(muk_event(RULES, store, NEED, &record, TIME + 1, MASK), refusal(MUK_EARLIER, 0));
    second("muk_event, then one that is refused", 1, TIME + 2);

    start();
    SAME(muk_frame(RULES, store, NEED, &record, 65535, MASK), 0);
    second("muk_frame", muk_frame(RULES, store, NEED, &record, 1, MASK), 65537);

    refused(MUK_BAD_LENGTH, 0, NULL, 0, list, 1, NEED, 65537, 1);
    refused(MUK_BAD_LENGTH, 0, rules, HIGH * 5 + NUMBERS, list, 1, NEED, 65537, 1);
    refused(MUK_BAD_ROW, 2, bad_row, NUMBERS, list, 1, NEED, 65537, 1);
    refused(MUK_BAD_LIMITS, 2, bad_limits, NUMBERS, list, 1, NEED, 65537, 1);
    refused(MUK_SHORT_STORE, 0, RULES, NEED - 1, 65537, 1);
    record.truths[MUK_ROWS - 1] = 255;
    refused(MUK_UNSOUND, 0, RULES, NEED, 65537, 1);
    record.truths[MUK_ROWS - 1] = 0;
    store[3]++;
    refused(MUK_UNSOUND, 0, RULES, NEED, 65537, 1);

    start();
    SAME(muk_event(RULES, store, HIGH, &record, TIME_LIMIT, MASK), 0);
    refused(MUK_LATE, 0, RULES, NEED, TIME_LIMIT + 1, 0);
}

/* Refused 10 for their list: a start, an event, a frame and their heartbeats, also where the record is not sound and the store too short; but after 3. */
static void bad_list(const uint32_t *rows, uint64_t rows_len) {
    static const muk_record zero;
    start();
    refused(MUK_BAD_LIST, 0, rules, NUMBERS, rows, rows_len, NEED, 1, 1);
    store[0] = ODD64;
    SAME(muk_start(rules, NUMBERS, rows, rows_len, store, NEED, &record), refusal(MUK_BAD_LIST, 0));
    SAME(store[0], ODD64);
    same_records(&record, &zero);
    refused(MUK_BAD_LIST, 0, rules, NUMBERS, rows, rows_len, NEED - 1, 1, 1);
    refused(MUK_BAD_LIMITS, 2, bad_limits, NUMBERS, rows, rows_len, NEED - 1, 1, 1);
}

static void lists(void) {
    static const uint32_t all[] = {0, 1, 2}, one_and_two[] = {1, 2};
    static const uint32_t falling[] = {1, 0}, equal[] = {1, 1}, over[] = {1, 3}, far_over[] = {UINT32_MAX}, cut[] = {UINT32_C(0x10001)};
    uint32_t bits[5 * 17], rows[17], row;

    /* Another list with each call: another verdict, the same record. */
    start();
    SAME(muk_event(rules, NUMBERS, all, 3, store, NEED + 1, &record, TIME, MASK), 3);
    SAME(muk_event(rules, NUMBERS, one_and_two, 2, store, NEED + 1, &record, TIME, MASK), 1);
    SAME(muk_event(rules, NUMBERS, all, 3, store, NEED + 1, &record, TIME, MASK | MUK_HEARTBEAT), MUK_MOVED);
    SAME(muk_event(rules, NUMBERS, all, 3, store, NEED + 1, &record, TIME + 2, MASK), 7);
    second("muk_event with lists", 1, TIME + 2);
    SAME(muk_frame(rules, NUMBERS, one_and_two, 2, store, NEED + 1, &record, (uint16_t)(TIME + 2), 0), 3);

    bad_list(NULL, 0);
    bad_list(list, HIGH + 1);
    bad_list(falling, 2);
    bad_list(equal, 2);
    bad_list(over, 2);
    bad_list(far_over, 1);
    bad_list(cut, 1);

    /* Sixteen bits of a verdict; a seventeenth number is one too many. Row 16, "not row 0", reaches row 0. */
    memset(bits, 0, sizeof bits);
    for (row = 0; row < 17; row++) {
        bits[5 * row] = 1;
        bits[5 * row + 1] = rows[row] = row;
    }
    SAME(muk_start(bits, 5 * 16, rows, MUK_LIST, NULL, 0, &record), 0);
    SAME(muk_event(bits, 5 * 16, rows, MUK_LIST, NULL, 0, &record, 0, 0xFA5A5), 0xA5A5);
    SAME(muk_event(bits, 5 * 16, rows, MUK_LIST, NULL, 0, &record, 0, 0xFFFFF), 0xFFFF);
    bits[5 * 16] = 2;
    bits[5 * 16 + 1] = 0;
    SAME(muk_start(bits, 5 * 17, rows + 1, MUK_LIST, NULL, 0, &record), 0);
    SAME(muk_event(bits, 5 * 17, rows + 1, MUK_LIST, NULL, 0, &record, 0, 0xA5A4), 0xD2D2);
    SAME(muk_event(bits, 5 * 17, rows, MUK_LIST, NULL, 0, &record, 0, 0xFFFF), refusal(MUK_DEAD_ROW, 16));
    SAME(muk_event(bits, 5 * 17, rows, 17, NULL, 0, &record, 0, 0xFFFF), refusal(MUK_BAD_LIST, 0));
    SAME(muk_start(bits, 5 * 17, rows, 17, NULL, 0, &record), refusal(MUK_BAD_LIST, 0));
}

/* True; bit 0; not row 0; then each row "not" the one above it. A small board has no room for them but in read-only memory. */
#define NOT(x) 2, x, 0, 0, 0
#define FOUR(x) NOT(x), NOT(x + 1), NOT(x + 2), NOT(x + 3)
#define SIXTEEN(x) FOUR(x), FOUR(x + 4), FOUR(x + 8), FOUR(x + 12)
#define SIXTY_FOUR(x) SIXTEEN(x), SIXTEEN(x + 16), SIXTEEN(x + 32), SIXTEEN(x + 48)
static const uint32_t most[5 * MUK_ROWS] = {0, 0, 0, 0, 0, 1, 0, 0, 0, 0, NOT(0), SIXTY_FOUR(2), SIXTY_FOUR(66), SIXTY_FOUR(130),
                                            SIXTEEN(194), SIXTEEN(210), SIXTEEN(226), FOUR(242), FOUR(246), FOUR(250), NOT(254)};

/* Refused 11 with this row, and after 10, for a table that passes the check: a start, an event, a frame and their heartbeats, also where the store is too
 * short and the record is not sound. What the record and the store hold is what `start` leaves. */
static void dead(uint32_t row, const uint32_t *table, uint64_t table_len, const uint32_t *rows, uint64_t rows_len) {
    static const uint32_t no_row[] = {UINT32_MAX};
    static const muk_record zero;
    uint32_t count = ODD32;
    uint64_t need = ODD64;
    SAME(muk_check(table, table_len, &count, &need), 0);
    SAME(count, table_len / 5);
    start();
    refused(MUK_DEAD_ROW, row, table, table_len, rows, rows_len, NEED, 1, 1);
    refused(MUK_DEAD_ROW, row, table, table_len, rows, rows_len, 0, TIME_LIMIT + 1, 1);
    refused(MUK_BAD_LIST, 0, table, table_len, no_row, 1, NEED, 1, 1);
    record.rows = MUK_ROWS + 1;
    refused(MUK_DEAD_ROW, row, table, table_len, rows, rows_len, NEED, 1, 1);
    store[0] = ODD64;
    SAME(muk_start(table, table_len, rows, rows_len, store, NEED, &record), refusal(MUK_DEAD_ROW, row));
    SAME(store[0], ODD64);
    SAME(store[NEED], PAST);
    same_records(&record, &zero);
    SAME(muk_start(table, table_len, rows, rows_len, NULL, 0, &record), refusal(MUK_DEAD_ROW, row));
    same_records(&record, &zero);
}

static void dead_rows(void) {
    /* Two bits, and a row that names both; that names row 1, since the y of "once" is no row; that names row 0 twice. A bit alone names no row. */
    static const uint32_t named[] = {1, 0, 0, 0, 0, 1, 1, 0, 0, 0, 6, 0, 1, 0, 5}, once[] = {1, 0, 0, 0, 0, 1, 1, 0, 0, 0, 7, 1, 0, 0, 5};
    static const uint32_t twice[] = {1, 0, 0, 0, 0, 1, 1, 0, 0, 0, 3, 0, 0, 0, 0}, bits[] = {1, 0, 0, 0, 0, 1, 0, 0, 0, 0};
    static const uint32_t first[] = {0}, middle[] = {1}, last[] = {2}, ends[] = {0, 2}, lower[] = {0, 1};
    static const uint32_t one_and_last[] = {1, MUK_ROWS - 1}, one_and_before[] = {1, MUK_ROWS - 2};

    dead(0, once, 15, last, 1);
    dead(1, twice, 15, last, 1);
    dead(0, bits, 10, middle, 1);
    dead(1, named, 15, first, 1);
    dead(0, named, 15, middle, 1);
    dead(2, named, 15, lower, 2);
    dead(1, rules, NUMBERS, first, 1);
    refused(MUK_BAD_LIMITS, 2, bad_limits, NUMBERS, first, 1, NEED, 1, 1);

    /* The same stream with lists that leave no row dead and one that does, which changes nothing. */
    SAME(muk_start(named, 15, last, 1, store, NEED, &record), 0);
    SAME(muk_event(named, 15, ends, 2, store, NEED, &record, 10, 2), 2);
    refused(MUK_DEAD_ROW, 2, named, 15, lower, 2, NEED, 10, 10);
    SAME(muk_frame(named, 15, last, 1, store, NEED, &record, 15, 1), 1);
    SAME(muk_start(once, 15, ends, 2, store, NEED, &record), 0);

    /* As many rows as a table may have, all but the second reached from the last. */
    SAME(muk_start(most, 5 * MUK_ROWS, one_and_last, 2, NULL, 0, &record), 0);
    SAME(muk_event(most, 5 * MUK_ROWS, one_and_last, 2, NULL, 0, &record, 0, 1), 3);
    dead(1, most, 5 * MUK_ROWS, one_and_last + 1, 1);
    dead(MUK_ROWS - 1, most, 5 * MUK_ROWS, one_and_before, 2);
}

/* After a heartbeat: all but the clock and the spans of `row` is as it was before. There is one span, at this place, or none where its first is 0. */
static void moved_at(int place, uint32_t code, const muk_record *before, uint64_t clock, int row, uint64_t first, uint64_t last) {
    int failed = failures;
    muk_record wanted = *before;
    wanted.clock = clock;
    wanted.counts[row] = first != 0;
    wanted.firsts[row] = (uint32_t)place;
    SAME(code, MUK_MOVED);
    same_records(&record, &wanted);
    SAME(store[2 * place], first);
    SAME(store[2 * place + 1], last);
    SAME(store[2 - 2 * place], 0);
    SAME(store[3 - 2 * place], 0);
    SAME(store[NEED], PAST);
    if (failures > failed)
        fprintf(stderr, "header.c: this was a heartbeat at %llu\n", (unsigned long long)clock);
}

static void moved(uint32_t code, const muk_record *before, uint64_t clock, int row, uint64_t first, uint64_t last) {
    moved_at(0, code, before, clock, row, first, last);
}

static void heartbeats(void) {
    /* Bit 0 at the event before, 2 ms ago; bit 0 1 to 20 ms ago. */
    static const uint32_t previous[] = {1, 0, 0, 0, 0, 5, 0, 0, 2, 2}, once[] = {1, 0, 0, 0, 0, 7, 0, 0, 1, 20};
    static const uint32_t second_row[] = {1};
    muk_record before;

    /* Before any event: a record with a clock and no event. */
    start();
    before = record;
    moved(muk_frame(RULES, store, NEED, &record, 65534, MASK | MUK_HEARTBEAT), &before, 65534, 2, 0, 0);
    moved(muk_event(RULES, store, NEED, &record, 65535, MASK | MUK_HEARTBEAT), &before, 65535, 2, 0, 0);
    record.last = 1;
    refused(MUK_UNSOUND, 0, RULES, NEED, 65535, 65535);
    record.last = 0;

    /* Between touches, whose times go on from the clock. */
    SAME(muk_frame(RULES, store, NEED, &record, 1, MASK), 0);
    SAME(record.seen, 1);
    SAME(record.clock, 65537);
    SAME(record.last, 65537);
    before = record;
    moved(muk_frame(RULES, store, NEED, &record, 2, MUK_HEARTBEAT), &before, 65538, 2, 65539, 65539);
    record.last = 65539;
    refused(MUK_UNSOUND, 0, RULES, NEED, 65539, 3);
    record.last = 65537;
    moved(muk_event(RULES, store, NEED, &record, 65539, MUK_HEARTBEAT), &before, 65539, 2, 65539, 65539);
    SAME(muk_event(RULES, store, NEED, &record, 65538, MASK), refusal(MUK_EARLIER, 0));
    SAME(muk_event(RULES, store, NEED, &record, 65538, MUK_HEARTBEAT), refusal(MUK_EARLIER, 0));
    second("muk_frame after heartbeats", muk_frame(RULES, store, NEED, &record, 3, MASK), 65539);
    before = record;
    moved_at(1, muk_frame(RULES, store, NEED, &record, 4, MUK_HEARTBEAT), &before, 65540, 2, 65541, 65541);
    moved(muk_frame(RULES, store, NEED, &record, 6, MUK_HEARTBEAT), &before, 65542, 2, 0, 0);

    /* A span that is clipped until it ends. */
    SAME(muk_start(once, 10, second_row, 1, store, NEED, &record), 0);
    SAME(muk_event(once, 10, second_row, 1, store, NEED, &record, 10, MASK), 0);
    before = record;
    moved(muk_event(once, 10, second_row, 1, store, NEED, &record, 10, MUK_HEARTBEAT), &before, 10, 1, 11, 30);
    moved(muk_event(once, 10, second_row, 1, store, NEED, &record, 15, MUK_HEARTBEAT), &before, 15, 1, 15, 30);
    moved(muk_event(once, 10, second_row, 1, store, NEED, &record, 30, MUK_HEARTBEAT), &before, 30, 1, 30, 30);
    moved(muk_event(once, 10, second_row, 1, store, NEED, &record, 31, MUK_HEARTBEAT), &before, 31, 1, 0, 0);

    /* The event before is 2 ms old, the heartbeat 1 ms. */
    SAME(muk_start(previous, 10, second_row, 1, NULL, 0, &record), 0);
    SAME(muk_event(previous, 10, second_row, 1, NULL, 0, &record, 10, MASK), 0);
    SAME(muk_event(previous, 10, second_row, 1, NULL, 0, &record, 11, MUK_HEARTBEAT), MUK_MOVED);
    SAME(muk_event(previous, 10, second_row, 1, NULL, 0, &record, 12, 0), 1);
}

/* A first place that is refused, and is put back. */
static void bad_first(int row, uint32_t first, uint64_t time) {
    uint32_t good = record.firsts[row];
    record.firsts[row] = first;
    refused(MUK_UNSOUND, 0, RULES, NEED, time, (uint16_t)time);
    record.firsts[row] = good;
}

/* The stretch of two places as a ring. */
static void rings(void) {
    muk_record before;
    int word;

    /* With a touch every 2 ms a span ends with each, and the next is written where it was. */
    start();
    SAME(muk_event(RULES, store, NEED, &record, 10, MASK), 0);
    second_at(0, "the second touch", muk_event(RULES, store, NEED, &record, 12, MASK), 12);
    second_at(1, "the third", muk_event(RULES, store, NEED, &record, 14, MASK), 14);
    second_at(0, "the fourth", muk_frame(RULES, store, NEED, &record, 16, MASK), 16);
    second_at(1, "the fifth", muk_event(RULES, store, NEED, &record, 18, MASK), 18);

    /* Full, from place 1 round: the other place would have the newer span first. Two is past the end, whatever it is modulo 2. */
    bad_first(2, 0, 18);
    bad_first(2, 2, 18);
    bad_first(2, 3, 18);
    bad_first(2, UINT32_MAX, 18);
    /* A row without a stretch, and rows past the table's. */
    bad_first(0, 1, 18);
    bad_first(1, 1, 18);
    bad_first(3, 1, 18);
    bad_first(MUK_ROWS - 1, UINT32_C(1) << 31, 18);
    /* A span that the count leaves out is no free place. */
    record.counts[2] = 1;
    refused(MUK_UNSOUND, 0, RULES, NEED, 18, 18);
    record.counts[2] = 2;

    /* One span at place 0, after one at place 1 has ended: place 1 is free, and holds zeros. */
    before = record;
    moved_at(0, muk_event(RULES, store, NEED, &record, 19, MUK_HEARTBEAT), &before, 19, 2, 20, 20);
    for (word = 2; word < 4; word++) {
        store[word] = 1;
        refused(MUK_UNSOUND, 0, RULES, NEED, 19, 19);
        store[word] = 0;
    }
    bad_first(2, 1, 19);

    /* A touch takes place 1. Then place 0 is free, and once no span is left a touch takes place 0 again. */
    second_at(0, "a touch beside one span", muk_event(RULES, store, NEED, &record, 20, MASK), 20);
    before = record;
    moved_at(1, muk_event(RULES, store, NEED, &record, 21, MUK_HEARTBEAT), &before, 21, 2, 22, 22);
    bad_first(2, 0, 21);
    store[1] = 1;
    refused(MUK_UNSOUND, 0, RULES, NEED, 21, 21);
    store[1] = 0;
    moved_at(0, muk_event(RULES, store, NEED, &record, 23, MUK_HEARTBEAT), &before, 23, 2, 0, 0);
    bad_first(2, 1, 23);

    /* At place 1, ended in the same event as another is joined in. */
    SAME(muk_event(RULES, store, NEED, &record, 30, MASK), 0);
    second_at(0, "a touch after none was held", muk_event(RULES, store, NEED, &record, 32, MASK), 32);
    before = record;
    moved_at(1, muk_event(RULES, store, NEED, &record, 33, MUK_HEARTBEAT), &before, 33, 2, 34, 34);
    SAME(muk_event(RULES, store, NEED, &record, 35, MASK), 0);
    SAME(record.counts[2], 1);
    SAME(record.firsts[2], 0);
    SAME(store[0], 37);
    SAME(store[1], 37);
    SAME(store[2], 0);
    SAME(store[3], 0);
    SAME(store[NEED], PAST);
}

/* What is cleared, since x of "since" is false, begins again at place 0, in the same event too. */
static void cleared(void) {
    /* Bit 0 exactly 2 ms ago, and bit 1 at every event since. */
    static const uint32_t since[] = {1, 0, 0, 0, 0, 1, 1, 0, 0, 0, 6, 1, 0, 2, 2};
    int fed;
    for (fed = 0; fed < 2; fed++) {
        start();
        SAME(muk_event(since, NUMBERS, list, 1, store, NEED, &record, 10, 3), 0);
        SAME(muk_event(since, NUMBERS, list, 1, store, NEED, &record, 12, 3), 1);
        SAME(muk_event(since, NUMBERS, list, 1, store, NEED, &record, 13, 2), 0);
        SAME(record.counts[2], 1);
        SAME(record.firsts[2], 1);
        SAME(store[0], 0);
        SAME(store[1], 0);
        SAME(store[2], 14);
        SAME(store[3], 14);
        SAME(muk_event(since, NUMBERS, list, 1, store, NEED, &record, 13, (uint32_t)fed), 0);
        SAME(record.counts[2], fed);
        SAME(record.firsts[2], 0);
        SAME(store[0], fed ? 15 : 0);
        SAME(store[1], fed ? 15 : 0);
        SAME(store[2], 0);
        SAME(store[3], 0);
        SAME(store[NEED], PAST);
    }
}

static void times(void) {
    uint64_t time = ODD64;
    SAME(muk_frame_time(TIME_LIMIT + 1, 4, &time), refusal(MUK_LATE, 0));
    SAME(time, ODD64);
    SAME(muk_frame_time(65530, 4, &time), 0);
    SAME(time, 65540);
    SAME(muk_frame_time(TIME_LIMIT, 65534, &time), 0);
    SAME(time, TIME_LIMIT + 65535);
}

static void lines(void) {
    static const char text[] = "E2F480000001D7\nE2F4800000015\nE2F48000000157\n";
    const uint8_t *bytes = (const uint8_t *)text;
    uint64_t length = sizeof text - 1, place = 0;
    uint16_t counter = ODD16;
    uint32_t mask = ODD32;
    SAME(muk_read_frame(bytes, length, &place, &counter, &mask), refusal(MUK_BAD_SUM, 0));
    SAME(place, 15);
    SAME(muk_read_frame(bytes, length, &place, &counter, &mask), refusal(MUK_BAD_LINE, 0));
    SAME(place, 29);
    SAME(counter, ODD16);
    SAME(mask, ODD32);
    SAME(muk_read_frame(bytes, length, &place, &counter, &mask), MUK_FRAME);
    SAME(place, length);
    SAME(counter, 58100);
    SAME(mask, UINT32_C(0x80000001));
    counter = ODD16;
    mask = ODD32;
    SAME(muk_read_frame(bytes, length, &place, &counter, &mask), MUK_END);
    SAME(place, length);
    place = HIGH + 29;
    SAME(muk_read_frame(bytes, length, &place, &counter, &mask), MUK_END);
    SAME(place, HIGH + 29);
    SAME(muk_read_frame(NULL, 0, &place, &counter, &mask), MUK_END);
    SAME(counter, ODD16);
    SAME(mask, ODD32);
}

int main(void) {
    layout();
    codes();
    checks();
    starts();
    events();
    lists();
    dead_rows();
    heartbeats();
    rings();
    cleared();
    times();
    lines();
    return failures > 0;
}
