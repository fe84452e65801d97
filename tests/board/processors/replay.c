/* Makes the calls of the file `calls`, which tests/board/reference/ writes, and holds what each answers and leaves to what the references have. Ends at
 * the first difference, or with the count of calls. tests/board/reference/calls.rs tells how the file is written. */
#include <stdio.h>
#include <stdlib.h>
#include <string.h>

#include "muktrashi.h"

/* The bytes that the rows of a call have together, and how much of the file is read at once: a small board has 16 kB of memory. */
#define ROOM 6144
#define READ_AT_ONCE 256
/* The word behind the lent store, which must stay as it is. */
#define GUARD UINT64_C(0x5A5A5A5A5A5A5A5A)

enum { END, CHECK, START, EVENT, FRAME, FRAME_TIME, READ_FRAME };

static FILE *file;
static char read_at_once[READ_AT_ONCE];
static unsigned long calls;

/* Table and list one behind the other, and the store, with a word more, at the next even place; or a text. */
static union {
    uint32_t numbers[ROOM / 4];
    uint64_t words[ROOM / 8];
    uint8_t bytes[ROOM];
} room;

static uint32_t *const table = room.numbers;
static uint32_t *list;
static uint64_t *store;
static uint8_t *const text = room.bytes;
static uint64_t table_len, list_len, store_len, text_len;
static muk_record record;

/* A row as it is lent: where it is empty, by a null pointer. */
#define LENT(row) (row##_len != 0 ? row : NULL), row##_len

static void stop(const char *what) {
    printf("replay.c: call %lu: %s\n", calls, what);
    exit(1);
}

static uint64_t number(void) {
    uint64_t value = 0;
    int byte, shift;
    for (shift = 0; shift < 64; shift += 7) {
        byte = getc(file);
        if (byte == EOF)
            stop("the file ends too early");
        value |= (uint64_t)(byte & 127) << shift;
        if (byte < 128)
            return value;
    }
    stop("the file has a number over 64 bits");
    return 0;
}

/* The next number of the file is what a call answers or leaves. */
static void same(const char *what, uint64_t found) {
    uint64_t wanted = number();
    if (found != wanted) {
        printf("replay.c: %s is %llu, not %llu\n", what, (unsigned long long)found, (unsigned long long)wanted);
        stop("the library and the references differ");
    }
}

static uint64_t length(uint64_t longest) {
    uint64_t read = number();
    if (read > longest)
        stop("a row is too long");
    return read;
}

static void read_table(void) {
    uint64_t i;
    table_len = length(ROOM / 4);
    for (i = 0; i < table_len; i++)
        table[i] = (uint32_t)number();
}

static void read_rules(void) {
    uint64_t i;
    read_table();
    list = table + table_len;
    list_len = length(ROOM / 4 - table_len);
    for (i = 0; i < list_len; i++)
        list[i] = (uint32_t)number();
}

static void read_text(void) {
    uint64_t i;
    text_len = length(ROOM);
    for (i = 0; i < text_len; i++)
        text[i] = (uint8_t)number();
}

/* Words of the store by their bytes, since C may take it that what is written as a word holds no numbers of 32 bits. */
static void put_word(uint64_t place, uint64_t word) {
    memcpy(store + place, &word, sizeof word);
}

static uint64_t word_at(uint64_t place) {
    uint64_t word;
    memcpy(&word, store + place, sizeof word);
    return word;
}

static void read_store(void) {
    uint64_t i, place = (table_len + list_len + 1) / 2, words = ROOM / 8;
    if (place >= words)
        stop("the rows are too long");
    store = room.words + place;
    store_len = length(words - place - 1);
    for (i = 0; i < store_len; i++)
        put_word(i, number());
    put_word(store_len, GUARD);
}

/* The record's entries stand in the file up to the last that is not 0. */
static void read_kept(void) {
    uint64_t i, used;
    read_store();
    record.seen = (uint8_t)number();
    record.clock = number();
    record.last = number();
    record.rows = (uint32_t)number();
    used = length(MUK_ROWS);
    for (i = 0; i < MUK_ROWS; i++)
        record.truths[i] = i < used ? (uint8_t)number() : 0;
    used = length(MUK_ROWS);
    for (i = 0; i < MUK_ROWS; i++)
        record.counts[i] = i < used ? (uint32_t)number() : 0;
    used = length(MUK_ROWS);
    for (i = 0; i < MUK_ROWS; i++)
        record.firsts[i] = i < used ? (uint32_t)number() : 0;
}

static void same_entry(const char *what, uint64_t found, int written) {
    if (written)
        same(what, found);
    else if (found != 0)
        stop("an entry of the record is not 0");
}

static void same_kept(void) {
    uint64_t i, used;
    same("the store's length", store_len);
    for (i = 0; i < store_len; i++)
        same("a word of the store", word_at(i));
    if (word_at(store_len) != GUARD)
        stop("the word behind the store has changed");
    same("seen", record.seen);
    same("clock", record.clock);
    same("last", record.last);
    same("rows", record.rows);
    used = length(MUK_ROWS);
    for (i = 0; i < MUK_ROWS; i++)
        same_entry("a truth", record.truths[i], i < used);
    used = length(MUK_ROWS);
    for (i = 0; i < MUK_ROWS; i++)
        same_entry("a count", record.counts[i], i < used);
    used = length(MUK_ROWS);
    for (i = 0; i < MUK_ROWS; i++)
        same_entry("a first place", record.firsts[i], i < used);
}

static void check(void) {
    uint32_t rows, code;
    uint64_t need;
    read_table();
    rows = (uint32_t)number();
    need = number();
    code = muk_check(LENT(table), &rows, &need);
    same("the code", code);
    same("the row count", rows);
    same("the need", need);
}

static void start(void) {
    read_rules();
    read_kept();
    same("the code", muk_start(LENT(table), LENT(list), LENT(store), &record));
    same_kept();
}

static void event(void) {
    uint64_t time;
    uint32_t mask;
    read_rules();
    time = number();
    mask = (uint32_t)number();
    read_kept();
    same("the code", muk_event(LENT(table), LENT(list), LENT(store), &record, time, mask));
    same_kept();
}

static void frame(void) {
    uint16_t counter;
    uint32_t mask;
    read_rules();
    counter = (uint16_t)number();
    mask = (uint32_t)number();
    read_kept();
    same("the code", muk_frame(LENT(table), LENT(list), LENT(store), &record, counter, mask));
    same_kept();
}

static void frame_time(void) {
    uint64_t clock = number();
    uint16_t counter = (uint16_t)number();
    uint64_t time = number();
    same("the code", muk_frame_time(clock, counter, &time));
    same("the time", time);
}

static void read_frame(void) {
    uint64_t place;
    uint16_t counter;
    uint32_t mask;
    read_text();
    place = number();
    counter = (uint16_t)number();
    mask = (uint32_t)number();
    same("the code", muk_read_frame(LENT(text), &place, &counter, &mask));
    same("the place", place);
    same("the counter", counter);
    same("the mask", mask);
}

int main(void) {
    file = fopen("calls", "rb");
    if (file == NULL || setvbuf(file, read_at_once, _IOFBF, READ_AT_ONCE) != 0)
        stop("the file 'calls' cannot be read");
    for (;; calls++) {
        switch (number()) {
        case CHECK:
            check();
            break;
        case START:
            start();
            break;
        case EVENT:
            event();
            break;
        case FRAME:
            frame();
            break;
        case FRAME_TIME:
            frame_time();
            break;
        case READ_FRAME:
            read_frame();
            break;
        case END:
            same("the count of calls", calls);
            printf("%lu calls as the references have them\n", calls);
            return 0;
        default:
            stop("there is no such function");
        }
    }
}
