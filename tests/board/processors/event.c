/* What an event costs. The first word says over which table and spans:
 *   few     three rows: the pad closed; that 1 to 20 ms ago; not so
 *   most    as many rows as a table may have: the first of them the pad, then kinds "once", "not" and "and" in turn, each over the row before it
 *   first   a row once [600,600] p that holds all the spans that it can, 301, the event's time in the first of them, so that none ends
 *   drop    the same row and spans a millisecond later, when the first span has ended: it is dropped, and the time lies in none of the 300 left
 *   none    the same after that, at the same time: the 300 spans, of which none ends
 *   update  only what `drop` does in the row's stretch: the library's inner function, where the program is compiled with it (-DUPDATE)
 * With the first two, a pad closes at every fifth event, 7 ms apart. With the others an event without p is judged over and over at one time, in turns of
 * four: before a turn each of four copies of the record and of the stretch's words is written anew, all of it, and the clock is read after that. The second
 * word is how many events, a multiple of 256. It writes rows, spans that the last row is left with, and nanoseconds an event: of the first two the mean, of
 * the others that of the fastest 256. tools/event compiles it with the headers of earlier versions, too. */
#define _POSIX_C_SOURCE 199309L
#include <stdio.h>
#include <stdlib.h>
#include <string.h>
#include <time.h>

#include "muktrashi.h"

#define BACK 600
#define SPANS (BACK / 2 + 1)
#define STRETCH (2 * SPANS)
#define WORDS 2048
#define COPIES 4
#define TURNS 64

enum { PAD = 1, NOT = 2, AND = 3, ONCE = 7 };

static uint32_t rules[5 * MUK_ROWS];
static uint32_t rows;
static uint64_t store[WORDS];
static muk_record record;

/* The copies. */
static uint64_t stores[COPIES][STRETCH];
static muk_record records[COPIES];

#if MUK_VERSION < 3
#define RULES rules, 5 * rows
#else
static uint32_t list[1];
#define RULES rules, 5 * rows, list, 1
#endif

static void row(uint32_t kind, uint32_t x, uint32_t y, uint32_t a, uint32_t b) {
    uint32_t *numbers = rules + 5 * rows++;
    numbers[0] = kind;
    numbers[1] = x;
    numbers[2] = y;
    numbers[3] = a;
    numbers[4] = b;
}

static uint32_t event(uint64_t time, uint32_t mask) {
    return muk_event(RULES, store, WORDS, &record, time, mask);
}

static int start(void) {
#if MUK_VERSION >= 3
    list[0] = rows - 1;
#endif
    return muk_start(RULES, store, WORDS, &record) == 0;
}

/* So many rows, and their start. */
static int start_rows(uint32_t count) {
    row(PAD, 0, 0, 0, 0);
    while (rows < count)
        switch (rows % 3) {
        case 1:
            row(ONCE, rows - 1, 0, 1, 20);
            break;
        case 2:
            row(NOT, rows - 1, 0, 0, 0);
            break;
        default:
            row(AND, rows - 1, rows - 3, 0, 0);
        }
    return start();
}

/* The nanoseconds of an event, or 0 if one was not accepted; of three rows, the verdict is no where a pad closed 7 or 14 ms ago. */
static double judge_rows(unsigned long events) {
    clock_t begin = clock();
    unsigned long i;
    for (i = 0; i < events; i++) {
        uint32_t code = event(7 * (uint64_t)i, i % 5 == 0);
        if (muk_refusal(code) != 0 || (rows == 3 && code != (i % 5 != 1 && i % 5 != 2)))
            return 0;
    }
    return (double)(clock() - begin) / CLOCKS_PER_SEC / (double)events * 1e9;
}

/* A full stretch. */
static int start_stretch(void) {
    uint64_t time;
    row(PAD, 0, 0, 0, 0);
    row(ONCE, 0, 0, BACK, BACK);
    if (!start())
        return 0;
    for (time = 0; time <= BACK; time += 2)
        if (muk_refusal(event(time, 1)) != 0)
            return 0;
    return record.counts[1] == SPANS;
}

static uint32_t judge_copy(int copy, uint64_t time) {
    return muk_event(RULES, stores[copy], STRETCH, &records[copy], time, 0);
}

#if defined(UPDATE)
/* The function `update` of the crate spans, as the module has it on a processor with 64-bit pointers: words are handed over as their address and length,
 * what is held of a stretch as its first place and count, and what is answered is left at an address. */
struct held {
    uint64_t first;
    uint64_t count;
};

struct updated {
    struct held held;
    uint8_t covered;
};

void update(struct updated *, uint64_t *words, uint64_t length, uint64_t held_first, uint64_t held_count, _Bool keep, _Bool feed, uint64_t time,
            uint64_t first, uint64_t last);

static struct held held;
static struct updated answers[COPIES];

/* As the event calls it; the count that it answers is kept where the event leaves its own. */
static uint32_t update_copy(int copy, uint64_t time) {
    update(&answers[copy], stores[copy], STRETCH, held.first, held.count, 1, 0, time, time + BACK, time + BACK);
    records[copy].counts[1] = (uint32_t)answers[copy].held.count;
    return answers[copy].covered;
}

/* Whether it leaves what the event does, so that it was called as it should be. */
static int starts_update(uint64_t time) {
    int copy;
    held.count = record.counts[1];
    held.first = record.firsts[1];
    for (copy = 0; copy < COPIES; copy++)
        memcpy(stores[copy], store, sizeof stores[copy]);
    records[0] = record;
    if (judge_copy(0, time) != 0 || update_copy(1, time) != 0 || memcmp(stores[0], stores[1], sizeof stores[0]) != 0)
        return 0;
    return answers[1].held.first == records[0].firsts[1] && records[1].counts[1] == records[0].counts[1];
}
#else
static uint32_t update_copy(int copy, uint64_t time) {
    (void)copy;
    (void)time;
    return 0;
}

static int starts_update(uint64_t time) {
    (void)time;
    return 0;
}
#endif

static double now(void) {
    struct timespec at;
    clock_gettime(CLOCK_MONOTONIC, &at);
    return (double)at.tv_sec * 1e9 + (double)at.tv_nsec;
}

static double lesser(double one, double other) {
    return one < other ? one : other;
}

/* One turn. Its nanoseconds are added to `taken`, and those of reading the clock alone to `reading`. */
static void turn(uint32_t (*judge)(int, uint64_t), uint64_t time, uint32_t *codes, double *taken, double *reading) {
    double before, begin;
    int copy;
    for (copy = 0; copy < COPIES; copy++) {
        memcpy(stores[copy], store, sizeof stores[copy]);
        records[copy] = record;
    }
    before = now();
    begin = now();
    for (copy = 0; copy < COPIES; copy++)
        codes[copy] = judge(copy, time);
    *taken += now() - begin;
    *reading += begin - before;
}

/* The nanoseconds of an event, those of reading the clock taken off, or 0 if one was not answered so. Few enough turns are counted together that nothing else
 * runs in the midst of the fastest, and so many that a clock of coarse steps will do. */
static double judge_stretch(unsigned long events, uint32_t (*judge)(int, uint64_t), uint64_t time, uint32_t wanted) {
    uint32_t codes[COPIES];
    double fastest = 0, fastest_reading = 0;
    unsigned long done;
    int i, copy;
    for (done = 0; done < events; done += COPIES * TURNS) {
        double taken = 0, reading = 0;
        for (i = 0; i < TURNS; i++) {
            turn(judge, time, codes, &taken, &reading);
            for (copy = 0; copy < COPIES; copy++)
                if (codes[copy] != wanted)
                    return 0;
        }
        fastest = done == 0 ? taken : lesser(taken, fastest);
        fastest_reading = done == 0 ? reading : lesser(reading, fastest_reading);
    }
    return (fastest - fastest_reading) / (COPIES * TURNS);
}

static int is(const char *word, const char *other) {
    return strcmp(word, other) == 0;
}

int main(int words, char **word) {
    const char *what = words == 3 ? word[1] : "";
    unsigned long events = words == 3 ? strtoul(word[2], NULL, 10) : 0;
    int by_rows = is(what, "few") || is(what, "most"), first = is(what, "first"), none = is(what, "none"), whole = !is(what, "update");
    double ns;
    if ((!by_rows && !first && !none && !is(what, "drop") && whole) || events == 0 || events % (COPIES * TURNS) != 0) {
        fprintf(stderr, "usage: event few|most|first|drop|none|update EVENTS, a multiple of %d\n", COPIES * TURNS);
        return 2;
    }
    if (muk_version() != MUK_VERSION) {
        fprintf(stderr, "event.c: the library is of version %u, the header of version %u\n", (unsigned)muk_version(), MUK_VERSION);
        return 1;
    }
    if (by_rows ? !start_rows(is(what, "few") ? 3 : MUK_ROWS) : !start_stretch() || (none && event(BACK + 1, 0) != 0))
        return 1;
    if (!whole && !starts_update(BACK + 1)) {
        fprintf(stderr, "event.c: the function 'update' is not here, or does not leave what an event does\n");
        return 1;
    }
    ns = by_rows ? judge_rows(events) : judge_stretch(events, whole ? judge_copy : update_copy, BACK + (uint64_t)!first, first);
    if (ns == 0)
        return 1;
    printf("%u %u %.1f\n", (unsigned)rows, (unsigned)(by_rows ? record : records[0]).counts[rows - 1], ns);
    return 0;
}
