/* The deepest stack of each function of the library, in bytes, its arguments and its return address among them: the stack is painted, a call is made,
 * and where the paint is gone the call has been. The calls are good and refused ones, events and heartbeats, over a table of 256 rows of every kind whose
 * spans fill their stretches, and a list of 16 that reaches them all. */
#include <stdio.h>

#include "muktrashi.h"

#define DEPTH 4608
#define PAINT 0xA5
#define NUMBERS (5 * MUK_ROWS)
#define STORE 640
#define EVENTS 100
#define NO_END UINT32_C(4294967295)

/* Nine rows from row `at` on, one of them for each kind but those of the first two. The last three are named by the first three of the next nine, and the
 * others by rows among them. A small board has no room for the table but in read-only memory. */
#define SIX(at) \
    5, at + 2, 0, 0, 1, 6, 0, 1, 4, 4, 6, 0, at + 4, 1, 3, 6, at + 3, at + 5, 2, NO_END, 7, 1, 0, 4, 4, 8, 2, 0, 4, 4
#define NINE(at) 2, at - 1, 0, 0, 0, 3, at, at - 2, 0, 0, 4, at + 1, at - 3, 0, 0, SIX(at)
#define TWENTY_SEVEN(at) NINE(at), NINE(at + 9), NINE(at + 18)
#define EIGHTY_ONE(at) TWENTY_SEVEN(at), TWENTY_SEVEN(at + 27), TWENTY_SEVEN(at + 54)

static const uint32_t rules[NUMBERS] = {0, 0, 0, 0, 0, 1, 0, 0, 0, 0, 2, 1, 0, 0, 0, SIX(0), EIGHTY_ONE(9), EIGHTY_ONE(90), EIGHTY_ONE(171),
                                        /* rows 252 to 255 */ 2, 251, 0, 0, 0, 7, 252, 0, 4, 4, 8, 253, 0, 4, 4, 5, 254, 0, 0, 1};
static uint32_t list[MUK_LIST];
static uint64_t store[STORE];
static muk_record record;
static uint64_t table_len = NUMBERS, list_len = MUK_LIST, store_len = STORE;

/* What one call is given, and where it writes. */
static uint64_t when, need, place, text_len;
static uint32_t mask, rows;
static uint16_t counter;
static const uint8_t *text;
static uint32_t code;

static void version(void) { code = muk_version(); }
static void check(void) { code = muk_check(rules, table_len, &rows, &need); }
static void start(void) { code = muk_start(rules, table_len, list, list_len, store, store_len, &record); }
static void event(void) { code = muk_event(rules, table_len, list, list_len, store, store_len, &record, when, mask); }
static void frame(void) { code = muk_frame(rules, table_len, list, list_len, store, store_len, &record, counter, mask); }
static void frame_time(void) { code = muk_frame_time(when, counter, &need); }
static void read_frame(void) { code = muk_read_frame(text, text_len, &place, &counter, &mask); }

enum { VERSION, CHECK, START, EVENT, FRAME, FRAME_TIME, READ_FRAME, FUNCTIONS };

static const struct {
    const char *name;
    void (*call)(void);
} functions[FUNCTIONS] = {{"muk_version", version}, {"muk_check", check}, {"muk_start", start}, {"muk_event", event}, {"muk_frame", frame},
                          {"muk_frame_time", frame_time}, {"muk_read_frame", read_frame}};

static int deepest[FUNCTIONS];

#if defined(__wasm__)
/* The library's own stack, in linear memory; arguments and return addresses stand elsewhere there. wasm.mjs has it. */
uint8_t *library_stack(void);
#endif

__attribute__((always_inline)) static inline volatile uint8_t *stack_pointer(void) {
    volatile uint8_t *at;
#if defined(__wasm__)
    at = library_stack();
#elif defined(__x86_64__)
    __asm__ __volatile__("mov %%rsp, %0" : "=r"(at));
#else
    __asm__ __volatile__("mov %0, sp" : "=r"(at));
#endif
    return at;
}

static uint32_t call(int function) {
    volatile uint8_t *top = stack_pointer(), *at;
    for (at = top - DEPTH; at < top; at++)
        *at = PAINT;
    functions[function].call();
    for (at = top - DEPTH; at < top && *at == PAINT; at++)
        ;
    if (top - at > deepest[function])
        deepest[function] = (int)(top - at);
    return code;
}

/* The refusals of an event or a frame. */
static void refused(int function) {
    table_len = 0;
    call(function);
    table_len = NUMBERS;
    list_len = 0;
    call(function);
    list_len = 1; /* leaves rows dead */
    call(function);
    list_len = MUK_LIST;
    store_len = 1;
    call(function);
    store_len = STORE;
    record.truths[MUK_ROWS - 1] ^= 2;
    call(function);
    record.truths[MUK_ROWS - 1] ^= 2;
    when--;
    call(function);
    when++;
}

int main(void) {
    static const uint8_t line[] = "E2F400000001D7\n";
    int i, function;
    for (i = 0; i < MUK_LIST; i++)
        list[i] = (uint32_t)(MUK_ROWS - MUK_LIST + i);
    call(VERSION);
    if (call(CHECK) != 0 || need > STORE) {
        printf("stack.c: the table does not pass, or its need is %lu\n", (unsigned long)need);
        return 1;
    }
    for (function = EVENT; function <= FRAME; function++) {
        if (call(START) != 0)
            return 1;
        for (i = 0; i < EVENTS; i++) {
            when = (uint64_t)i * 2;
            counter = (uint16_t)when;
            mask = i % 8 != 7;
            if (muk_refusal(call(function)) != 0)
                return 1;
            refused(function);
            when++;
            counter++;
            mask = MUK_HEARTBEAT;
            if (call(function) != MUK_MOVED)
                return 1;
            refused(function);
        }
    }
    list_len = 1;
    call(START);
    table_len = store_len = 0;
    call(CHECK);
    call(START);
    call(FRAME_TIME);
    for (i = 0; i < 15; i++) {
        text = line + i;
        text_len = 15 - (uint64_t)i;
        place = 0;
        call(READ_FRAME);
    }
    for (function = 0; function < FUNCTIONS; function++) {
        printf("%s %d\n", functions[function].name, deepest[function]);
        if (deepest[function] >= DEPTH)
            return 1;
    }
    return 0;
}
