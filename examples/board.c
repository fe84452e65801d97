/* A firmware main loop over the monitor: the touches of ten lanes, each taken or dropped as a bounce, and the board's heartbeats, which move the clock.
 * The record stays where it is. examples/ten-lanes.in is what this loop hands to the monitor. */
#include <stdio.h>

#include "muktrashi.h"

/* A touch on lane n is bit n of the board's mask. That it was taken is bit 16 + n of a second event, which this loop makes. */
#define LANES 10
#define TAKEN 16
#define TOUCHES ((UINT32_C(1) << LANES) - 1)

/* "A touch on this lane, and none that was taken in the 20 ms before it", as docs/RULES.md explains it: five rows a lane, five numbers a row, kind, x, y,
 * a, b. */
#define LANE(lane, row)                                                  \
    1, lane, 0, 0, 0,         /* row:     a touch on this lane */        \
    1, TAKEN + lane, 0, 0, 0, /* row + 1: a touch on it was taken */     \
    7, row + 1, 0, 0, 20,     /* row + 2: one was, at most 20 ms ago */  \
    2, row + 2, 0, 0, 0,      /* row + 3: none was */                    \
    3, row, row + 3, 0, 0     /* row + 4: a touch, and none was taken */

static const uint32_t rules[] = {LANE(0, 0),  LANE(1, 5),  LANE(2, 10), LANE(3, 15), LANE(4, 20),
                                 LANE(5, 25), LANE(6, 30), LANE(7, 35), LANE(8, 40), LANE(9, 45)};
/* The last row of each lane, so that bit n of a verdict is lane n's. */
static const uint32_t list[LANES] = {4, 9, 14, 19, 24, 29, 34, 39, 44, 49};

#define RULES (sizeof rules / sizeof rules[0])
#define STORE 20 /* the need of these rules, which muk_check tells; with less muk_start refuses 4 */

static uint64_t store[STORE];
static muk_record record;

/* What the serial line brought. The touch at 123,658 ms has a counter only 10 above that of the touch before on its lane, at 58,112. */
static const uint8_t received[] = "75308000000025\n"  /* 30,000 heartbeat */
                                  "E2F400000010E6\n"  /* 58,100 lane 4 */
                                  "E2FA00000010EC\n"  /* 58,106 lane 4 */
                                  "E3000000003013\n"  /* 58,112 lanes 4 and 5 */
                                  "E3000000002003\n"  /* 58,112 lane 5 */
                                  "E30800000010FB\n"  /* 58,120 lane 4 */
                                  "E30x00000001E4\n"  /* damaged */
                                  "E30E0000001001\n"  /* 58,126 lane 4 */
                                  "E3150000001008\n"  /* 58,133 lane 4 */
                                  "EA6080000000CA\n"  /* 60,000 heartbeat */
                                  "5F90800000006F\n"  /* 90,000 heartbeat */
                                  "D4C08000000014\n"  /* 120,000 heartbeat */
                                  "E30A000000200D\n"  /* 123,658 lane 5 */
                                  "E30E0000002011\n"  /* 123,662 lane 5 */
                                  "E7E400000201CE\n"  /* 124,900 lanes 0 and 9 */
                                  "E7F800000200E1\n"  /* 124,920 lane 9 */
                                  "E7F900000001E1\n"  /* 124,921 lane 0 */
                                  "49F080000000B9\n"; /* 150,000 heartbeat */

/* In two parts, since the printf of a small C library may have no 64-bit numbers. */
static void print_time(uint64_t time) {
    const uint32_t part = 1000000000;
    if (time < part)
        printf("%lu", (unsigned long)time);
    else
        printf("%lu%09lu", (unsigned long)(time / part), (unsigned long)(time % part));
}

static void print_touches(uint32_t touches, uint32_t taken) {
    int lane;
    for (lane = 0; lane < LANES; lane++)
        if (touches >> lane & 1) {
            print_time(record.last);
            printf(" ms: lane %d %s\n", lane, taken >> lane & 1 ? "taken" : "dropped");
        }
}

static int start(void) {
    uint32_t code = muk_start(rules, RULES, list, LANES, store, STORE, &record);
    if (muk_refusal(code) != 0)
        printf("start refused %u, row %u\n", (unsigned)muk_refusal(code), (unsigned)muk_row(code));
    return muk_refusal(code) == 0;
}

/* One frame. Where touches are taken, a second event in the same millisecond says so to the rules; its own verdict is 0. */
static uint32_t judge(uint16_t counter, uint32_t mask) {
    uint32_t code = muk_frame(rules, RULES, list, LANES, store, STORE, &record, counter, mask), second = 0;
    if (muk_verdict(code) != 0)
        second = muk_event(rules, RULES, list, LANES, store, STORE, &record, record.last, muk_verdict(code) << TAKEN);
    return muk_refusal(second) != 0 ? second : code;
}

int main(void) {
    uint64_t place = 0;
    if (muk_version() != MUK_VERSION) {
        printf("the header is of another library\n");
        return 1;
    }
    if (!start())
        return 1;
    for (;;) {
        uint16_t counter;
        uint32_t mask, code = muk_read_frame(received, sizeof received - 1, &place, &counter, &mask);
        if (code == MUK_END)
            return 0; /* A board would wait here for more, whole lines only: one that the text's end cuts off is refused 8. */
        if (muk_refusal(code) != 0) {
            printf("line refused %u\n", (unsigned)muk_refusal(code));
            continue; /* The place is past the bad line. */
        }
        mask &= TOUCHES | MUK_HEARTBEAT; /* What was taken the board does not say. */
        code = judge(counter, mask);
        if (muk_refusal(code) != 0) {
            printf("frame refused %u\n", (unsigned)muk_refusal(code));
            if (muk_refusal(code) == MUK_UNSOUND && !start()) /* The record or the store was damaged: begin again. */
                return 1;
        } else if (muk_moved(code)) { /* A heartbeat is no event: there is no verdict. */
            print_time(record.clock);
            printf(" ms: heartbeat\n");
        } else {
            print_touches(mask, muk_verdict(code));
        }
    }
}
