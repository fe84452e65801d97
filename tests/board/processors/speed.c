/* The time of a frame: reads a capture on standard input, as ./judge does, and judges its frames over and over. Of several runs the fastest counts. */
#include <stdio.h>
#include <string.h>
#include <time.h>

#include "muktrashi.h"

#define RUNS 10
#define TURNS 20000
#define TEXT 65536
#define STORE 8192

static uint32_t rules[5 * MUK_ROWS], list[MUK_LIST];
static uint64_t numbers, listed;
static uint8_t text[TEXT];
static uint64_t text_len;
static uint64_t store[STORE];
static muk_record record;

static int read_rule(const char *line) {
    unsigned rule[5];
    int i;
    if (numbers == 5 * MUK_ROWS || sscanf(line, "%2x%2x%2x%8x%8x", rule, rule + 1, rule + 2, rule + 3, rule + 4) != 5)
        return 0;
    for (i = 0; i < 5; i++)
        rules[numbers++] = rule[i];
    return 1;
}

/* The row numbers between AA and the sum. */
static int read_list(const char *line) {
    unsigned row;
    for (line += 2; strlen(line) > strlen("00\n"); line += 2) {
        if (listed == MUK_LIST || sscanf(line, "%2x", &row) != 1)
            return 0;
        list[listed++] = row;
    }
    return 1;
}

/* The rule lines and the list up to the empty line, and the text of frames behind it. Without a list the last row is judged. */
static int read_capture(void) {
    char line[64];
    while (fgets(line, sizeof line, stdin) != NULL && line[0] != '\n')
        if (strncmp(line, "AA", 2) == 0 ? !read_list(line) : !read_rule(line))
            return 0;
    if (listed == 0)
        list[listed++] = (uint32_t)(numbers / 5) - 1;
    text_len = fread(text, 1, TEXT, stdin);
    return text_len > 0;
}

/* Seconds that all the frames take, read and judged so many times; 0 if one is refused. */
static double run(unsigned long *frames, unsigned long *yes) {
    clock_t begin = clock();
    int turn;
    *frames = *yes = 0;
    for (turn = 0; turn < TURNS; turn++) {
        uint64_t place = 0;
        uint16_t counter;
        uint32_t mask;
        while (muk_read_frame(text, text_len, &place, &counter, &mask) == MUK_FRAME) {
            uint32_t code = muk_frame(rules, numbers, list, listed, store, STORE, &record, counter, mask);
            if (muk_refusal(code) != 0)
                return 0;
            *yes += muk_verdict(code) != 0;
            ++*frames;
        }
    }
    return (double)(clock() - begin) / CLOCKS_PER_SEC;
}

int main(void) {
    unsigned long frames, yes;
    double fastest = 0;
    int i;
    if (!read_capture() || muk_start(rules, numbers, list, listed, store, STORE, &record) != 0) {
        printf("speed.c: this is no capture with rules that start\n");
        return 1;
    }
    for (i = 0; i < RUNS; i++) {
        double seconds = run(&frames, &yes);
        if (seconds == 0)
            return 1;
        if (i == 0 || seconds < fastest)
            fastest = seconds;
    }
    printf("%lu frames, %lu with the verdict yes: %.0f ns a frame, read and judged\n", frames, yes, fastest / (double)frames * 1e9);
    return 0;
}
