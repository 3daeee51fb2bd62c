/* Queries and error flags: an image of version 2 by the calls, what sets and clears a flag, and where it may stand. A part of calls.c. */
#include "calls.h"

#include <string.h>

/* Words of the table of the image with queries. */
enum { ASKING_WORDS = 9 };

const uint8_t asking[ASKING] = {2, 32, 0, 32, 0, 0, 0, 0, 0, 0, 0, 129, 4, 198};

/* A state of it in which buffer 1 holds what a request leaves that found no fact, so many ms before it is seen. */
static void fail(uint32_t state[STATE], uint32_t delay) {
    memset(state, 0, STATE * sizeof state[0]);
    state[JIRVUNTSAG_DELAY(1)] = delay;
    state[JIRVUNTSAG_ERROR(1)] = 1;
}

/* One step by both engines, from the fresh table: they answer and leave the same. */
static uint64_t step_both(uint32_t state[STATE]) {
    uint16_t table[ASKING_WORDS];
    uint32_t other[STATE];
    memcpy(other, state, sizeof other);
    CHECK(jirvuntsag_refresh(asking, ASKING, state, 3, table, ASKING_WORDS) == answered(0, 1));
    uint64_t kept = jirvuntsag_run(asking, ASKING, other, table, ASKING_WORDS, 1);
    CHECK(jirvuntsag_run_fresh(asking, ASKING, state, 1) == kept && memcmp(state, other, sizeof other) == 0);
    return kept;
}

/* The rule fires where all that it asks holds, and waits for it where it will. */
static void check_asked(void) {
    uint16_t table[ASKING_WORDS];
    uint32_t state[STATE], zeros[STATE] = {0};
    CHECK(jirvuntsag_table_len(asking, ASKING) == answered(0, ASKING_WORDS));
    CHECK(jirvuntsag_open(asking, ASKING, table, ASKING_WORDS, state) == 0);
    CHECK(memcmp(state, zeros, sizeof state) == 0 && table[0] == 0);
    CHECK(step_both(state) == 9);
    fail(state, 0);
    CHECK(step_both(state) == answered(0, 1) && state[0] == 50 && state[JIRVUNTSAG_ERROR(1)] == 0);
    fail(state, 60);
    CHECK(step_both(state) == answered(0, 1) && state[0] == 60 && state[JIRVUNTSAG_ERROR(1)] == 1);
    CHECK(step_both(state) == answered(0, 1) && state[0] == 110 && state[JIRVUNTSAG_ERROR(1)] == 0);
    fail(state, 0);
    state[JIRVUNTSAG_DELAY(0)] = 70;
    CHECK(step_both(state) == answered(0, 1) && state[0] == 70 && state[JIRVUNTSAG_ERROR(1)] == 1);
}

/* A rule counts and is written where a buffer that it only queries is marked. */
static void check_refreshed(void) {
    uint16_t table[ASKING_WORDS];
    uint32_t state[STATE];
    fail(state, 0);
    for (uint16_t mark = 0; mark < 4; mark++) {
        memset(table, 255, sizeof table);
        CHECK(jirvuntsag_refresh(asking, ASKING, state, mark, table, ASKING_WORDS) == answered(0, mark > 0));
        CHECK(table[0] == (mark > 0 ? 1 : 65535) && table[8] == (mark > 0 ? 0 : 65535));
    }
}

/* Model A asks in its fifth step for what no fact says: the flag is set and stays, until the buffer is asked for what is there. */
static void check_set_and_cleared(void) {
    uint32_t state[STATE];
    memcpy(state, opening, sizeof state);
    CHECK(jirvuntsag_run_fresh(image, LENGTH, state, 5) == answered(0, 5));
    CHECK(state[JIRVUNTSAG_ERROR(1)] == 1 && state[JIRVUNTSAG_DELAY(1)] == 200 && state[JIRVUNTSAG_ERROR(0)] == 0);
    CHECK(jirvuntsag_run_fresh(image, LENGTH, state, 5) == answered(9, 2));
    CHECK(state[JIRVUNTSAG_ERROR(1)] == 1 && state[JIRVUNTSAG_DELAY(1)] == 0);
    memcpy(state, opening, sizeof state);
    state[JIRVUNTSAG_ERROR(1)] = 1;
    CHECK(jirvuntsag_run_fresh(image, LENGTH, state, 1) == answered(0, 1));
    CHECK(state[JIRVUNTSAG_ERROR(1)] == 0 && state[JIRVUNTSAG_TYPE(1)] == 1);
}

/* Each call on a state of model A, where no step is asked: the number, and every word as it was. */
static void check_flag(size_t buffer, uint32_t flag, uint64_t answer) {
    uint32_t state[STATE], before[STATE];
    uint16_t table[WORDS];
    memcpy(state, opening, sizeof state);
    memcpy(table, fresh, sizeof table);
    state[JIRVUNTSAG_ERROR(buffer)] = flag;
    memcpy(before, state, sizeof state);
    CHECK(jirvuntsag_run(image, LENGTH, state, table, WORDS, 0) == answer);
    CHECK(jirvuntsag_trace(image, LENGTH, state, table, WORDS, 0, NULL, 0) == answer);
    CHECK(jirvuntsag_refresh(image, LENGTH, state, 0, table, WORDS) == answer);
    CHECK(jirvuntsag_run_fresh(image, LENGTH, state, 0) == answer);
    CHECK(jirvuntsag_trace_fresh(image, LENGTH, state, 0, NULL, 0) == answer);
    CHECK(jirvuntsag_run_lent(image, LENGTH, state, table, WORDS, 0, NULL, 0, 0, NULL, 0) == answer);
    CHECK(jirvuntsag_run_fresh_lent(image, LENGTH, state, 0, NULL, 0, 0, NULL, 0) == answer);
    CHECK(memcmp(state, before, sizeof state) == 0 && memcmp(table, fresh, sizeof table) == 0);
}

/* A flag is 0 or 1, and 1 beside nil alone: buffer 0 holds the goal, and those from 2 on are not model A's. */
static void check_flags(void) {
    for (size_t buffer = 0; buffer < 8; buffer++)
        check_flag(buffer, 1, buffer == 1 ? 0 : 6);
    const uint32_t large[] = {2, 3, 256, 65535, 65536, 65537, 1u << 31, UINT32_MAX};
    for (size_t one = 0; one < sizeof large / sizeof large[0]; one++)
        check_flag(1, large[one], 6);
}

void check_asking_calls(void) {
    check_asked();
    check_refreshed();
    check_set_and_cleared();
    check_flags();
}
