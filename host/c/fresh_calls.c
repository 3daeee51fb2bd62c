/* The two calls without a table on model A: answers, refusals, and all that they leave. A part of calls.c. */
#include "calls.h"

#include <string.h>

/* Both calls give an answer, and leave the state as it was handed in and the events untouched. */
static void check_left(const uint8_t *handed, size_t length, const uint32_t *handed_state, uint16_t steps, uint64_t answer) {
    uint32_t state[STATE], events[3] = {1, 2, 3};
    memcpy(state, handed_state, sizeof state);
    CHECK(jirvuntsag_run_fresh(handed, length, state, steps) == answer);
    CHECK(jirvuntsag_trace_fresh(handed, length, state, steps, events, 3) == answer);
    CHECK(memcmp(state, handed_state, sizeof state) == 0);
    CHECK(events[0] == 1 && events[1] == 2 && events[2] == 3);
}

/* Runs one step, none, all, and more from where nothing is left to do. */
static void check_run(void) {
    uint32_t state[STATE];
    memcpy(state, opening, sizeof state);
    check_left(image, LENGTH, state, 0, 0);
    CHECK(jirvuntsag_run_fresh(image, LENGTH, state, 1) == answered(0, 1));
    CHECK(state[0] == 50 && state[12] == 1 && state[13] == 1 && state[14] == 2 && state[21] == 100 && state[22] == 0);
    CHECK(jirvuntsag_run_fresh(image, LENGTH, state, 65535) == answered(9, 6));
    CHECK(state[0] == 550);
    check_left(image, LENGTH, state, 65535, 9);
    check_left(image, LENGTH, state, 0, 0);
}

/* A buffer that is changed between two calls needs no refresh: with the fact for 1 in the retrieval buffer, rule 1 fires first. */
static void check_changed(void) {
    uint32_t state[STATE], events[3];
    memcpy(state, opening, sizeof state);
    state[JIRVUNTSAG_TYPE(1)] = 1;
    state[JIRVUNTSAG_SLOT(1, 0)] = 1;
    state[JIRVUNTSAG_SLOT(1, 1)] = 2;
    CHECK(jirvuntsag_trace_fresh(image, LENGTH, state, 1, events, 3) == answered(0, 1));
    CHECK(events[0] == 50 && events[1] == 0 && events[2] == 1 && state[JIRVUNTSAG_SLOT(0, 0)] == 2);
}

/* An image that is refused is so before the state is looked at, and even if no step is asked. */
static void check_refused_image(const uint8_t *handed, size_t length, uint64_t answer) {
    uint32_t state[STATE];
    memset(state, 255, sizeof state);
    check_left(handed, length, state, 5, answer);
    check_left(handed, length, state, 0, answer);
    check_left(handed, length, opening, 5, answer);
}

/* Number 6: a word that its field cannot hold, whichever it is, and words that the image does not allow. */
static void check_refused_states(void) {
    uint32_t state[STATE];
    for (size_t word = 1; word < STATE; word++) {
        large_word(state, word);
        check_left(image, LENGTH, state, 5, 6);
        check_left(image, LENGTH, state, 0, 6);
    }
    const struct {
        size_t word;
        uint32_t value;
    } broken[] = {{JIRVUNTSAG_TYPE(0), 3}, {JIRVUNTSAG_SLOT(0, 0), 4096}, {JIRVUNTSAG_SLOT(0, 2), 1}, {JIRVUNTSAG_DELAY(2), 1}};
    for (size_t one = 0; one < sizeof broken / sizeof broken[0]; one++) {
        memcpy(state, opening, sizeof state);
        state[broken[one].word] = broken[one].value;
        check_left(image, LENGTH, state, 5, 6);
    }
}

/* The clock has all 32 bits, and a step that would pass them is not made. */
static void check_clock(void) {
    uint32_t state[STATE];
    memcpy(state, opening, sizeof state);
    state[0] = UINT32_MAX - 49;
    check_left(image, LENGTH, state, 5, 8);
    state[0] = UINT32_MAX - 50;
    CHECK(jirvuntsag_run_fresh(image, LENGTH, state, 5) == answered(8, 1) && state[0] == UINT32_MAX);
}

static uint64_t trace_afresh(uint32_t *state, uint16_t steps, uint32_t *events, size_t room) {
    return jirvuntsag_trace_fresh(image, LENGTH, state, steps, events, room);
}

void check_fresh_calls(void) {
    check_run();
    check_changed();
    check_each_refused(check_refused_image);
    check_refused_states();
    check_clock();
    check_noted(trace_afresh);
}
