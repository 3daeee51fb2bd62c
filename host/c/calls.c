/* The functions of jirvuntsag.h on model A, answers and all that they leave; those without a table are in fresh_calls.c, those
 * with a store in lent_calls.c, queries and error flags in asking_calls.c, and the images that are refused in refused.c. Also compiled as
 * C++. Exits with 1 at the first that differs. */
#include "calls.h"

#include <string.h>

uint8_t image[LENGTH];
uint16_t fresh[WORDS];
uint32_t opening[STATE];

static void read_image(const char *path) {
    FILE *file = fopen(path, "rb");
    CHECK(file != NULL && fread(image, 1, LENGTH, file) == LENGTH && fgetc(file) == EOF);
    fclose(file);
}

uint64_t answered(uint32_t number, uint32_t count) {
    return number + 65536 * (uint64_t)count;
}

void large_word(uint32_t state[STATE], size_t word) {
    const uint32_t large[] = {65536, 65537, 131072, 1u << 31, UINT32_MAX};
    memcpy(state, opening, sizeof opening);
    state[word] += large[word % 5];
}

/* Opens model A, and hands it a table that is too short. */
static void check_open(void) {
    CHECK(jirvuntsag_table_len(image, LENGTH) == answered(0, WORDS));
    CHECK(jirvuntsag_open(image, LENGTH, fresh, WORDS, opening) == 0);
    CHECK(opening[0] == 0 && opening[1] == 2 && opening[2] == 1 && opening[3] == 3 && opening[12] == 0);
    CHECK(fresh[0] == 1 && fresh[1] == 1 && fresh[9] == 0 && fresh[18] == 0);
    uint16_t table[WORDS] = {7, 8, 9}, before[WORDS] = {7, 8, 9};
    uint32_t state[STATE], zeros[STATE] = {0};
    memset(state, 255, sizeof state);
    CHECK(jirvuntsag_open(image, LENGTH, table, WORDS - 1, state) == 5);
    CHECK(memcmp(state, zeros, sizeof state) == 0 && memcmp(table, before, sizeof table) == 0);
}

/* An image without rules needs no words and is accepted; without its last byte it needs none and is refused. */
static void check_without_rules(void) {
    const uint8_t nothing[8] = {1, 16, 0, 0, 0, 0, 0, 0};
    uint32_t state[STATE];
    CHECK(jirvuntsag_table_len(nothing, 8) == 0);
    CHECK(jirvuntsag_open(nothing, 8, NULL, 0, state) == 0);
    uint64_t refused = jirvuntsag_table_len(nothing, 7);
    CHECK(JIRVUNTSAG_NUMBER(refused) == 2 && JIRVUNTSAG_COUNT(refused) == 0 && JIRVUNTSAG_POSITION(refused) == 53);
}

/* Every call that takes a table, and the table's length: state, table and events come back as they were, from open a state of zeros. */
static void check_refused(const uint8_t *handed, size_t length, uint64_t answer) {
    uint16_t table[WORDS] = {7, 8, 9}, before[WORDS] = {7, 8, 9};
    uint32_t state[STATE], ones[STATE], zeros[STATE] = {0}, events[3] = {1, 2, 3};
    memset(ones, 255, sizeof ones);
    memset(state, 255, sizeof state);
    CHECK(jirvuntsag_table_len(handed, length) == answer);
    CHECK(jirvuntsag_run(handed, length, state, table, WORDS, 5) == answer);
    CHECK(jirvuntsag_run(handed, length, state, table, WORDS - 1, 0) == answer);
    CHECK(jirvuntsag_trace(handed, length, state, table, WORDS, 5, events, 3) == answer);
    CHECK(jirvuntsag_refresh(handed, length, state, 65535, table, WORDS) == answer);
    CHECK(memcmp(state, ones, sizeof state) == 0 && events[0] == 1 && events[1] == 2 && events[2] == 3);
    CHECK(jirvuntsag_open(handed, length, table, WORDS - 1, state) == answer);
    CHECK(memcmp(state, zeros, sizeof state) == 0 && memcmp(table, before, sizeof table) == 0);
}

/* Runs one step, then all. */
static void check_run(void) {
    uint16_t table[WORDS];
    uint32_t state[STATE];
    memcpy(table, fresh, sizeof table);
    memcpy(state, opening, sizeof state);
    CHECK(jirvuntsag_run(image, LENGTH, state, table, WORDS, 1) == answered(0, 1));
    CHECK(state[0] == 50 && state[12] == 1 && state[13] == 1 && state[14] == 2 && state[21] == 100 && state[22] == 0);
    CHECK(jirvuntsag_run(image, LENGTH, state, table, WORDS, 0) == 0);
    CHECK(jirvuntsag_run(image, LENGTH, state, table, WORDS, 65535) == answered(9, 6));
    CHECK(state[0] == 550);
    /* The chosen entry with another value for its variable than the goal has. */
    memcpy(table, fresh, sizeof table);
    memcpy(state, opening, sizeof state);
    table[1] = 2;
    CHECK(jirvuntsag_run(image, LENGTH, state, table, WORDS, 5) == 7);
    CHECK(jirvuntsag_run(image, LENGTH, state, table, WORDS - 1, 5) == 5);
}

/* A word that is too large for its field is 6 in each call, and every word comes back as it was. */
static void check_large_words(void) {
    for (size_t word = 1; word < STATE; word++) {
        uint32_t state[STATE], before[STATE], events[3] = {1, 2, 3};
        uint16_t table[WORDS];
        memcpy(table, fresh, sizeof table);
        large_word(state, word);
        memcpy(before, state, sizeof state);
        CHECK(jirvuntsag_run(image, LENGTH, state, table, WORDS, 5) == 6);
        CHECK(jirvuntsag_trace(image, LENGTH, state, table, WORDS, 5, events, 3) == 6);
        CHECK(jirvuntsag_refresh(image, LENGTH, state, 1, table, WORDS) == 6);
        CHECK(memcmp(state, before, sizeof state) == 0 && memcmp(table, fresh, sizeof table) == 0);
        CHECK(events[0] == 1 && events[1] == 2 && events[2] == 3);
    }
    /* The clock has all 32 bits. */
    uint32_t state[STATE];
    uint16_t table[WORDS];
    memcpy(table, fresh, sizeof table);
    memcpy(state, opening, sizeof state);
    state[0] = UINT32_MAX;
    CHECK(jirvuntsag_run(image, LENGTH, state, table, WORDS, 5) == 8 && state[0] == UINT32_MAX);
}

void check_noted(Trace trace) {
    const uint32_t noted[] = {50, 0, 0, 150, 1, 100, 200, 0, 1, 300, 1, 100};
    for (size_t room = 0; room <= 12; room++) {
        uint32_t state[STATE], events[16];
        memset(events, 255, sizeof events);
        memcpy(state, opening, sizeof state);
        CHECK(trace(state, 4, events, room) == answered(0, 4));
        CHECK(state[0] == 300);
        for (size_t word = 0; word < 16; word++)
            CHECK(events[word] == (word < room / 3 * 3 ? noted[word] : UINT32_MAX));
    }
}

static uint64_t trace_kept(uint32_t *state, uint16_t steps, uint32_t *events, size_t room) {
    uint16_t table[WORDS];
    memcpy(table, fresh, sizeof table);
    return jirvuntsag_trace(image, LENGTH, state, table, WORDS, steps, events, room);
}

/* Only the rules that test a marked buffer are counted and written; model A has no queries. */
static void check_refresh(void) {
    uint16_t table[WORDS];
    memset(table, 255, sizeof table);
    CHECK(jirvuntsag_refresh(image, LENGTH, opening, 4, table, WORDS) == 10);
    CHECK(jirvuntsag_refresh(image, LENGTH, opening, 0, table, WORDS) == 0);
    for (size_t word = 0; word < WORDS; word++)
        CHECK(table[word] == 65535);
    CHECK(jirvuntsag_refresh(image, LENGTH, opening, 2, table, WORDS) == answered(0, 2));
    for (size_t word = 0; word < WORDS; word++)
        CHECK(table[word] == (word < 18 ? fresh[word] : 65535));
    CHECK(jirvuntsag_refresh(image, LENGTH, opening, 1, table, WORDS) == answered(0, 3));
    CHECK(memcmp(table, fresh, sizeof table) == 0);
}

/* What the header has besides the calls: the parts of an answer, where words stand in a state, steps from an int, the version. */
static void check_header(void) {
    const uint64_t answer = 0xfedcba9887654321u;
    CHECK(JIRVUNTSAG_NUMBER(answer) == 0x4321 && JIRVUNTSAG_COUNT(answer) == 0x8765 && JIRVUNTSAG_POSITION(answer) == 0xfedcba98u);
    CHECK(opening[JIRVUNTSAG_TYPE(0)] == 2 && opening[JIRVUNTSAG_SLOT(0, 0)] == 1 && opening[JIRVUNTSAG_SLOT(0, 1)] == 3);
    uint16_t table[WORDS];
    uint32_t state[STATE];
    memcpy(table, fresh, sizeof table);
    memcpy(state, opening, sizeof state);
    CHECK(jirvuntsag_run(image, LENGTH, state, table, WORDS, 1) == answered(0, 1));
    CHECK(state[JIRVUNTSAG_TYPE(1)] == 1 && state[JIRVUNTSAG_SLOT(1, 1)] == 2 && state[JIRVUNTSAG_DELAY(1)] == 100);
    CHECK(JIRVUNTSAG_DELAY(7) == STATE - 2 && JIRVUNTSAG_ERROR(7) == STATE - 1 && JIRVUNTSAG_ERROR(0) == JIRVUNTSAG_TYPE(1) - 1);
    int many = 65536;
    CHECK((uint16_t)many == 0 && jirvuntsag_steps(many) == 65535 && jirvuntsag_steps(many - 1) == 65535);
    CHECK(jirvuntsag_steps(-1) == 0 && jirvuntsag_steps(0) == 0 && jirvuntsag_steps(7u) == 7);
    CHECK(jirvuntsag_run(image, LENGTH, state, table, WORDS, jirvuntsag_steps(many)) == answered(9, 6));
    char version[32];
    snprintf(version, sizeof version, "%d.%d.%d", JIRVUNTSAG_VERSION_MAJOR, JIRVUNTSAG_VERSION_MINOR, JIRVUNTSAG_VERSION_PATCH);
    CHECK(strcmp(version, JIRVUNTSAG_VERSION) == 0 && strcmp(jirvuntsag_version(), JIRVUNTSAG_VERSION) == 0);
}

int main(int count, char **arguments) {
    if (count != 2) {
        fprintf(stderr, "usage: calls PATH (the image of model A)\n");
        return 2;
    }
    read_image(arguments[1]);
    check_open();
    check_without_rules();
    check_each_refused(check_refused);
    check_run();
    check_large_words();
    check_noted(trace_kept);
    check_refresh();
    check_fresh_calls();
    check_lent_calls();
    check_asking_calls();
    check_header();
    return 0;
}
