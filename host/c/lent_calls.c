/* The two calls that may be lent a store, on model A: what they learn, refusals, and all that they leave. A part of calls.c. */
#include "calls.h"

#include <string.h>

enum { STORE = JIRVUNTSAG_STORE_WORDS, LONGER = STORE + 9 };

/* A word that nothing is to write over. */
static const uint16_t UNTOUCHED = 0xbeef;

/* What both calls are handed, and left. */
typedef struct {
    uint32_t state[STATE];
    uint32_t events[24];
    uint16_t store[LONGER];
} Lent;

/* The opening, events and a store in which every word is untouched, but for the count of the store, which is `count`. */
static Lent lent_of(uint16_t count) {
    Lent one;
    memcpy(one.state, opening, sizeof one.state);
    memset(one.events, 255, sizeof one.events);
    for (size_t word = 0; word < LONGER; word++)
        one.store[word] = UNTOUCHED;
    one.store[0] = count;
    return one;
}

/* The same with so many facts of type 1, of which none is model A's. */
static Lent filled(uint16_t count) {
    Lent one = lent_of(count);
    for (size_t place = 0; place < count; place++) {
        one.store[JIRVUNTSAG_STORE_TYPE(place)] = 1;
        for (size_t slot = 0; slot < 8; slot++)
            one.store[JIRVUNTSAG_STORE_SLOT(place, slot)] = (uint16_t)(slot == 0 ? 100 + place : 0);
    }
    return one;
}

static int same(const Lent *one, const Lent *other) {
    return memcmp(one->state, other->state, sizeof one->state) == 0 && memcmp(one->events, other->events, sizeof one->events) == 0 &&
           memcmp(one->store, other->store, sizeof one->store) == 0;
}

/* Both calls from the same, with the fresh table: they answer and leave the same. */
static uint64_t lend(Lent *one, uint16_t steps, size_t room, uint16_t lent, size_t length) {
    Lent other = *one;
    uint16_t table[WORDS];
    memcpy(table, fresh, sizeof table);
    uint64_t kept = jirvuntsag_run_lent(image, LENGTH, other.state, table, WORDS, steps, other.events, room, lent, other.store, length);
    uint64_t afresh = jirvuntsag_run_fresh_lent(image, LENGTH, one->state, steps, one->events, room, lent, one->store, length);
    CHECK(kept == afresh && same(one, &other));
    return afresh;
}

/* Model A clears its goal, count 3 3, in its sixth step; `lent` lends the store. */
static void check_learned(uint16_t lent) {
    Lent one = lent_of(0);
    CHECK(lend(&one, 65535, 24, lent, STORE) == answered(9, 7));
    CHECK(one.state[0] == 550 && one.events[0] == 50 && one.events[20] == 150 && one.events[21] == UINT32_MAX);
    const uint16_t learned[] = {1, 2, 3, 3, 0, 0, 0, 0, 0, 0};
    CHECK(memcmp(one.store, learned, sizeof learned) == 0);
    CHECK(one.store[JIRVUNTSAG_STORE_TYPE(0)] == 2 && one.store[JIRVUNTSAG_STORE_SLOT(0, 1)] == 3);
    for (size_t word = 10; word < LONGER; word++)
        CHECK(one.store[word] == UNTOUCHED);
    /* The same store again: what is known is not learned twice. */
    Lent again = lent_of(0);
    memcpy(again.store, one.store, sizeof one.store);
    CHECK(lend(&again, 65535, 24, lent, STORE) == answered(9, 7) && same(&one, &again));
}

/* What is not lent is neither read nor written: it may be null, and of any length. */
static void check_not_lent(void) {
    const uint16_t words[] = {0, 2, 4, 65534};
    const size_t lengths[] = {0, 1, STORE - 1, STORE, LONGER};
    for (size_t word = 0; word < 4; word++)
        for (size_t length = 0; length < 5; length++) {
            Lent one = lent_of(300), before = one;
            CHECK(lend(&one, 65535, 24, words[word], lengths[length]) == answered(9, 7));
            CHECK(memcmp(one.store, before.store, sizeof one.store) == 0);
        }
    uint32_t state[STATE];
    uint16_t table[WORDS];
    memcpy(state, opening, sizeof state);
    CHECK(jirvuntsag_run_fresh_lent(image, LENGTH, state, 65535, NULL, 0, 0, NULL, 0) == answered(9, 7));
    memcpy(state, opening, sizeof state);
    memcpy(table, fresh, sizeof table);
    CHECK(jirvuntsag_run_lent(image, LENGTH, state, table, WORDS, 65535, NULL, 0, 0, NULL, 0) == answered(9, 7) && state[0] == 550);
}

/* 14: five steps are made, and the sixth has no place for its chunk; with one place it has. */
static void check_full(void) {
    Lent full = filled(256), before = full, nearly = filled(255);
    CHECK(lend(&full, 65535, 24, JIRVUNTSAG_LENT_STORE, STORE) == answered(14, 5));
    CHECK(full.state[0] == 350 && memcmp(full.store, before.store, sizeof full.store) == 0);
    CHECK(lend(&nearly, 65535, 24, JIRVUNTSAG_LENT_STORE, STORE) == answered(9, 7));
    CHECK(nearly.store[0] == JIRVUNTSAG_STORE_PLACES && nearly.store[JIRVUNTSAG_STORE_TYPE(255)] == 2);
}

/* A run that is refused leaves every word. */
static void check_left(Lent one, size_t length, uint64_t answer) {
    Lent before = one;
    CHECK(lend(&one, 65535, 24, JIRVUNTSAG_LENT_STORE, length) == answer && same(&one, &before));
    CHECK(lend(&one, 0, 24, JIRVUNTSAG_LENT_STORE, length) == answer && same(&one, &before));
}

/* 15, after 6: another length, a count over 256, and a fact that model A could not hold. */
static void check_refused_stores(void) {
    const size_t lengths[] = {0, 1, 10, STORE - 9, STORE - 1, STORE + 1, STORE + 9};
    for (size_t one = 0; one < sizeof lengths / sizeof lengths[0]; one++)
        check_left(lent_of(0), lengths[one], 15);
    check_left(lent_of(257), STORE, 15);
    check_left(lent_of(65535), STORE, 15);
    const struct {
        size_t word;
        uint16_t value;
    } broken[] = {{JIRVUNTSAG_STORE_TYPE(1), 0},         {JIRVUNTSAG_STORE_TYPE(1), 3},       {JIRVUNTSAG_STORE_TYPE(0), 257},
                  {JIRVUNTSAG_STORE_SLOT(1, 0), 4096},   {JIRVUNTSAG_STORE_SLOT(0, 1), 65535}, {JIRVUNTSAG_STORE_SLOT(1, 2), 1},
                  {JIRVUNTSAG_STORE_SLOT(0, 7), 65535}};
    for (size_t one = 0; one < sizeof broken / sizeof broken[0]; one++) {
        Lent lent = filled(2);
        lent.store[broken[one].word] = broken[one].value;
        check_left(lent, STORE, 15);
        /* Past the count nothing is looked at. */
        lent.store[0] = (uint16_t)((broken[one].word - 1) / 9);
        CHECK(JIRVUNTSAG_NUMBER(lend(&lent, 1, 24, JIRVUNTSAG_LENT_STORE, STORE)) == 0);
    }
    Lent large = lent_of(257);
    large_word(large.state, 7);
    check_left(large, STORE, 6);
}

/* An image that is refused is so before state and store are looked at. */
static void check_refused_image(const uint8_t *handed, size_t length, uint64_t answer) {
    Lent one = lent_of(65535), before = one;
    uint16_t table[WORDS] = {7, 8, 9}, table_before[WORDS] = {7, 8, 9};
    CHECK(jirvuntsag_run_lent(handed, length, one.state, table, WORDS, 5, one.events, 24, 1, one.store, 7) == answer);
    CHECK(jirvuntsag_run_fresh_lent(handed, length, one.state, 5, one.events, 24, 1, one.store, 7) == answer);
    CHECK(same(&one, &before) && memcmp(table, table_before, sizeof table) == 0);
}

void check_lent_calls(void) {
    /* Bit 0 of the word lends the store, whatever the others are. */
    check_learned(JIRVUNTSAG_LENT_STORE);
    check_learned(3);
    check_learned(65535);
    check_not_lent();
    check_full();
    check_refused_stores();
    check_each_refused(check_refused_image);
}
