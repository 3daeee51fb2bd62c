/* Makes each call on cases, with every buffer lent in exactly its size: edges end|start|heap [short] < CASES.
 * end: each buffer ends where an unmapped page begins. start: each begins where one ends. Both lend what is only read as read-only.
 * heap: each is malloc'ed in its size, for memcheck and AddressSanitizer.
 * short: images are lent one byte shorter than they are said to be, which must be seen: it shows that an overrun would be.
 * Prints how many calls were made and a sum over all answers and all that was left, which is the same in each mode. */
#define _DEFAULT_SOURCE
#include <stdio.h>
#include <stdlib.h>
#include <string.h>
#include <sys/mman.h>
#include <unistd.h>

#include "cases.h"
#include "jirvuntsag.h"

enum { PAGE = 4096, ROOM = LONGEST_IMAGE };
typedef enum { END, START, HEAP } Mode;

/* Room between two unmapped pages, or none in mode heap. */
typedef struct {
    uint8_t *room;
    uint8_t *lent;
} Place;

static Mode mode;
static bool is_short;
static Place image_place, table_place, state_place, events_place, store_place;
static uint64_t sum = 14695981039346656037u;
static unsigned long calls;

static void die(const char *what) {
    perror(what);
    exit(2);
}

/* Maps room with an unmapped page on each side. */
static uint8_t *guarded(void) {
    uint8_t *all = mmap(NULL, ROOM + 2 * PAGE, PROT_NONE, MAP_PRIVATE | MAP_ANONYMOUS, -1, 0);
    if (all == MAP_FAILED || mprotect(all + PAGE, ROOM, PROT_READ | PROT_WRITE) != 0)
        die("mmap");
    return all + PAGE;
}

/* A copy of `size` bytes at the edge of a place. */
static void *lend(Place *place, const void *from, size_t size) {
    if (mode == HEAP) {
        free(place->lent);
        place->lent = malloc(size);
        if (place->lent == NULL && size > 0)
            die("malloc");
    } else {
        if (place->room == NULL)
            place->room = guarded();
        if (mprotect(place->room, ROOM, PROT_READ | PROT_WRITE) != 0)
            die("mprotect");
        place->lent = mode == END ? place->room + ROOM - size : place->room;
    }
    if (size > 0)
        memcpy(place->lent, from, size);
    return place->lent;
}

/* The same, and a write to it is a fault. */
static const void *lend_to_read(Place *place, const void *from, size_t size) {
    lend(place, from, size);
    if (mode != HEAP && mprotect(place->room, ROOM, PROT_READ) != 0)
        die("mprotect");
    return place->lent;
}

/* Takes bytes into the sum. */
static void add(const void *from, size_t size) {
    for (const uint8_t *byte = from; size > 0; byte++, size--)
        sum = (sum ^ *byte) * 1099511628211u;
}

/* Takes an answer and the state that it left into the sum. */
static void note(uint64_t answer, const uint32_t *state) {
    calls++;
    add(&answer, sizeof answer);
    add(state, STATE_WORDS * sizeof state[0]);
}

/* The same, and the table. */
static void note_kept(uint64_t answer, const uint32_t *state, const uint16_t *table, const Case *one) {
    note(answer, state);
    add(table, sizeof one->table[0] * one->table_length);
}

/* Room for events, in which nothing stands yet. */
static uint32_t *lend_events(const Case *one) {
    static const uint32_t unwritten[LONGEST_EVENTS];
    return lend(&events_place, unwritten, sizeof unwritten[0] * one->events_length);
}

static uint32_t *lend_state(const Case *one) { return lend(&state_place, one->state, sizeof one->state); }
static uint16_t *lend_table(const Case *one) { return lend(&table_place, one->table, sizeof one->table[0] * one->table_length); }

/* Each call that takes a table, on its own copies. */
static void make_kept_calls(const Case *one, const uint8_t *image) {
    size_t length = one->image_length, words = one->table_length;
    uint16_t *table = lend_table(one);
    uint32_t *state = lend_state(one);
    note_kept(jirvuntsag_open(image, length, table, words, state), state, table, one);
    table = lend_table(one);
    state = lend_state(one);
    note_kept(jirvuntsag_run(image, length, state, table, words, one->steps), state, table, one);
    table = lend_table(one);
    state = lend_state(one);
    uint32_t *events = lend_events(one);
    note_kept(jirvuntsag_trace(image, length, state, table, words, one->steps, events, one->events_length), state, table, one);
    add(events, sizeof events[0] * one->events_length);
    table = lend_table(one);
    const uint32_t *read = lend_to_read(&state_place, one->state, sizeof one->state);
    note_kept(jirvuntsag_refresh(image, length, read, one->mark, table, words), read, table, one);
}

/* Each call that makes steps without a table, on its own copies. */
static void make_fresh_calls(const Case *one, const uint8_t *image) {
    uint32_t *state = lend_state(one);
    note(jirvuntsag_run_fresh(image, one->image_length, state, one->steps), state);
    state = lend_state(one);
    uint32_t *events = lend_events(one);
    note(jirvuntsag_trace_fresh(image, one->image_length, state, one->steps, events, one->events_length), state);
    add(events, sizeof events[0] * one->events_length);
}

/* Takes the store that a call left into the sum. */
static void note_store(const uint16_t *store, const Case *one) { add(store, sizeof one->store[0] * one->store_length); }

static uint16_t *lend_store(const Case *one) { return lend(&store_place, one->store, sizeof one->store[0] * one->store_length); }

/* Each call that may be lent a store, on its own copies; and with a store that is there and not lent, which must not be looked at. */
static void make_lent_calls(const Case *one, const uint8_t *image, uint16_t lent) {
    size_t length = one->image_length, words = one->table_length;
    uint16_t *table = lend_table(one), *store = lend_store(one);
    uint32_t *state = lend_state(one), *events = lend_events(one);
    note_kept(jirvuntsag_run_lent(image, length, state, table, words, one->steps, events, one->events_length, lent, store, one->store_length),
              state, table, one);
    add(events, sizeof events[0] * one->events_length);
    note_store(store, one);
    store = lend_store(one);
    state = lend_state(one);
    events = lend_events(one);
    note(jirvuntsag_run_fresh_lent(image, length, state, one->steps, events, one->events_length, lent, store, one->store_length), state);
    add(events, sizeof events[0] * one->events_length);
    note_store(store, one);
}

static void make_calls(const Case *one) {
    size_t lent = one->image_length - (is_short && one->image_length > 0);
    const uint8_t *image = lend_to_read(&image_place, one->image, lent);
    uint64_t answer = jirvuntsag_table_len(image, one->image_length);
    add(&answer, sizeof answer);
    calls++;
    make_kept_calls(one, image);
    make_fresh_calls(one, image);
    make_lent_calls(one, image, JIRVUNTSAG_LENT_STORE);
    make_lent_calls(one, image, 0);
}

int main(int count, char **arguments) {
    static Case one;
    const char *asked = count >= 2 ? arguments[1] : "";
    is_short = count == 3 && strcmp(arguments[2], "short") == 0;
    if (strcmp(asked, "start") == 0)
        mode = START;
    else if (strcmp(asked, "heap") == 0)
        mode = HEAP;
    if (count != 2 + is_short || (mode == END && strcmp(asked, "end") != 0)) {
        fprintf(stderr, "usage: edges end|start|heap [short] < CASES\n");
        return 2;
    }
    unsigned long cases = 0;
    for (; next_case(&one); cases++)
        make_calls(&one);
    Place *places[] = {&image_place, &table_place, &state_place, &events_place};
    for (size_t place = 0; mode == HEAP && place < 4; place++)
        free(places[place]->lent);
    printf("%lu cases, %lu calls, sum %016llx\n", cases, calls, (unsigned long long)sum);
    return cases > 0 ? 0 : 1;
}
