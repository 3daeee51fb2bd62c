/* What the checks of the calls share: model A, what opening it leaves, an image with queries, and a check that holds in every build. */
#ifndef CALLS_H
#define CALLS_H

#include <stdio.h>
#include <stdlib.h>

#include "jirvuntsag.h"

/* Bytes of model A's image, words of its table, words of a state; bytes of the image with queries. */
enum { LENGTH = 71, WORDS = 27, STATE = JIRVUNTSAG_STATE_WORDS, ASKING = 14 };

/* A check that holds in every build, unlike assert. */
#define CHECK(holds)                                                            \
    do {                                                                        \
        if (!(holds)) {                                                         \
            fprintf(stderr, "%s:%d: not so: %s\n", __FILE__, __LINE__, #holds); \
            exit(1);                                                            \
        }                                                                       \
    } while (0)

/* The image of model A, and the table and the state that it opens with. */
extern uint8_t image[LENGTH];
extern uint16_t fresh[WORDS];
extern uint32_t opening[STATE];

/* An image of version 2, in asking_calls.c: two buffers, and a rule without tests, which asks whether buffer 0 is free and buffer 1 in
 * error, and clears buffer 1. */
extern const uint8_t asking[ASKING];

/* An answer of this number and count, with no position. */
uint64_t answered(uint32_t number, uint32_t count);

/* A check of what the calls answer to an image that is refused: a number and a position, and no count. */
typedef void (*Refusal)(const uint8_t *handed, size_t length, uint64_t answer);

/* Makes a check on every image of refused.c: each number and each rule of a field, from the smallest change that has it of model A, or of
 * the image with queries. */
void check_each_refused(Refusal check);

/* The opening with a word that is too large for its field: each word after the clock has one of several numbers over 65,535 added, which
 * is too large for an error flag too. */
void large_word(uint32_t state[STATE], size_t word);

/* A trace of model A from its opening, by one of the two engines. */
typedef uint64_t (*Trace)(uint32_t *state, uint16_t steps, uint32_t *events, size_t room);

/* Events are noted as far as there is room, and no word past those of the steps made is written. */
void check_noted(Trace trace);

/* The two calls without a table, in fresh_calls.c. */
void check_fresh_calls(void);

/* The two calls that may be lent a store, in lent_calls.c. */
void check_lent_calls(void);

/* Queries and error flags, in asking_calls.c. */
void check_asking_calls(void);

#endif
