/* Cases that `cargo run --example cases` in host/generate writes: what the calls are handed. */
#ifndef CASES_H
#define CASES_H

#include <stdbool.h>
#include <stdint.h>
#include <stddef.h>

/* Bytes of the longest image in a case, words of its longest table and store, and words for the events of a run. */
enum { LONGEST_IMAGE = 1 << 17, LONGEST_TABLE = 4096, LONGEST_STORE = 4096, LONGEST_EVENTS = 3 * 300, STATE_WORDS = 89 };

typedef struct {
    uint32_t image_length, table_length, events_length, store_length;
    uint16_t mark, steps;
    uint8_t image[LONGEST_IMAGE];
    uint16_t table[LONGEST_TABLE];
    uint32_t state[STATE_WORDS];
    uint16_t store[LONGEST_STORE];
} Case;

/* The next case of standard input; false where it ends. A case that is cut or too long ends the program with status 2. */
bool next_case(Case *into);

#endif
