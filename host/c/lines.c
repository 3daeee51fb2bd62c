/* Runs the model image at a path by jirvuntsag_run_lent and prints a line for each step: lines PATH [fresh].
 * With the word fresh it runs by jirvuntsag_run_fresh_lent, which takes no table; the lines are the same. Both are lent an empty store, as
 * the printing program lends one: what is cleared is learned.
 * Of an image that is refused the last line alone is printed, and to standard error its number and the position that goes with it. */
#include <stdbool.h>
#include <stdio.h>
#include <stdlib.h>
#include <string.h>

#include "jirvuntsag.h"

enum { IMAGE = 65537, RULES = 256, STEPS = 1000 };

static uint8_t image[IMAGE];
static uint16_t table[9 * RULES];
static uint32_t events[3 * STEPS];
static uint16_t store[JIRVUNTSAG_STORE_WORDS];

/* Reads at most one byte more than an image can have, so that a longer file is refused as one. */
static size_t read_image(const char *path) {
    FILE *file = fopen(path, "rb");
    if (file == NULL) {
        perror(path);
        exit(2);
    }
    size_t length = fread(image, 1, IMAGE, file);
    fclose(file);
    return length;
}

int main(int count, char **arguments) {
    bool is_fresh = count == 3 && strcmp(arguments[2], "fresh") == 0;
    if (count != 2 + is_fresh) {
        fprintf(stderr, "usage: lines PATH [fresh]\n");
        return 2;
    }
    size_t length = read_image(arguments[1]);
    size_t words = JIRVUNTSAG_COUNT(jirvuntsag_table_len(image, length));
    uint32_t state[JIRVUNTSAG_STATE_WORDS];
    uint64_t answer = jirvuntsag_open(image, length, table, words, state);
    if (JIRVUNTSAG_NUMBER(answer) != 0)
        fprintf(stderr, "%s: refused with %lu, position %lu\n", arguments[1], (unsigned long)JIRVUNTSAG_NUMBER(answer),
                (unsigned long)JIRVUNTSAG_POSITION(answer));
    else if (is_fresh)
        answer = jirvuntsag_run_fresh_lent(image, length, state, STEPS, events, 3 * STEPS, JIRVUNTSAG_LENT_STORE, store, JIRVUNTSAG_STORE_WORDS);
    else
        answer = jirvuntsag_run_lent(image, length, state, table, words, STEPS, events, 3 * STEPS, JIRVUNTSAG_LENT_STORE, store,
                                     JIRVUNTSAG_STORE_WORDS);
    for (uint32_t step = 0; step < JIRVUNTSAG_COUNT(answer); step++) {
        const uint32_t *event = events + 3 * step;
        printf("%lu %s %lu\n", (unsigned long)event[0], event[1] == 0 ? "fire" : "wait", (unsigned long)event[2]);
    }
    printf("end %lu %lu\n", (unsigned long)JIRVUNTSAG_NUMBER(answer), (unsigned long)JIRVUNTSAG_COUNT(answer));
    return 0;
}
