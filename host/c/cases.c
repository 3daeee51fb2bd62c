/* Reads cases from standard input. */
#include "cases.h"

#include <stdio.h>
#include <stdlib.h>

/* Reads what must be there. */
static void need(void *into, size_t size, size_t count) {
    if (fread(into, size, count, stdin) != count) {
        fprintf(stderr, "standard input ends within a case\n");
        exit(2);
    }
}

/* A word that may not be above `most`. */
static uint32_t need_word(uint32_t most) {
    uint32_t word;
    need(&word, sizeof word, 1);
    if (word > most) {
        fprintf(stderr, "standard input is no list of cases: %lu where at most %lu can stand\n", (unsigned long)word, (unsigned long)most);
        exit(2);
    }
    return word;
}

bool next_case(Case *into) {
    int first = getchar();
    if (first == EOF)
        return false;
    ungetc(first, stdin);
    into->image_length = need_word(LONGEST_IMAGE);
    need(into->image, 1, into->image_length);
    need(into->state, sizeof into->state[0], STATE_WORDS);
    into->table_length = need_word(LONGEST_TABLE);
    need(into->table, sizeof into->table[0], into->table_length);
    into->mark = (uint16_t)need_word(UINT16_MAX);
    into->steps = (uint16_t)need_word(LONGEST_EVENTS / 3);
    into->store_length = need_word(LONGEST_STORE);
    need(into->store, sizeof into->store[0], into->store_length);
    /* Sometimes room for every step, sometimes for fewer, sometimes for a part of one. */
    into->events_length = 3u * into->steps - (into->image_length + into->mark) % (3u * into->steps + 1);
    return true;
}
