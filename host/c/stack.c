/* How much stack each call uses, over cases: stack [BOUND] < CASES.
 * Each call runs on a stack of its own, of BOUND bytes (131,072 if none is given), which is painted before it and has an unmapped page
 * below it, so that a call that needs more ends the program by a signal. Prints the bytes from the stack's top down to the lowest that was
 * written, for the first case (model A), for the second (the largest image), and the most over all. */
#define _DEFAULT_SOURCE
#include <stdio.h>
#include <stdlib.h>
#include <string.h>
#include <sys/mman.h>
#include <ucontext.h>

#include "cases.h"
#include "jirvuntsag.h"

enum { PAGE = 4096, CALLS = 10, PAINT = 0xa5 };
typedef enum { NOTHING, TABLE_LEN, OPEN, RUN, TRACE, REFRESH, RUN_FRESH, TRACE_FRESH, RUN_LENT, RUN_FRESH_LENT } Call;
static const char *const NAMES[CALLS] = {
    "nothing",          "jirvuntsag_table_len",      "jirvuntsag_open",      "jirvuntsag_run",         "jirvuntsag_trace",
    "jirvuntsag_refresh", "jirvuntsag_run_fresh", "jirvuntsag_trace_fresh", "jirvuntsag_run_lent", "jirvuntsag_run_fresh_lent",
};

static Case one;
/* Copies of what the case holds, so that each call is handed the same. */
static uint16_t table[LONGEST_TABLE];
static uint32_t state[STATE_WORDS];
static uint32_t events[LONGEST_EVENTS];
static uint16_t store[LONGEST_STORE];
static Call called;
static ucontext_t here, there;

static void make_call(void) {
    size_t length = one.image_length, words = one.table_length;
    switch (called) {
    case NOTHING: break;
    case TABLE_LEN: jirvuntsag_table_len(one.image, length); break;
    case OPEN: jirvuntsag_open(one.image, length, table, words, state); break;
    case RUN: jirvuntsag_run(one.image, length, state, table, words, one.steps); break;
    case TRACE: jirvuntsag_trace(one.image, length, state, table, words, one.steps, events, one.events_length); break;
    case REFRESH: jirvuntsag_refresh(one.image, length, state, one.mark, table, words); break;
    case RUN_FRESH: jirvuntsag_run_fresh(one.image, length, state, one.steps); break;
    case TRACE_FRESH: jirvuntsag_trace_fresh(one.image, length, state, one.steps, events, one.events_length); break;
    case RUN_LENT:
        jirvuntsag_run_lent(one.image, length, state, table, words, one.steps, events, one.events_length, 1, store, one.store_length);
        break;
    case RUN_FRESH_LENT:
        jirvuntsag_run_fresh_lent(one.image, length, state, one.steps, events, one.events_length, 1, store, one.store_length);
        break;
    }
}

/* The bytes of a painted stack that a call wrote to, from the top down. */
static size_t used_by(Call call, uint8_t *stack, size_t bound) {
    memcpy(table, one.table, sizeof table);
    memcpy(state, one.state, sizeof state);
    memcpy(store, one.store, sizeof store);
    memset(stack, PAINT, bound);
    if (getcontext(&there) != 0)
        exit(2);
    there.uc_stack.ss_sp = stack;
    there.uc_stack.ss_size = bound;
    there.uc_link = &here;
    called = call;
    makecontext(&there, make_call, 0);
    if (swapcontext(&here, &there) != 0)
        exit(2);
    size_t untouched = 0;
    while (untouched < bound && stack[untouched] == PAINT)
        untouched++;
    return bound - untouched;
}

int main(int count, char **arguments) {
    size_t bound = count == 2 ? strtoul(arguments[1], NULL, 10) : 1 << 17;
    if (count > 2 || bound < PAGE || bound % PAGE != 0) {
        fprintf(stderr, "usage: stack [BOUND] < CASES (BOUND in bytes, a multiple of %d)\n", PAGE);
        return 2;
    }
    uint8_t *below = mmap(NULL, bound + PAGE, PROT_READ | PROT_WRITE, MAP_PRIVATE | MAP_ANONYMOUS, -1, 0);
    if (below == MAP_FAILED || mprotect(below, PAGE, PROT_NONE) != 0) {
        perror("mmap");
        return 2;
    }
    size_t first[CALLS] = {0}, second[CALLS] = {0}, most[CALLS] = {0};
    unsigned long cases = 0;
    for (; next_case(&one); cases++)
        for (int call = NOTHING; call < CALLS; call++) {
            size_t used = used_by((Call)call, below + PAGE, bound);
            if (cases < 2)
                (cases == 0 ? first : second)[call] = used;
            if (used > most[call])
                most[call] = used;
        }
    printf("| call | model A | largest image | most of %lu cases |\n|---|---|---|---|\n", cases);
    for (int call = NOTHING; call < CALLS; call++)
        printf("| `%s` | %zu | %zu | %zu |\n", NAMES[call], first[call], second[call], most[call]);
    return cases > 0 ? 0 : 1;
}
