/* Jirvuntsag: runs ACT-R models from a packed image.
 *
 * No call allocates, keeps anything between calls, or fails: whatever it is handed, it does its work or answers a number.
 * A call needs less than 131,072 bytes of stack. Calls in several threads need no lock, as long as each has its own state, table and store.
 * Every pointer must point to as much as its length says, and what a call writes must not overlap what else it is handed.
 *
 * Numbers: 0 all that was asked is done; 1 image over 65,536 bytes; 2 a field is not wholly there;
 * 3 a version, count, type or kind breaks its rule; 4 a pad bit is 1, or a byte follows; 5 the table's length is not 9 x rules;
 * 6 the state is not well formed; 7 the chosen entry is not the fresh one; 8 the clock would pass 4,294,967,295;
 * 9 halted before the steps asked were made; 10 the mark is 2 to the power of the buffer count, or more;
 * 11 a mask has a bit past the type's slots; 12 a variable is not below the rule's count, or stands in no test;
 * 13 a buffer does not exist, does not rise, or is modified untested; 14 the store would have more than 256 facts;
 * 15 the store has other than 256 places, a count over 256, or a fact that the image could not hold.
 *
 * With 2, 3, 11, 12 and 13, which are about a field of the image, goes the position of the field's first bit: bits count from 0, and the
 * most significant bit of byte 0 is bit 0. A term is one field, which begins with its kind bit. Of a variable that stands in no test it is the
 * bit after the rule's last test, of a buffer that is modified untested the action's kind field. With every other number it is 0.
 * It is the first field in reading order that is refused: those before it are in order, and what follows changes nothing.
 *
 * A state is 89 words: the clock in ms, then for each of the eight buffers its type, eight slot values, its delay in ms and its error flag,
 * which is 0 or 1. A type, slot or delay over 65,535 makes the state not well formed (6); so does a flag over 1, and a flag of 1 beside a
 * chunk other than nil or in a buffer past the image's count.
 * The flag is set when a request finds no fact, and any other action on the buffer clears it: so it is for images of both versions. Rules of
 * version 2 can ask a buffer whether it is busy (its delay is above 0), free (its delay is 0), or in error (visible with its flag set).
 * A table is nine 16-bit words for each rule: 1 and the values of variables 0 to 7 if the rule matches, nine zeros if not.
 * No variable takes an empty slot: of a rule that matches, those that are 0 are the variables that it does not have.
 *
 * Two engines make steps. jirvuntsag_run and jirvuntsag_trace keep the matches of all rules in a table from step to step and from call to
 * call: for who must be quick, as a tutor that answers between two keystrokes. jirvuntsag_run_fresh and jirvuntsag_trace_fresh take no
 * table and match every rule afresh at each step: for who wants nothing kept that could outlive its chunk, as a memory laboratory.
 * Nobody can tell them apart: for every accepted image and every state the second give the number, count, state and events that the
 * first give from the fresh table, and a refused image gets its number and position from all.
 *
 * jirvuntsag_run_lent and jirvuntsag_run_fresh_lent may be lent a store, where a run learns: when a rule clears a visible buffer that holds
 * another chunk than nil, that chunk joins the store, unless the image or the store has a fact of the same type and slots. It is a fact of
 * activation 0 and a latency of 50 ms from the next step on, after those of the image. What is pending when it is cleared, and what a request
 * replaces, is not learned. The other calls are these with nothing lent, and learn nothing.
 * A store is 2,305 16-bit words: the count, then 256 places of nine words, the type and eight slot values of a learned fact. All zeros is
 * the empty store. Only the places below the count are read; a run writes to the places from the count on, in the order learned, and raises
 * the count. It may be kept, copied, and lent to the next run, of either engine.
 */
#ifndef JIRVUNTSAG_H
#define JIRVUNTSAG_H

#include <stddef.h>
#include <stdint.h>

#ifdef __cplusplus
extern "C" {
#endif

/* The version of this header, and by a function that of the library that is linked. */
#define JIRVUNTSAG_VERSION_MAJOR 0
#define JIRVUNTSAG_VERSION_MINOR 7
#define JIRVUNTSAG_VERSION_PATCH 0
#define JIRVUNTSAG_VERSION "0.7.0"
const char *jirvuntsag_version(void);

#define JIRVUNTSAG_STATE_WORDS 89

/* Where a buffer's type, its slot values, its delay and its error flag stand in a state, by the buffer's number from 0 on; the clock is
 * word 0. */
#define JIRVUNTSAG_TYPE(buffer) (1 + 11 * (buffer))
#define JIRVUNTSAG_SLOT(buffer, slot) (2 + 11 * (buffer) + (slot))
#define JIRVUNTSAG_DELAY(buffer) (10 + 11 * (buffer))
#define JIRVUNTSAG_ERROR(buffer) (11 + 11 * (buffer))

/* What a word says is lent: a store. Its other bits say nothing yet; leave them 0. */
#define JIRVUNTSAG_LENT_STORE 1

/* The words and the places of a store. Where the type and the slot values of a learned fact stand in it, by its place from 0 on; the count is
 * word 0. */
#define JIRVUNTSAG_STORE_WORDS 2305
#define JIRVUNTSAG_STORE_PLACES 256
#define JIRVUNTSAG_STORE_TYPE(place) (1 + 9 * (place))
#define JIRVUNTSAG_STORE_SLOT(place, slot) (2 + 9 * (place) + (slot))

/* Every call answers 64 bits: the number (0 to 15) in the low 16, in the next 16 the count, which is the steps made, the rules counted or the
 * words needed, and in the upper 32 the position, at most 524,288. Each of these is a uint32_t. */
#define JIRVUNTSAG_NUMBER(answer) ((uint32_t)((uint64_t)(answer) & 0xffffu))
#define JIRVUNTSAG_COUNT(answer) ((uint32_t)((uint64_t)(answer) >> 16 & 0xffffu))
#define JIRVUNTSAG_POSITION(answer) ((uint32_t)((uint64_t)(answer) >> 32))

/* Steps and marks have 16 bits, and C cuts a larger int without a word: 65,536 steps would be none. This gives the steps nearest to a
 * number, 0 to 65,535; a run that answers 0 has made all of them, and can be called again for the others. */
static inline uint16_t jirvuntsag_steps(int64_t number) {
    return (uint16_t)(number < 0 ? 0 : number > 65535 ? 65535 : number);
}

/* Answers a number (0 to 4, or 11 to 13), its position, and as the count the words that the table of this image needs: 9 for each rule, at
 * most 2,304; 0 if it is refused. An image without rules needs none either: its number is 0. */
uint64_t jirvuntsag_table_len(const uint8_t *image, size_t image_len);

/* Opens an image. Answers a number (0 to 5, or 11 to 13) and its position; the count is 0.
 * Leaves: at 0 the opening state and the fresh table; otherwise a state of zeros, and the table as it was. */
uint64_t jirvuntsag_open(const uint8_t *image, size_t image_len, uint16_t *table, size_t table_len, uint32_t state[89]);

/* Runs at most `steps` steps, up to 65,535 (jirvuntsag_steps). Answers a number (0 to 9, or 11 to 13), its position, and the steps made.
 * Leaves: the state and the table after the steps made; at 1 to 6 and 11 to 13 both as they were, and no step is made. */
uint64_t jirvuntsag_run(const uint8_t *image, size_t image_len, uint32_t state[89], uint16_t *table, size_t table_len, uint16_t steps);

/* Runs as jirvuntsag_run does, with the same answer, and notes step k (from 0) in events[3 k .. 3 k + 2], if these are there:
 * the clock after the step; 0 and the rule that fired, or 1 and the ms waited.
 * Leaves: as jirvuntsag_run; the words of events past those of the steps made as they were. */
uint64_t jirvuntsag_trace(const uint8_t *image, size_t image_len, uint32_t state[89], uint16_t *table, size_t table_len, uint16_t steps,
                          uint32_t *events, size_t events_len);

/* Makes the entries of the rules that test or query a marked buffer afresh; buffer b has weight 2 to the power b in `mark`.
 * Answers a number (0 to 6, or 10 to 13), its position, and how many rules these are (0 if the number is not 0).
 * Leaves: at 0 these rules' entries fresh and the others as they were; otherwise the table as it was. The state is only read. */
uint64_t jirvuntsag_refresh(const uint8_t *image, size_t image_len, const uint32_t state[89], uint16_t mark, uint16_t *table, size_t table_len);

/* Runs at most `steps` steps, up to 65,535 (jirvuntsag_steps), without a table: at each step every rule is matched afresh, and nothing is
 * kept between two steps but the state. What jirvuntsag_open leaves may be handed in, or any other state; the table that it filled is not
 * needed, and a buffer may be changed between two calls without a refresh.
 * Answers a number, its position, and the steps made: what jirvuntsag_run answers that is handed the fresh table of the state. The number
 * is 0 to 4, 6, 8, 9 or 11 to 13; there is no table that could be of another length (5) or stale (7).
 * Leaves: the state after the steps made; at 1 to 4, 6 and 11 to 13 as it was, and no step is made. A table that was kept for the state
 * before does not fit the state after: refresh it with all buffers marked before jirvuntsag_run is handed it. */
uint64_t jirvuntsag_run_fresh(const uint8_t *image, size_t image_len, uint32_t state[89], uint16_t steps);

/* Runs as jirvuntsag_run_fresh does, with the same answer, and notes each step in events as jirvuntsag_trace does.
 * Leaves: as jirvuntsag_run_fresh; the words of events past those of the steps made as they were. */
uint64_t jirvuntsag_trace_fresh(const uint8_t *image, size_t image_len, uint32_t state[89], uint16_t steps, uint32_t *events, size_t events_len);

/* Runs as jirvuntsag_trace does, where a store may be lent: `lent` says what is, 0 nothing, JIRVUNTSAG_LENT_STORE a store. What is not lent
 * is neither read nor written, whatever its length; a null pointer of length 0 will do. No events are noted where events_len is 0.
 * Answers a number (0 to 9, or 11 to 15), its position, and the steps made. 15 comes after 6: the store's length is not 2,305, its count is
 * over 256, or a place below the count has a type of 0 or past the image's, a value over 4,095, or a value in a slot past the type's count.
 * 14 comes after 8: there are not places enough for the chunks that a step would add.
 * Leaves: the state, the table and the store after the steps made; at 1 to 6, 11 to 13 and 15 all as they were, and no step is made. At 14
 * the step in question changes nothing. The places of the store past its count stay as they were, word for word. */
uint64_t jirvuntsag_run_lent(const uint8_t *image, size_t image_len, uint32_t state[89], uint16_t *table, size_t table_len, uint16_t steps,
                             uint32_t *events, size_t events_len, uint16_t lent, uint16_t *store, size_t store_len);

/* Runs as jirvuntsag_trace_fresh does, where a store may be lent as above. Answers, and leaves in state, events and store, what
 * jirvuntsag_run_lent does that is handed the fresh table of the state and the same store: a number (0 to 4, 6, 8, 9 or 11 to 15), its
 * position, and the steps made.
 * Leaves: the state and the store after the steps made; at 1 to 4, 6, 11 to 13 and 15 both as they were, and no step is made. */
uint64_t jirvuntsag_run_fresh_lent(const uint8_t *image, size_t image_len, uint32_t state[89], uint16_t steps, uint32_t *events,
                                   size_t events_len, uint16_t lent, uint16_t *store, size_t store_len);

#ifdef __cplusplus
}
#endif

#endif
