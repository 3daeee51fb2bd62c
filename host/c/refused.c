/* Images that are refused, with the number and the position that every call answers. A part of calls.c. */
#include "calls.h"

#include <string.h>

enum { LARGEST = 65536 };

/* Bits of an image that are flipped, the number that it is refused with then, and where. 0 for the second bit: there is none. */
typedef struct {
    uint32_t first, second, number, position;
} Flipped;

/* Of model A. */
static const Flipped FLIPPED[] = {
    /* 3: version, buffers, rules, facts, slots of type 1, type of an opening chunk and of a fact. */
    {6, 0, 3, 0},
    {8, 0, 3, 8},
    {18, 0, 3, 18},
    {27, 0, 3, 27},
    {53, 0, 3, 53},
    {61, 0, 3, 61},
    {97, 0, 3, 97},
    /* 3: tests, actions and variables of rule 0, type of its first test, and kind and type of its action. */
    {238, 0, 3, 237},
    {241, 0, 3, 241},
    {245, 0, 3, 245},
    {252, 0, 3, 252},
    {299, 0, 3, 299},
    {301, 0, 3, 301},
    /* 11: the mask of a test, of a request and of a modify with a bit for slot 7. */
    {265, 0, 11, 258},
    {314, 0, 11, 307},
    {441, 0, 11, 434},
    /* 12: a term of a test and of an action that is variable 1, where there is one; two more variables, which stand in no test, and that
     * before an action on a buffer that does not exist. */
    {278, 0, 12, 266},
    {327, 0, 12, 315},
    {247, 0, 12, 296},
    {247, 297, 12, 296},
    /* 13: a test and an action on a buffer that does not exist; on one that does not rise. */
    {250, 0, 13, 249},
    {297, 0, 13, 296},
    {251, 0, 13, 279},
    {457, 0, 13, 455},
    /* The action of rule 2 on buffer 1, which it does not test: a modify is 13, and kind 3 is 3, both at the kind. */
    {560, 561, 13, 561},
    {560, 562, 3, 561},
};

/* Of the image with queries. */
static const Flipped ASKING_FLIPPED[] = {
    /* 3: version 6; version 1, in which a rule has a test. */
    {5, 0, 3, 0},
    {6, 7, 3, 81},
    /* 12: a variable, where there is no test; and that before the number of queries, which is wrong too. */
    {92, 0, 12, 93},
    {92, 96, 12, 93},
    /* 3: three queries, where there are two buffers; none, where there is no test. */
    {96, 0, 3, 93},
    {95, 0, 3, 93},
    /* 13: the first query of buffer 2, the second of buffer 5, and of buffer 0, which does not rise. */
    {98, 0, 13, 97},
    {102, 0, 13, 102},
    {104, 0, 13, 102},
    /* 3: kind 3, of each query. */
    {100, 0, 3, 100},
    {106, 0, 3, 105},
    /* The action on buffer 1, which is queried and not tested: a modify is 13, and kind 3 is 3, both at the kind. */
    {110, 0, 13, 110},
    {111, 0, 3, 110},
};

static void flip(uint8_t *bytes, uint32_t bit) {
    if (bit != 0)
        bytes[bit / 8] ^= 0x80 >> bit % 8;
}

static uint64_t refused_at(uint32_t number, uint32_t position) {
    return (uint64_t)position << 32 | number;
}

/* Makes a check on an image with each of these flips. */
static void check_flipped(Refusal check, const uint8_t *of, size_t length, const Flipped *flips, size_t count) {
    uint8_t changed[LENGTH];
    for (size_t one = 0; one < count; one++) {
        memcpy(changed, of, length);
        flip(changed, flips[one].first);
        flip(changed, flips[one].second);
        check(changed, length, refused_at(flips[one].number, flips[one].position));
    }
}

void check_each_refused(Refusal check) {
    static uint8_t changed[LARGEST + 1];
    memset(changed, 0, sizeof changed);
    check(changed, LARGEST + 1, refused_at(1, 0));
    check(changed, LARGEST, refused_at(3, 0));
    check(image, 0, refused_at(2, 0));
    check(image, 1, refused_at(2, 8));
    check(image, LENGTH - 1, refused_at(2, 558));
    memcpy(changed, image, LENGTH);
    check(changed, LENGTH + 1, refused_at(4, 0));
    check_flipped(check, image, LENGTH, FLIPPED, sizeof FLIPPED / sizeof FLIPPED[0]);
    check_flipped(check, asking, ASKING, ASKING_FLIPPED, sizeof ASKING_FLIPPED / sizeof ASKING_FLIPPED[0]);
    /* The last pad bit. */
    memcpy(changed, image, LENGTH);
    flip(changed, 8 * LENGTH - 1);
    check(changed, LENGTH, refused_at(4, 0));
}
