/* A model by its names: the constants are those of counting.h, which 'pack --header' writes. Usage: named PATH (the model's image) */
#include <stdio.h>

#include "counting.h"
#include "jirvuntsag.h"

int main(int count, char **arguments) {
    static uint8_t image[COUNTING_IMAGE_BYTES];
    static uint16_t table[COUNTING_TABLE_WORDS];
    uint32_t state[JIRVUNTSAG_STATE_WORDS];
    FILE *file = count == 2 ? fopen(arguments[1], "rb") : NULL;
    if (file == NULL || fread(image, 1, sizeof image, file) != sizeof image)
        return 2;
    fclose(file);
    if (jirvuntsag_open(image, sizeof image, table, COUNTING_TABLE_WORDS, state) != 0)
        return 1;
    const unsigned current = JIRVUNTSAG_SLOT(COUNTING_BUFFER_GOAL, COUNTING_SLOT_COUNT_CURRENT);
    uint32_t event[3] = {0, 0, 0};
    while (state[JIRVUNTSAG_TYPE(COUNTING_BUFFER_GOAL)] == COUNTING_TYPE_COUNT && state[current] != COUNTING_SYMBOL_3)
        if (jirvuntsag_trace(image, sizeof image, state, table, COUNTING_TABLE_WORDS, 1, event, 3) != 65536)
            return 1;
    if (event[1] != 0 || event[2] != COUNTING_RULE_GO_ON)
        return 1;
    printf("go-on fired at %u ms, and the goal counts to 3\n", (unsigned)event[0]);
    return 0;
}
