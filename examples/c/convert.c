/*
 * Shows how the labels of stored files are converted: a small table and its shape, stored when labels went to 999.
 */
#include <stdio.h>

#include "silmezga.h"

enum { ROWS = 4, ENTRIES = 2 };

/* A portfolio with label 1, and beneath it two machines with label 400 (which is 144 + 256), the first over a meter with label 6. */
static const uint8_t table[ROWS * SILMEZGA_ROW_BYTES] = {
    /* level, zero, label, Dewey number,                   value */
    1, 0, 1, 0,     1, 0, 0, 0, 0, 0, 0, 0, 0, 0, 0, 0,    0, 0, 0, 0, 0, 0, 0, 0,
    2, 0, 144, 1,   1, 0, 1, 0, 0, 0, 0, 0, 0, 0, 0, 0,    100, 0, 0, 0, 0, 0, 0, 0,
    3, 0, 6, 0,     1, 0, 1, 0, 1, 0, 0, 0, 0, 0, 0, 0,    200, 0, 0, 0, 0, 0, 0, 0,
    2, 0, 144, 1,   1, 0, 2, 0, 0, 0, 0, 0, 0, 0, 0, 0,    44, 1, 0, 0, 0, 0, 0, 0,
};

/* The machines over the meters. */
static const uint8_t shape[ENTRIES * SILMEZGA_ENTRY_BYTES] = {
    /* level, length, zeros, type */
    1, 2, 0, 0,     1, 0, 144, 1, 0, 0, 0, 0, 0, 0, 0, 0,
    2, 3, 0, 0,     1, 0, 144, 1, 6, 0, 0, 0, 0, 0, 0, 0,
};

static uint8_t new_table[sizeof table], new_shape[sizeof shape];

/* Examines a table and prints the answer. */
static void show_examined(const char *which, const uint8_t *bytes)
{
    silmezga_examined answer = silmezga_examine(SILMEZGA_SIX, bytes, sizeof table);
    if (answer.number != SILMEZGA_ACCEPTED) {
        printf("examine the %s table: refused %zu at %zu\n", which, answer.number, answer.place);
    } else {
        printf("examine the %s table: %zu rows\n", which, answer.rows);
    }
}

/* Converts by a list of one pair or of none and prints the answer. */
static void show_converted(const uint16_t *pairs, size_t numbers)
{
    silmezga_converted answer = silmezga_convert_labels(SILMEZGA_SIX, table, sizeof table, shape, sizeof shape, pairs, numbers, new_table,
                                                        sizeof new_table, new_shape, sizeof new_shape);
    if (numbers == 0) {
        printf("convert with no pair: ");
    } else {
        printf("convert %u to %u: ", pairs[0], pairs[1]);
    }
    if (answer.number != SILMEZGA_ACCEPTED) {
        printf("refused %zu at %zu\n", answer.number, answer.place);
    } else {
        printf("%zu rows, %zu entries\n", answer.rows, answer.entries);
    }
}

static void show_labels(void)
{
    size_t row;
    printf("labels of the new table:");
    for (row = 0; row < ROWS; row++) {
        const uint8_t *label = new_table + SILMEZGA_ROW_BYTES * row + 2;
        printf(" %u", label[0] + 256u * label[1]);
    }
    printf("\n");
}

static void show_judged(void)
{
    silmezga_judged answer = silmezga_judge(SILMEZGA_SIX, new_table, sizeof new_table, new_shape, sizeof new_shape);
    if (answer.number != SILMEZGA_ACCEPTED) {
        printf("judge the new files: refused %zu at %zu\n", answer.number, answer.place);
    } else {
        printf("judge the new files: verdict %zu, edge 1: children %zu..%zu parents %zu..%zu\n", answer.verdict, answer.least_children[1],
               answer.greatest_children[1], answer.least_parents[1], answer.greatest_parents[1]);
    }
}

int main(void)
{
    static const uint16_t occurs[] = {400, 6}, right[] = {400, 21};
    show_examined("old", table);
    show_converted(right, 0);
    show_converted(occurs, 2);
    show_converted(right, 2);
    show_labels();
    show_examined("new", new_table);
    show_judged();
    return 0;
}
