/*
 * The best plain C that we can write: examining, judging, reshaping and summarising by better algorithms than those of former.h, field by
 * field, and adding up tapes over the same. Nothing is proved.
 */
#ifndef PLAIN_H
#define PLAIN_H

#include "calls.h"
#include "totals.h"

FOUR_CALLS(plain_narrow)
FOUR_CALLS(plain_wide)

/* The two calls of totals.h. */
#define TWO_CALLS(program) \
    totals_tape_sums program##_sum_tape(const uint8_t *table, size_t table_len, const uint8_t *shape, size_t shape_len, size_t entry); \
    totals_taken_in program##_take_in(totals_total total, const uint8_t *table, size_t table_len, const uint8_t *shape, size_t shape_len, size_t entry);

TWO_CALLS(plain_narrow)
TWO_CALLS(plain_wide)

#endif
