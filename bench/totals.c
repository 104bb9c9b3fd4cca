/*
 * Measures how 1,000 tapes are taken in one after the other, by the library of totals and by the plain program. The tapes are of one kind, with one shape and
 * values of their own, and they are in memory; what is added is the last entry of the shape. Before a kind is measured the answers of the two are held to each
 * other, tape by tape. A round takes all tapes of each kind once with each program, so that a time in which the machine is busy falls on both alike. Prints
 * a line for each kind, with tabs between: tape, width, rows, nanoseconds of Silmezga and of the plain program for all tapes, the answer.
 */
#include <stdio.h>
#include <stdlib.h>
#include <string.h>

#include "clock.h"
#include "plain.h"
#include "tapes.h"
#include "totals.h"

enum { PROGRAMS = 2, KINDS = 10, DEEP_KINDS = 2, HISTORIES = 3 * KINDS + DEEP_KINDS, TAPES = TOTALS_MOST_TAPES, MOST_ROWS = SILMEZGA_MOST_ROWS };

typedef struct {
    tape tape;
    size_t entry;
    totals_taken_in end;                    /* the answer to the last tape */
    double seconds[PROGRAMS][ROUNDS];       /* for all tapes */
} history;

static history all[HISTORIES];
static uint8_t tables[TAPES][SILMEZGA_WIDE_MOST_TABLE_BYTES];    /* those of the history that is at work */
static const totals_total nothing = {0, 0, 0};

static void stop(const tape *t, const char *what)
{
    fprintf(stderr, "%s, %zu rows of width %d: %s\n", t->name, t->rows, (int)t->width, what);
    exit(1);
}

static size_t row_bytes(const tape *t)
{
    return t->width == SILMEZGA_EIGHT ? SILMEZGA_WIDE_ROW_BYTES : SILMEZGA_ROW_BYTES;
}

static size_t entry_bytes(const tape *t)
{
    return t->width == SILMEZGA_EIGHT ? SILMEZGA_WIDE_ENTRY_BYTES : SILMEZGA_ENTRY_BYTES;
}

/* The next value of a fixed row of them, from -10^12 to 10^12, in the order of a record's bytes. */
static void put_value(uint64_t *seed, uint8_t *bytes)
{
    uint64_t value;
    size_t k;
    *seed = *seed * 6364136223846793005u + 1442695040888963407u;
    value = (*seed >> 11) % (2 * (uint64_t)TOTALS_MOST_VALUE + 1) - (uint64_t)TOTALS_MOST_VALUE;
    for (k = 0; k < 8; k++) {
        bytes[k] = (uint8_t)(value >> 8 * k);
    }
}

/* Makes the tables of a history: the same each time. */
static void make_tables(const tape *t)
{
    uint64_t seed = 6;
    size_t k, row;
    for (k = 0; k < TAPES; k++) {
        memcpy(tables[k], t->table, t->table_len);
        for (row = 0; row < t->rows; row++) {
            put_value(&seed, tables[k] + row_bytes(t) * (row + 1) - 8);
        }
    }
}

/* What a program answers to the tape with this table: Silmezga is program 0. */
static totals_taken_in take_in(const history *h, int program, totals_total total, const uint8_t *table)
{
    const tape *t = &h->tape;
    if (program == 0) {
        return totals_take_in(total, t->width, table, t->table_len, t->shape, t->shape_len, h->entry);
    }
    return (t->width == SILMEZGA_EIGHT ? plain_wide_take_in : plain_narrow_take_in)(total, table, t->table_len, t->shape, t->shape_len, h->entry);
}

static totals_tape_sums sum_tape(const history *h, int program, const uint8_t *table)
{
    const tape *t = &h->tape;
    if (program == 0) {
        return totals_sum_tape(t->width, table, t->table_len, t->shape, t->shape_len, h->entry);
    }
    return (t->width == SILMEZGA_EIGHT ? plain_wide_sum_tape : plain_narrow_sum_tape)(table, t->table_len, t->shape, t->shape_len, h->entry);
}

static double take_all(history *h, int program)
{
    double began = seconds();
    size_t k;
    h->end.total = nothing;
    for (k = 0; k < TAPES; k++) {
        h->end = take_in(h, program, h->end.total, tables[k]);
    }
    return seconds() - began;
}

/* Both answer the same to each tape, and one tape more is refused where all were taken in. */
static void hold(history *h)
{
    totals_total total = nothing;
    size_t k;
    for (k = 0; k < TAPES; k++) {
        totals_taken_in own = take_in(h, 0, total, tables[k]), other = take_in(h, 1, total, tables[k]);
        totals_tape_sums sums = sum_tape(h, 0, tables[k]), other_sums = sum_tape(h, 1, tables[k]);
        if (memcmp(&own, &other, sizeof own) != 0 || memcmp(&sums, &other_sums, sizeof sums) != 0) {
            stop(&h->tape, "Silmezga and the plain program add up otherwise");
        }
        if (own.number != sums.number || own.total.shown != total.shown + sums.shown || own.total.unshown != total.unshown + sums.unshown) {
            stop(&h->tape, "a tape does not add its sums to the total");
        }
        total = own.total;
    }
    if (total.tapes != 0 && (total.tapes != TAPES || take_in(h, 0, total, tables[0]).number != TOTALS_BAD_TOTAL)) {
        stop(&h->tape, "not all tapes are taken in, or one more is");
    }
}

static void measure(history *h, int round)
{
    int program;
    make_tables(&h->tape);
    if (round == 0) {
        hold(h);
    }
    for (program = 0; program < PROGRAMS; program++) {
        h->seconds[program][round] = take_all(h, program);
    }
}

/* Of each kind a narrow tape and a wide one of 1,024 rows and a narrow one of 128, then those that are wide only. */
static void make_histories(void)
{
    static void (*const make[KINDS + DEEP_KINDS])(tape *, silmezga_width, size_t) = {
        make_book, make_fan, make_sixteen, make_64_types, make_random, make_one_tree, make_siblings, make_many_lines, make_vain_searches,
        make_lone_lease_missing, make_eight_levels, make_siblings_on_8
    };
    int k;
    for (k = 0; k < KINDS; k++) {
        make[k](&all[k].tape, SILMEZGA_SIX, MOST_ROWS);
        make[k](&all[KINDS + k].tape, SILMEZGA_EIGHT, MOST_ROWS);
        make[k](&all[2 * KINDS + k].tape, SILMEZGA_SIX, 128);
    }
    for (; k < KINDS + DEEP_KINDS; k++) {
        make[k](&all[2 * KINDS + k].tape, SILMEZGA_EIGHT, MOST_ROWS);
    }
    for (k = 0; k < HISTORIES; k++) {
        all[k].entry = all[k].tape.shape_len / entry_bytes(&all[k].tape) - 1;
    }
}

static void print_figures(void)
{
    int k;
    for (k = 0; k < HISTORIES; k++) {
        history *h = &all[k];
        printf("%s\t%s\t%zu\t%.0f\t%.0f\t", h->tape.name, h->tape.width == SILMEZGA_EIGHT ? "wide" : "narrow", h->tape.rows,
               1e9 * median(h->seconds[0]), 1e9 * median(h->seconds[1]));
        if (h->end.number != 0) {
            printf("refusal %zu\n", h->end.number);
        } else {
            printf("%zu tapes, entry %zu%s\n", h->end.total.tapes, h->entry, h->end.total.unshown != 0 ? ", rows not shown" : "");
        }
    }
}

int main(void)
{
    int k, round;
    make_histories();
    for (round = 0; round < ROUNDS; round++) {
        for (k = 0; k < HISTORIES; k++) {
            measure(&all[k], round);
        }
    }
    print_figures();
    return 0;
}
