/*
 * Holds four of the six calls to the former and the plain program on every tape, and widening and narrowing to the plain one, then measures
 * them all. A round takes a batch of each call of each program on each tape, so that a time in which the machine is busy falls on all of
 * them alike. Prints a line for each tape and call, with tabs between: tape, width, rows, call, nanoseconds of Silmezga, of the former
 * program (- where it has no such call) and of the plain one, the answer.
 */
#include <stdio.h>
#include <stdlib.h>
#include <string.h>

#include "clock.h"
#include "former.h"
#include "moves.h"
#include "plain.h"
#include "tapes.h"

enum { PROGRAMS = 3, KINDS = 13, SIZES = 4, DEEP_KINDS = 2, LINES = SILMEZGA_MOST_LINES, MOST_ROWS = SILMEZGA_MOST_ROWS };
enum { NARROW_TAPES = KINDS * SIZES, TAPES = NARROW_TAPES + KINDS + DEEP_KINDS };    /* wide ones are of 1,024 rows only */
enum { EXAMINE, JUDGE, RESHAPE, SUMMARISE, WIDEN, NARROW, CALLS };
enum { FOR_ALL_CALLS = 9 };    /* so many of the kinds of tapes; those after them, where one table has two shapes, are for judging */

static const char *const calls[] = {"examine", "judge", "reshape", "summarise", "widen", "narrow"};

typedef struct {
    silmezga_examined examined;
    silmezga_judged judged;
    silmezga_reshaped reshaped;
    silmezga_summary summary;
    silmezga_moved moved;
    uint8_t new_table[LINES * SILMEZGA_WIDE_ROW_BYTES];
    uint32_t sources[LINES];
} answers;

typedef struct {
    size_t times;             /* calls in a batch */
    double seconds[ROUNDS];   /* a call */
} figures;

/* The four calls of a program at one width. */
typedef struct {
    silmezga_examined (*examine)(const uint8_t *, size_t);
    silmezga_judged (*judge)(const uint8_t *, size_t, const uint8_t *, size_t);
    silmezga_reshaped (*reshape)(const uint8_t *, size_t, const uint8_t *, size_t, uint8_t *, size_t, uint32_t *, size_t);
    silmezga_summary (*summarise)(const uint8_t *, size_t, const uint8_t *, size_t);
} four_calls;

#define FOUR(program) {program##_examine, program##_judge, program##_reshape, program##_summarise}

/* The programs beside Silmezga, which is program 0. */
static const four_calls narrow[PROGRAMS] = {{NULL, NULL, NULL, NULL}, FOUR(former_narrow), FOUR(plain_narrow)};
static const four_calls wide[PROGRAMS] = {{NULL, NULL, NULL, NULL}, FOUR(former_wide), FOUR(plain_wide)};
static const char *const programs[PROGRAMS] = {"Silmezga", "the former program", "the plain program"};

static answers given[PROGRAMS];
static tape tapes[TAPES];
static figures all[TAPES][CALLS][PROGRAMS];

static size_t new_bytes(const tape *t)
{
    return LINES * (t->width == SILMEZGA_EIGHT ? SILMEZGA_WIDE_ROW_BYTES : SILMEZGA_ROW_BYTES);
}

/* Makes a call of Silmezga. */
static void make_own(const tape *t, int call, answers *a)
{
    switch (call) {
    case EXAMINE:
        a->examined = silmezga_examine(t->width, t->table, t->table_len);
        break;
    case JUDGE:
        a->judged = silmezga_judge(t->width, t->table, t->table_len, t->shape, t->shape_len);
        break;
    case RESHAPE:
        a->reshaped = silmezga_reshape(t->width, t->table, t->table_len, t->shape, t->shape_len, a->new_table, new_bytes(t), a->sources, LINES);
        break;
    case SUMMARISE:
        a->summary = silmezga_summarise(t->width, t->table, t->table_len, t->shape, t->shape_len);
        break;
    case WIDEN:
        a->moved = silmezga_widen_table(t->table, t->table_len, a->new_table, sizeof a->new_table);
        break;
    default:
        a->moved = silmezga_narrow_table(t->table, t->table_len, a->new_table, sizeof a->new_table);
    }
}

/* Makes a call of another program. */
static void make_other(const four_calls *made, const tape *t, int call, answers *a)
{
    switch (call) {
    case EXAMINE:
        a->examined = made->examine(t->table, t->table_len);
        break;
    case JUDGE:
        a->judged = made->judge(t->table, t->table_len, t->shape, t->shape_len);
        break;
    case RESHAPE:
        a->reshaped = made->reshape(t->table, t->table_len, t->shape, t->shape_len, a->new_table, new_bytes(t), a->sources, LINES);
        break;
    case SUMMARISE:
        a->summary = made->summarise(t->table, t->table_len, t->shape, t->shape_len);
        break;
    case WIDEN:
        a->moved = plain_widen_table(t->table, t->table_len, a->new_table, sizeof a->new_table);
        break;
    default:
        a->moved = plain_narrow_table(t->table, t->table_len, a->new_table, sizeof a->new_table);
    }
}

/* Makes a call of program p; its answer goes to its place in `given`. */
static void make_call(int p, const tape *t, int call)
{
    if (p == 0) {
        make_own(t, call, &given[p]);
    } else {
        make_other(t->width == SILMEZGA_EIGHT ? &wide[p] : &narrow[p], t, call, &given[p]);
    }
}

/* Is this call made on tape i, and has program p such a call? The former program does not widen and narrow. */
static int is_made(int i, int call, int p)
{
    if (call == WIDEN || call == NARROW) {
        return p != 1 && tapes[i].rows == MOST_ROWS && (tapes[i].width == SILMEZGA_SIX) == (call == WIDEN);
    }
    return 1;
}

static int is_measured(int i, int call, int p)
{
    return is_made(i, call, p) && (call == JUDGE || i >= NARROW_TAPES + KINDS || i % KINDS < FOR_ALL_CALLS);
}

static void stop(const tape *t, const char *call, const char *other)
{
    fprintf(stderr, "%s, %zu rows of width %d: %s of Silmezga and %s differ\n", t->name, t->rows, (int)t->width, call, other);
    exit(1);
}

/* All leave the same answer, and the same in every lent byte and place. */
static void compare(int i, int call)
{
    int p;
    memset(given, 0xa5, sizeof given);
    for (p = 0; p < PROGRAMS; p++) {
        if (is_made(i, call, p)) {
            make_call(p, &tapes[i], call);
            if (memcmp(&given[0], &given[p], sizeof given[0]) != 0) {
                stop(&tapes[i], calls[call], programs[p]);
            }
        }
    }
}

/* The wide tape of each kind is the narrow one of 1,024 rows widened, and that is the wide one narrowed; so are their shapes. */
static void compare_widths(void)
{
    static uint8_t bytes[SILMEZGA_WIDE_MOST_TABLE_BYTES];
    int k;
    for (k = 0; k < KINDS; k++) {
        const tape *n = &tapes[NARROW_TAPES - KINDS + k], *w = &tapes[NARROW_TAPES + k];
        if (silmezga_widen_table(n->table, n->table_len, bytes, w->table_len).count != n->rows || memcmp(bytes, w->table, w->table_len) != 0 ||
            silmezga_widen_shape(n->shape, n->shape_len, bytes, w->shape_len).number != 0 || memcmp(bytes, w->shape, w->shape_len) != 0) {
            stop(n, "widening", "the tape made wide");
        }
        if (silmezga_narrow_table(w->table, w->table_len, bytes, n->table_len).count != w->rows || memcmp(bytes, n->table, n->table_len) != 0 ||
            silmezga_narrow_shape(w->shape, w->shape_len, bytes, n->shape_len).number != 0 || memcmp(bytes, n->shape, n->shape_len) != 0) {
            stop(w, "narrowing", "the tape made narrow");
        }
    }
}

static double batch(int p, const tape *t, int call, size_t times)
{
    double began = seconds();
    size_t i;
    for (i = 0; i < times; i++) {
        make_call(p, t, call);
    }
    return seconds() - began;
}

/* How many calls take about as long as a batch is to take. */
static size_t times_for(int p, const tape *t, int call)
{
    size_t times = 1;
    while (batch(p, t, call, times) < BATCH_SECONDS) {
        times *= 2;
    }
    return times;
}

static void print_count(size_t refusal, size_t count, const char *of)
{
    if (refusal != 0) {
        printf("refusal %zu", refusal);
    } else {
        printf("%zu %s", count, of);
    }
}

static void print_answer(int call)
{
    switch (call) {
    case EXAMINE:
        printf("%zu rows", given[0].examined.rows);
        break;
    case JUDGE:
        printf("verdict %zu%s", given[0].judged.verdict, given[0].judged.none_apart ? ", none apart" : "");
        break;
    case RESHAPE:
        print_count(given[0].reshaped.number, given[0].reshaped.lines, "lines");
        break;
    case SUMMARISE:
        print_count(given[0].summary.number, given[0].summary.lines[0], "lines of entry 0");
        break;
    default:
        print_count(given[0].moved.number, given[0].moved.count, "rows");
    }
}

static void print_times(int i, int call)
{
    int p;
    for (p = 0; p < PROGRAMS; p++) {
        if (is_measured(i, call, p)) {
            printf("%.0f\t", 1e9 * median(all[i][call][p].seconds));
        } else {
            printf("-\t");
        }
    }
}

static void print_figures(void)
{
    int i, call;
    for (i = 0; i < TAPES; i++) {
        for (call = 0; call < CALLS; call++) {
            if (is_measured(i, call, 0)) {
                compare(i, call);
                printf("%s\t%s\t%zu\t%s\t", tapes[i].name, tapes[i].width == SILMEZGA_EIGHT ? "wide" : "narrow", tapes[i].rows, calls[call]);
                print_times(i, call);
                print_answer(call);
                printf("\n");
            }
        }
    }
}

static void measure(int round)
{
    int i, call, p;
    for (i = 0; i < TAPES; i++) {
        for (call = 0; call < CALLS; call++) {
            for (p = 0; p < PROGRAMS; p++) {
                if (is_measured(i, call, p)) {
                    figures *f = &all[i][call][p];
                    f->seconds[round] = batch(p, &tapes[i], call, f->times) / (double)f->times;
                }
            }
        }
    }
}

static void make_tapes(void)
{
    static void (*const make[KINDS + DEEP_KINDS])(tape *, silmezga_width, size_t) = {
        make_book, make_fan, make_sixteen, make_64_types, make_random, make_one_tree, make_siblings, make_many_lines, make_vain_searches,
        make_lone_lease_kept, make_lone_lease_missing, make_lone_sixteen_kept, make_lone_sixteen_missing,
        make_eight_levels, make_siblings_on_8
    };
    int i;
    for (i = 0; i < NARROW_TAPES; i++) {
        make[i % KINDS](&tapes[i], SILMEZGA_SIX, (size_t)128 << i / KINDS);
    }
    for (; i < TAPES; i++) {
        make[i - NARROW_TAPES](&tapes[i], SILMEZGA_EIGHT, MOST_ROWS);
    }
}

/* Holds the answers to each other, and finds how many calls a batch has. */
static void prepare(int i)
{
    int call, p;
    for (call = 0; call < CALLS; call++) {
        compare(i, call);
        for (p = 0; p < PROGRAMS; p++) {
            if (is_measured(i, call, p)) {
                all[i][call][p].times = times_for(p, &tapes[i], call);
            }
        }
    }
}

int main(void)
{
    int i, round;
    make_tapes();
    compare_widths();
    for (i = 0; i < TAPES; i++) {
        prepare(i);
    }
    for (round = 0; round < ROUNDS; round++) {
        measure(round);
    }
    print_figures();
    return 0;
}
