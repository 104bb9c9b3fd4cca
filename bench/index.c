/*
 * Measures the calls with an index beside those without, building an index and testing one, and ten trees over one table. Before a tape is measured its
 * index is held to one made here straight from the words of silmezga.h, and the answers with and without it are held to each other, with every lent byte
 * and place. Testing is what judging an empty shape takes more with an index: it is refused 5, after 1 to 4, 14 and 15. A round takes a batch of each task
 * on each tape, and the two that are compared stand side by side. Prints a line for each, with tabs between: tape, width, rows, task, nanoseconds.
 */
#include <stdio.h>
#include <stdlib.h>
#include <string.h>

#include "clock.h"
#include "tapes.h"

enum { KINDS = 13, DEEP_KINDS = 2, TAPES = 3 * KINDS + DEEP_KINDS, TREES = 10, LINES = SILMEZGA_MOST_LINES, MOST_ROWS = SILMEZGA_MOST_ROWS };
enum { FOR_ALL_CALLS = 9 };    /* so many of the kinds of tapes; the four after them, of one table, are for judging */
enum { PLACES = MOST_ROWS + 1 };    /* of a list: one at least is past the rows */

/* In pairs, of which the second takes an index, or makes one. */
enum {
    EXAMINE, BUILD, EMPTY, EMPTY_WITH, JUDGE, JUDGE_WITH, RESHAPE, RESHAPE_WITH, SUMMARISE, SUMMARISE_WITH, TEN_TREES, TEN_TREES_WITH, TASKS
};

static const char *const tasks[] = {
    "examine", "build", "empty", "empty with", "judge", "judge with", "reshape", "reshape with", "summarise", "summarise with",
    "ten trees", "ten trees with"
};

typedef struct {
    uint16_t last[PLACES], next[PLACES];
} lists;

typedef struct {
    size_t shape_len;
    uint8_t shape[SILMEZGA_WIDE_MOST_SHAPE_BYTES];
} tree;

typedef struct {
    tape tape;
    lists index;
    size_t trees;                        /* ten or none */
    tree tree[TREES];
    size_t times[TASKS];                 /* tasks in a batch */
    double seconds[TASKS][ROUNDS];       /* a task */
} indexed;

typedef struct {
    silmezga_judged judged;
    silmezga_reshaped reshaped;
    silmezga_summary summary;
    uint8_t new_table[LINES * SILMEZGA_WIDE_ROW_BYTES];
    uint32_t sources[LINES];
} answers;

/* Of two to six entries, most with verdict 0 and some with 2, and of each the lines fit. */
static const char *const book_trees[TREES] = {
    "lease [ lessee asset ]", "asset [ lease [ lessee ] ]", "lessee [ lease [ asset ] ]", "lessee [ asset ]", "asset [ lessee lease ]",
    "lease [ asset ]", "lessee [ lease asset ]", "portfolio [ lessee [ lease [ asset ] ] ]", "asset [ lease [ lessee [ portfolio ] ] ]",
    "lease [ lessee [ portfolio ] asset ]"
};
static const char *const one_tree_trees[TREES] = {
    "meter [ payment asset ]", "payment [ asset meter ]", "asset [ lease payment ]", "lessee [ lease [ asset [ payment [ meter ] ] ] ]",
    "payment [ asset [ lease [ lessee ] ] ]", "lease [ lessee asset [ meter ] ]", "lessee [ meter payment ]", "asset [ lessee portfolio meter ]",
    "portfolio [ lessee [ lease payment ] meter ]", "meter [ payment [ asset [ lease [ lessee [ portfolio ] ] ] ] ]"
};

static indexed all[TAPES];
static answers given[2];    /* without an index, and with one */
static lists built;
static silmezga_examined examined;
static silmezga_index_built answer;

static void stop(const tape *t, const char *what)
{
    fprintf(stderr, "%s, %zu rows of width %d: %s\n", t->name, t->rows, (int)t->width, what);
    exit(1);
}

static size_t row_bytes(const tape *t)
{
    return t->width == SILMEZGA_EIGHT ? SILMEZGA_WIDE_ROW_BYTES : SILMEZGA_ROW_BYTES;
}

static size_t entry_bytes(const tape *t)
{
    return t->width == SILMEZGA_EIGHT ? SILMEZGA_WIDE_ENTRY_BYTES : SILMEZGA_ENTRY_BYTES;
}

static const uint8_t *row_of(const tape *t, size_t row)
{
    return t->table + row * row_bytes(t);
}

/* ---- The index in plain C, straight from its words: rows are compared with each other, and nothing is used of their order. */

static int is_beneath(const tape *t, size_t row, size_t above)
{
    unsigned level = row_of(t, above)[0];
    return row_of(t, row)[0] >= level && memcmp(row_of(t, row) + 4, row_of(t, above) + 4, 2 * level) == 0;
}

/* The types of all rows, as labels from the root down and zeros past the level. */
static void find_types(const tape *t, uint8_t (*types)[2 * SILMEZGA_WIDE_MOST_LEVELS])
{
    uint8_t type[2 * SILMEZGA_WIDE_MOST_LEVELS] = {0};
    size_t row;
    for (row = 0; row < t->rows; row++) {
        size_t end = 2 * row_of(t, row)[0];
        memcpy(type + end - 2, row_of(t, row) + 2, 2);
        memset(type + end, 0, sizeof type - end);
        memcpy(types[row], type, sizeof type);
    }
}

/* The lists, with 0xa5 in every byte past the rows. */
static void plain_index(const tape *t, lists *index)
{
    static uint8_t types[MOST_ROWS][2 * SILMEZGA_WIDE_MOST_LEVELS];
    size_t row, other;
    find_types(t, types);
    memset(index, 0xa5, sizeof *index);
    for (row = 0; row < t->rows; row++) {
        index->next[row] = SILMEZGA_NO_NEXT;
        for (other = 0; other < t->rows; other++) {
            if (is_beneath(t, other, row)) {
                index->last[row] = (uint16_t)other;
            }
            if (other > row && other < index->next[row] && memcmp(types[other], types[row], sizeof types[row]) == 0) {
                index->next[row] = (uint16_t)other;
            }
        }
    }
}

/* ---- The tasks */

static void build(const tape *t)
{
    answer = silmezga_build_index(t->width, t->table, t->table_len, built.last, PLACES, built.next, PLACES);
}

/* Judges with an index, or without one where it is NULL; so do the two below. The answer goes to its place in `given`. */
static void judge(const tape *t, const uint8_t *shape, size_t shape_len, const lists *index)
{
    if (index == NULL) {
        given[0].judged = silmezga_judge(t->width, t->table, t->table_len, shape, shape_len);
    } else {
        given[1].judged = silmezga_judge_with_index(t->width, t->table, t->table_len, shape, shape_len, index->last, PLACES, index->next, PLACES);
    }
}

static void reshape(const tape *t, const uint8_t *shape, size_t shape_len, const lists *index)
{
    answers *a = &given[index != NULL];
    size_t new_len = LINES * row_bytes(t);
    if (index == NULL) {
        a->reshaped = silmezga_reshape(t->width, t->table, t->table_len, shape, shape_len, a->new_table, new_len, a->sources, LINES);
    } else {
        a->reshaped = silmezga_reshape_with_index(t->width, t->table, t->table_len, shape, shape_len, index->last, PLACES, index->next, PLACES,
                                                  a->new_table, new_len, a->sources, LINES);
    }
}

static void summarise(const tape *t, const uint8_t *shape, size_t shape_len, const lists *index)
{
    if (index == NULL) {
        given[0].summary = silmezga_summarise(t->width, t->table, t->table_len, shape, shape_len);
    } else {
        given[1].summary = silmezga_summarise_with_index(t->width, t->table, t->table_len, shape, shape_len, index->last, PLACES, index->next, PLACES);
    }
}

/* Judges ten trees and reshapes to each. */
static void ten_trees(const indexed *x, const lists *index)
{
    size_t k;
    for (k = 0; k < TREES; k++) {
        judge(&x->tape, x->tree[k].shape, x->tree[k].shape_len, index);
        reshape(&x->tape, x->tree[k].shape, x->tree[k].shape_len, index);
    }
}

static void perform(const indexed *x, int task)
{
    const tape *t = &x->tape;
    const lists *index = task % 2 ? &x->index : NULL;
    switch (task) {
    case EXAMINE:
        examined = silmezga_examine(t->width, t->table, t->table_len);
        break;
    case BUILD:
        build(t);
        break;
    case EMPTY:
    case EMPTY_WITH:
        judge(t, t->shape, 0, index);
        break;
    case JUDGE:
    case JUDGE_WITH:
        judge(t, t->shape, t->shape_len, index);
        break;
    case RESHAPE:
    case RESHAPE_WITH:
        reshape(t, t->shape, t->shape_len, index);
        break;
    case SUMMARISE:
    case SUMMARISE_WITH:
        summarise(t, t->shape, t->shape_len, index);
        break;
    case TEN_TREES:
        ten_trees(x, NULL);
        break;
    default:
        build(t);
        ten_trees(x, &built);
    }
}

static int is_measured(int i, int task)
{
    if (task == TEN_TREES || task == TEN_TREES_WITH) {
        return all[i].trees != 0;
    }
    return task == JUDGE || task == JUDGE_WITH || i >= 3 * KINDS || i % KINDS < FOR_ALL_CALLS;
}

/* ---- Holding */

/* What is built is the index, and places past the rows stay as they were. */
static void hold_built(const indexed *x)
{
    memset(&built, 0xa5, sizeof built);
    build(&x->tape);
    if (answer.number != 0 || answer.place != 0 || answer.rows != x->tape.rows || memcmp(&built, &x->index, sizeof built) != 0) {
        stop(&x->tape, "the index that is built is another");
    }
}

/* All answers with the index are those without it, in every lent byte and place too. */
static void hold_answers(const indexed *x, const uint8_t *shape, size_t shape_len)
{
    int with;
    memset(given, 0xa5, sizeof given);
    for (with = 0; with < 2; with++) {
        const lists *index = with ? &x->index : NULL;
        judge(&x->tape, shape, shape_len, index);
        reshape(&x->tape, shape, shape_len, index);
        summarise(&x->tape, shape, shape_len, index);
    }
    if (memcmp(&given[0], &given[1], sizeof given[0]) != 0) {
        stop(&x->tape, "the answers with and without an index differ");
    }
}

/* A list that is wrong at its last row alone is refused there: so it is read to its end where it is right. */
static void hold_tested(indexed *x, uint16_t *list)
{
    size_t row = x->tape.rows - 1;
    list[row] ^= 1;
    judge(&x->tape, x->tape.shape, 0, &x->index);
    list[row] ^= 1;
    if (given[1].judged.number != SILMEZGA_BAD_INDEX || given[1].judged.place != row) {
        stop(&x->tape, "a wrong index is not refused at its row");
    }
}

static void hold(indexed *x)
{
    size_t k;
    hold_built(x);
    hold_answers(x, x->tape.shape, x->tape.shape_len);
    hold_answers(x, x->tape.shape, 0);
    if (given[1].judged.number != SILMEZGA_BAD_SHAPE_LENGTH) {
        stop(&x->tape, "an empty shape is not refused as such");
    }
    for (k = 0; k < x->trees; k++) {
        hold_answers(x, x->tree[k].shape, x->tree[k].shape_len);
        if (given[0].reshaped.number != 0) {
            stop(&x->tape, "one of the ten trees has too many lines");
        }
    }
    hold_tested(x, x->index.last);
    hold_tested(x, x->index.next);
}

/* ---- Measuring */

static void add_trees(indexed *x, const char *const *texts)
{
    const tape *t = &x->tape;
    for (x->trees = 0; x->trees < TREES; x->trees++) {
        tree *made = &x->tree[x->trees];
        const char *text = texts[x->trees];
        silmezga_tree_read read =
            silmezga_read_tree(t->width, t->table, t->table_len, (const uint8_t *)text, strlen(text), made->shape, sizeof made->shape);
        if (read.number != 0) {
            stop(t, "one of the ten trees is not read");
        }
        made->shape_len = read.entries * entry_bytes(t);
    }
}

static double batch(const indexed *x, int task, size_t times)
{
    double began = seconds();
    size_t i;
    for (i = 0; i < times; i++) {
        perform(x, task);
    }
    return seconds() - began;
}

static void prepare(int i)
{
    indexed *x = &all[i];
    int task;
    plain_index(&x->tape, &x->index);
    hold(x);
    for (task = 0; task < TASKS; task++) {
        if (is_measured(i, task)) {
            x->times[task] = 1;
            while (batch(x, task, x->times[task]) < BATCH_SECONDS) {
                x->times[task] *= 2;
            }
        }
    }
}

/* Of each kind a narrow tape and a wide one of 1,024 rows and a narrow one of 128, then those that are wide only. */
static void make_tapes(void)
{
    static void (*const make[KINDS + DEEP_KINDS])(tape *, silmezga_width, size_t) = {
        make_book, make_fan, make_sixteen, make_64_types, make_random, make_one_tree, make_siblings, make_many_lines, make_vain_searches,
        make_lone_lease_kept, make_lone_lease_missing, make_lone_sixteen_kept, make_lone_sixteen_missing,
        make_eight_levels, make_siblings_on_8
    };
    int k;
    for (k = 0; k < KINDS; k++) {
        make[k](&all[k].tape, SILMEZGA_SIX, MOST_ROWS);
        make[k](&all[KINDS + k].tape, SILMEZGA_EIGHT, MOST_ROWS);
        make[k](&all[2 * KINDS + k].tape, SILMEZGA_SIX, 128);
        if (make[k] == make_book || make[k] == make_one_tree) {
            add_trees(&all[k], make[k] == make_book ? book_trees : one_tree_trees);
        }
    }
    for (; k < KINDS + DEEP_KINDS; k++) {
        make[k](&all[2 * KINDS + k].tape, SILMEZGA_EIGHT, MOST_ROWS);
    }
}

static void measure(int round)
{
    int i, task;
    for (i = 0; i < TAPES; i++) {
        for (task = 0; task < TASKS; task++) {
            if (is_measured(i, task)) {
                all[i].seconds[task][round] = batch(&all[i], task, all[i].times[task]) / (double)all[i].times[task];
            }
        }
    }
}

static void print_figures(void)
{
    int i, task;
    for (i = 0; i < TAPES; i++) {
        const tape *t = &all[i].tape;
        for (task = 0; task < TASKS; task++) {
            if (is_measured(i, task)) {
                printf("%s\t%s\t%zu\t%s\t%.0f\n", t->name, t->width == SILMEZGA_EIGHT ? "wide" : "narrow", t->rows, tasks[task],
                       1e9 * median(all[i].seconds[task]));
            }
        }
    }
}

int main(void)
{
    int i, round;
    make_tapes();
    for (i = 0; i < TAPES; i++) {
        prepare(i);
    }
    for (round = 0; round < ROUNDS; round++) {
        measure(round);
    }
    print_figures();
    return 0;
}
