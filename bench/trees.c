/*
 * Measures reading a typed tree of 16 entries over tables of 1,024 rows, beside examining and typing the table: that is what reading an empty text
 * takes, which is refused 12 after 1 to 4. Each tree is typed with whole paths and with the shortest names that match one type, and every text must be
 * read as the shape that it is of. Prints a line for each, with tabs between: tape, width, names, bytes of the text, nanoseconds of examining and typing,
 * of reading.
 */
#include <stdio.h>
#include <stdlib.h>
#include <string.h>

#include "clock.h"
#include "tapes.h"

enum { KINDS = 7, TREES = 2 * 2 * KINDS, ENTRIES = SILMEZGA_MOST_ENTRIES, MOST_TEXT = SILMEZGA_MOST_TEXT_BYTES };
enum { TYPING, READING, TEXTS };

typedef struct {
    tape tape;
    unsigned kept;                       /* how many labels of a name are kept, from the last; all where it is 0 */
    size_t text_len;
    char text[2 * MOST_TEXT];
    size_t times[TEXTS];                 /* calls in a batch */
    double seconds[TEXTS][ROUNDS];       /* a call */
} typed;

static const char *const names[] = {
    "", "portfolio", "lessee", "lease", "asset", "payment", "meter", "guarantor", "invoice", "site", "insurance", "deposit", "vendor", "schedule",
    "residual", "tax", "service", "reading", "contact", "currency", "document"
};

static typed trees[TREES];
static uint8_t shape[SILMEZGA_WIDE_MOST_SHAPE_BYTES];
static silmezga_tree_read answer;

static unsigned levels_of(const tape *t)
{
    return t->width == SILMEZGA_EIGHT ? SILMEZGA_WIDE_MOST_LEVELS : SILMEZGA_MOST_LEVELS;
}

static const uint8_t *row_of(const tape *t, size_t row)
{
    return t->table + row * (t->width == SILMEZGA_EIGHT ? SILMEZGA_WIDE_ROW_BYTES : SILMEZGA_ROW_BYTES);
}

static uint8_t *entry_of(tape *t, size_t entry)
{
    return t->shape + entry * (t->width == SILMEZGA_EIGHT ? SILMEZGA_WIDE_ENTRY_BYTES : SILMEZGA_ENTRY_BYTES);
}

/* The type of a row as an entry has it: its length, two zeros, then its labels. */
static void put_type(const tape *t, size_t row, uint8_t *entry)
{
    unsigned level = row_of(t, row)[0];
    entry[1] = (uint8_t)level;
    for (; level > 0; row--) {
        if (row_of(t, row)[0] == level) {
            level--;
            memcpy(entry + 4 + 2 * level, row_of(t, row) + 2, 2);
        }
    }
}

static int is_new(tape *t, size_t entry)
{
    size_t e;
    for (e = 0; e < entry; e++) {
        if (memcmp(entry_of(t, e) + 1, entry_of(t, entry) + 1, (size_t)(entry_of(t, 1) - entry_of(t, 0)) - 1) == 0) {
            return 0;
        }
    }
    return 1;
}

/*
 * Sixteen entries, in ways down as far as there are levels: the types of rows on the table's last level, as many as there are from the last row upwards,
 * then these again.
 */
static void sixteen_deepest(tape *t)
{
    size_t bytes = t->width == SILMEZGA_EIGHT ? SILMEZGA_WIDE_ENTRY_BYTES : SILMEZGA_ENTRY_BYTES, row, e, found = 0;
    unsigned deepest = 0;
    memset(t->shape, 0, sizeof t->shape);
    for (row = 0; row < t->rows; row++) {
        deepest = row_of(t, row)[0] > deepest ? row_of(t, row)[0] : deepest;
    }
    for (row = t->rows; row-- > 0 && found < ENTRIES;) {
        if (row_of(t, row)[0] == deepest) {
            memset(entry_of(t, found), 0, bytes);
            put_type(t, row, entry_of(t, found));
            found += (size_t)is_new(t, found);
        }
    }
    for (e = ENTRIES; e-- > 0;) {
        memcpy(entry_of(t, e), entry_of(t, e % found), bytes);
        entry_of(t, e)[0] = (uint8_t)(e == 0 ? 1 : 2 + (e - 1) % (levels_of(t) - 1));
    }
    t->shape_len = ENTRIES * bytes;
}

/* An entry's name: its last labels with dots between them, and with a dot before them where they are all and this is asked for. */
static size_t put_name(const uint8_t *entry, unsigned kept, char *text)
{
    unsigned size = entry[1], k;
    size_t n = 0;
    for (k = kept == 0 ? 0 : size - kept; k < size; k++) {
        unsigned label = entry[4 + 2 * k];
        const char *dot = kept == 0 || k > size - kept ? "." : "";
        n += (size_t)(label > 20 ? sprintf(text + n, "%s%u", dot, label) : sprintf(text + n, "%s%s", dot, names[label]));
    }
    return n;
}

/* The shape as a line. */
static size_t put_tree(tape *t, unsigned kept, char *text)
{
    size_t n = 0, e;
    unsigned level = 0, next;
    for (e = 0; e < ENTRIES; e++) {
        next = entry_of(t, e)[0];
        n += (size_t)sprintf(text + n, "%s", e > 0 && next > level ? " [" : "");
        for (; level > next; level--) {
            n += (size_t)sprintf(text + n, " ]");
        }
        n += (size_t)sprintf(text + n, "%s", e > 0 ? " " : "");
        n += put_name(entry_of(t, e), kept, text + n);
        level = next;
    }
    for (; level > 1; level--) {
        n += (size_t)sprintf(text + n, " ]");
    }
    return n;
}

static void read_text(const typed *t, int text)
{
    answer = silmezga_read_tree(t->tape.width, t->tape.table, t->tape.table_len, (const uint8_t *)t->text, text == READING ? t->text_len : 0,
                                shape, sizeof shape);
}

/* Is the text read as the shape, and the empty one refused for being empty? */
static int is_read(const typed *t)
{
    read_text(t, TYPING);
    if (answer.number != SILMEZGA_BAD_TEXT || answer.place != 0) {
        return 0;
    }
    read_text(t, READING);
    return answer.number == 0 && answer.entries == ENTRIES && memcmp(shape, t->tape.shape, t->tape.shape_len) == 0;
}

/* The text with whole paths is the line that is printed. */
static int is_printed(const typed *t)
{
    static uint8_t line[MOST_TEXT];
    silmezga_tree_printed printed = silmezga_print_tree(t->tape.width, t->tape.shape, t->tape.shape_len, line, sizeof line);
    return printed.number == 0 && printed.bytes == t->text_len && memcmp(line, t->text, t->text_len) == 0;
}

/* With the shortest names that are read, or with whole paths. */
static void make_text(typed *t, int whole)
{
    unsigned deepest;
    sixteen_deepest(&t->tape);
    deepest = t->tape.shape[1];
    t->kept = 0;
    do {
        t->kept += whole ? 0 : 1;
        t->text_len = put_tree(&t->tape, t->kept, t->text);
    } while (!is_read(t) && t->kept < deepest && !whole);
    if (!is_read(t) || (whole && !is_printed(t))) {
        fprintf(stderr, "%s, width %d: the typed tree is not read as its shape\n", t->tape.name, (int)t->tape.width);
        exit(1);
    }
}

static double batch(const typed *t, int text, size_t times)
{
    double began = seconds();
    size_t i;
    for (i = 0; i < times; i++) {
        read_text(t, text);
    }
    return seconds() - began;
}

static void prepare(int i)
{
    static void (*const make[KINDS])(tape *, silmezga_width, size_t) = {
        make_book, make_64_types, make_random, make_one_tree, make_siblings, make_long_names, make_same_ends
    };
    int text;
    make[i / 4](&trees[i].tape, i % 4 < 2 ? SILMEZGA_SIX : SILMEZGA_EIGHT, SILMEZGA_MOST_ROWS);
    make_text(&trees[i], i % 2);
    for (text = 0; text < TEXTS; text++) {
        trees[i].times[text] = 1;
        while (batch(&trees[i], text, trees[i].times[text]) < BATCH_SECONDS) {
            trees[i].times[text] *= 2;
        }
    }
}

int main(void)
{
    int i, round, text;
    for (i = 0; i < TREES; i++) {
        prepare(i);
    }
    for (round = 0; round < ROUNDS; round++) {
        for (i = 0; i < TREES; i++) {
            for (text = 0; text < TEXTS; text++) {
                trees[i].seconds[text][round] = batch(&trees[i], text, trees[i].times[text]) / (double)trees[i].times[text];
            }
        }
    }
    for (i = 0; i < TREES; i++) {
        typed *t = &trees[i];
        printf("%s\t%s\t%s\t%zu\t%.0f\t%.0f\n", t->tape.name, t->tape.width == SILMEZGA_EIGHT ? "wide" : "narrow",
               i % 2 ? "whole paths" : "shortest names", t->text_len, 1e9 * median(t->seconds[TYPING]), 1e9 * median(t->seconds[READING]));
    }
    return 0;
}
