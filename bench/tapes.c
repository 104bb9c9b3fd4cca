#include "tapes.h"

#include <string.h>

enum { PORTFOLIO = 1, LESSEE, LEASE, ASSET, PAYMENT, INSURANCE = 10, DOCUMENT = 20 };

static void put_word(uint8_t *b, size_t x)
{
    b[0] = (uint8_t)x;
    b[1] = (uint8_t)(x >> 8);
}

static unsigned word(const uint8_t *b)
{
    return b[0] + 256u * b[1];
}

static void start(tape *t, silmezga_width width, const char *name)
{
    memset(t, 0, sizeof *t);
    t->name = name;
    t->width = width;
}

/* The bytes of an entry; of a row, so many stand before its value. */
static size_t entry_bytes(const tape *t)
{
    return t->width == SILMEZGA_EIGHT ? SILMEZGA_WIDE_ENTRY_BYTES : SILMEZGA_ENTRY_BYTES;
}

static size_t row_bytes(const tape *t)
{
    return entry_bytes(t) + 8;
}

/* The next row: its Dewey number follows from its level and the row before. Its value is its number. */
static void add_row(tape *t, unsigned level, unsigned label)
{
    uint8_t *row = t->table + t->table_len, *last = row + 4 + 2 * (level - 1);
    if (t->rows > 0) {
        memcpy(row + 4, row - row_bytes(t) + 4, 2 * level);
    }
    put_word(last, word(last) + 1);
    row[0] = (uint8_t)level;
    put_word(row + 2, label);
    put_word(row + entry_bytes(t), t->rows);
    t->rows++;
    t->table_len += row_bytes(t);
}

/* The next entry: its level, and its type, the labels from the root down to it. */
static void add_entry(tape *t, unsigned level, unsigned size, const unsigned *type)
{
    uint8_t *entry = t->shape + t->shape_len;
    unsigned k;
    entry[0] = (uint8_t)level;
    entry[1] = (uint8_t)size;
    for (k = 0; k < size; k++) {
        put_word(entry + 4 + 2 * k, type[k]);
    }
    t->shape_len += entry_bytes(t);
}

static const unsigned down_to_asset[] = {PORTFOLIO, LESSEE, LEASE, ASSET};

static void lease_with_lessee_and_asset(tape *t)
{
    add_entry(t, 1, 3, down_to_asset);
    add_entry(t, 2, 2, down_to_asset);
    add_entry(t, 2, 4, down_to_asset);
}

/* Rows of a book, cut off where there are enough: a lessee, a lease, three assets, a lease and so on. */
static void book_rows(tape *t, size_t rows)
{
    size_t i;
    add_row(t, 1, PORTFOLIO);
    for (i = 0; t->rows < rows; i++) {
        if (i % 13 == 0) {
            add_row(t, 2, LESSEE);
        } else if (i % 13 % 4 == 1) {
            add_row(t, 3, LEASE);
        } else {
            add_row(t, 4, ASSET);
        }
    }
}

void make_book(tape *t, silmezga_width width, size_t rows)
{
    start(t, width, "book");
    book_rows(t, rows);
    lease_with_lessee_and_asset(t);
}

void make_fan(tape *t, silmezga_width width, size_t rows)
{
    start(t, width, "fan");
    add_row(t, 1, PORTFOLIO);
    add_row(t, 2, LESSEE);
    while (t->rows < rows) {
        add_row(t, 3, LEASE);
        add_row(t, 4, ASSET);
    }
    lease_with_lessee_and_asset(t);
}

/* Sixteen entries on 6 levels: lessees for the second, types of this size for the others, of another for the last. */
static void sixteen_entries(tape *t, unsigned size, unsigned last)
{
    unsigned e;
    add_entry(t, 1, size, down_to_asset);
    add_entry(t, 2, 2, down_to_asset);
    for (e = 0; e < 14; e++) {
        add_entry(t, 2 + e % 5, e < 13 ? size : last, down_to_asset);
    }
}

void make_sixteen(tape *t, silmezga_width width, size_t rows)
{
    start(t, width, "sixteen");
    book_rows(t, rows);
    sixteen_entries(t, 3, 3);
}

/* Trees of 64 rows, a row of each type: 3 types below the root, 4 below each of them, 4 below each of those. */
void make_64_types(tape *t, silmezga_width width, size_t rows)
{
    static const unsigned asset[] = {1, 4, 13, 23}, first[] = {1, 4, 13, 20}, second[] = {1, 4, 13, 21};
    static const unsigned cousin[] = {1, 4, 10}, uncle[] = {1, 2};
    size_t i;
    start(t, width, "64 types");
    for (i = 0; t->rows < rows; i++) {
        unsigned at = i % 64;
        if (at == 0) {
            add_row(t, 1, 1);
        } else if (at % 21 == 1) {
            add_row(t, 2, 2 + at / 21);
        } else if ((at - 2) % 21 % 5 == 0) {
            add_row(t, 3, 10 + (at - 2) % 21 / 5);
        } else {
            add_row(t, 4, 19 + (at - 2) % 21 % 5);
        }
    }
    add_entry(t, 1, 4, asset);
    add_entry(t, 2, 3, asset);
    add_entry(t, 3, 4, first);
    add_entry(t, 3, 4, second);
    add_entry(t, 2, 2, asset);
    add_entry(t, 3, 3, cousin);
    add_entry(t, 2, 1, asset);
    add_entry(t, 3, 2, uncle);
}

/* A number below `most`, the next of a fixed row of numbers. */
static unsigned draw(uint32_t *seed, unsigned most)
{
    *seed = *seed * 1664525u + 1013904223u;
    return (unsigned)((uint64_t)(*seed >> 8) * most >> 24);
}

/* Of two labels a level there are at most 63 types, the root's being one. A type is told by its level and the choices on the way to it. */
static unsigned type_code(const unsigned *labels, unsigned level)
{
    unsigned code = 1, k;
    for (k = 1; k < level; k++) {
        code = 2 * code + labels[k] % 2;
    }
    return code;
}

/* An entry of the type that has the most rows in `count`; that type is then out. */
static void add_most_frequent(tape *t, unsigned level, unsigned *count)
{
    unsigned type[SILMEZGA_MOST_LEVELS] = {PORTFOLIO}, best = 1, code, size = 1, k;
    for (code = 2; code < 64; code++) {
        best = count[code] > count[best] ? code : best;
    }
    count[best] = 0;
    while (best >> size != 0) {
        size++;
    }
    for (k = 1; k < size; k++) {
        type[k] = LESSEE + (best >> (size - 1 - k) & 1);
    }
    add_entry(t, level, size, type);
}

void make_random(tape *t, silmezga_width width, size_t rows)
{
    static const unsigned levels[] = {1, 2, 3, 2, 3, 2, 3, 4};
    unsigned labels[SILMEZGA_MOST_LEVELS] = {PORTFOLIO}, count[64] = {0}, level = 0, e;
    uint32_t seed = 5;
    start(t, width, "random");
    while (t->rows < rows) {
        unsigned deepest = level < SILMEZGA_MOST_LEVELS ? level + 1 : level;
        level = level == 0 || draw(&seed, 24) == 0 ? 1 : 2 + draw(&seed, deepest - 1);
        labels[level - 1] = level == 1 ? PORTFOLIO : LESSEE + draw(&seed, 2);
        add_row(t, level, labels[level - 1]);
        if (t->rows <= 128) {
            count[type_code(labels, level)]++;
        }
    }
    for (e = 0; e < 8; e++) {
        add_most_frequent(t, levels[e], count);
    }
}

static const unsigned labelled_by_level[] = {1, 2, 3, 4, 5, 6, 7, 8};

/* An entry for each level, one below the other, the last level first. */
static void upside_down(tape *t, unsigned levels)
{
    unsigned level;
    for (level = 1; level <= levels; level++) {
        add_entry(t, level, levels + 1 - level, labelled_by_level);
    }
}

/* One root over trees of 32 rows, two rows below each row down to level 6, and one row more there. */
void make_one_tree(tape *t, silmezga_width width, size_t rows)
{
    static const unsigned below[] = {2, 3, 4, 5, 6, 6, 5, 6, 6, 4, 5, 6, 6, 5, 6, 6, 3, 4, 5, 6, 6, 5, 6, 6, 4, 5, 6, 6, 5, 6, 6, 6};
    unsigned level;
    start(t, width, "one tree");
    add_row(t, 1, 1);
    while (t->rows < rows) {
        level = below[(t->rows - 1) % 32];
        add_row(t, level, level);
    }
    upside_down(t, 6);
}

/* One root over trees of 95 rows, two rows below each row down to level 7, and one below each of those. */
void make_eight_levels(tape *t, silmezga_width width, size_t rows)
{
    unsigned level = 1, leaves = 0, k;
    start(t, width, "eight levels");
    add_row(t, 1, 1);
    while (t->rows < rows) {
        if (level < 8) {
            level++;
        } else {
            leaves++;
            level = 7;
            for (k = leaves; k % 2 == 0 && level > 2; k /= 2) {
                level--;
            }
        }
        add_row(t, level, level);
    }
    upside_down(t, 8);
}

/* One row on each level above the last, each labelled by its level, and all the others beneath the last of them. */
static void siblings_on(tape *t, unsigned last, size_t rows)
{
    unsigned level;
    for (level = 1; level < last; level++) {
        add_row(t, level, level);
    }
    while (t->rows < rows) {
        add_row(t, last, last);
    }
    add_entry(t, 1, last, labelled_by_level);
    add_entry(t, 2, last - 1, labelled_by_level);
    add_entry(t, 2, last - 2, labelled_by_level);
}

void make_siblings(tape *t, silmezga_width width, size_t rows)
{
    start(t, width, "siblings");
    siblings_on(t, 6, rows);
}

void make_siblings_on_8(tape *t, silmezga_width width, size_t rows)
{
    start(t, width, "siblings on 8");
    siblings_on(t, 8, rows);
}

void make_many_lines(tape *t, silmezga_width width, size_t rows)
{
    unsigned i, e;
    start(t, width, "many lines");
    add_row(t, 1, PORTFOLIO);
    for (i = 0; t->rows < rows; i++) {
        add_row(t, 2, LESSEE + i % 3);
    }
    for (e = 0; e < 6; e++) {
        unsigned type[] = {PORTFOLIO, 0};
        type[1] = LESSEE + e % 3;
        add_entry(t, 1 + e, 2, type);
    }
}

void make_vain_searches(tape *t, silmezga_width width, size_t rows)
{
    static const unsigned lessee[] = {PORTFOLIO, LESSEE}, asset[] = {PORTFOLIO, ASSET}, payment[] = {PORTFOLIO, PAYMENT};
    unsigned i;
    start(t, width, "vain searches");
    add_row(t, 1, PORTFOLIO);
    for (i = 0; i < 4; i++) {
        add_row(t, 2, LESSEE);
    }
    while (t->rows < rows - 3) {
        add_row(t, 2, ASSET);
    }
    add_row(t, 1, PORTFOLIO);
    add_row(t, 2, ASSET);
    add_row(t, 2, PAYMENT);
    add_entry(t, 1, 2, lessee);
    add_entry(t, 2, 2, asset);
    for (i = 0; i < 14; i++) {
        add_entry(t, 3, 2, payment);
    }
}

/* A book, and a lease more that has no asset. */
static void start_lone(tape *t, silmezga_width width, const char *name, size_t rows)
{
    start(t, width, name);
    book_rows(t, rows - 1);
    add_row(t, 3, LEASE);
}

void make_lone_lease_kept(tape *t, silmezga_width width, size_t rows)
{
    start_lone(t, width, "lone lease, verdict 0", rows);
    lease_with_lessee_and_asset(t);
}

void make_lone_lease_missing(tape *t, silmezga_width width, size_t rows)
{
    start_lone(t, width, "lone lease, verdict 1", rows);
    add_entry(t, 1, 4, down_to_asset);
    add_entry(t, 2, 2, down_to_asset);
    add_entry(t, 2, 3, down_to_asset);
}

void make_lone_sixteen_kept(tape *t, silmezga_width width, size_t rows)
{
    start_lone(t, width, "lone sixteen, verdict 0", rows);
    sixteen_entries(t, 4, 4);
}

void make_lone_sixteen_missing(tape *t, silmezga_width width, size_t rows)
{
    start_lone(t, width, "lone sixteen, verdict 1", rows);
    sixteen_entries(t, 4, 3);
}

static unsigned levels_of(const tape *t)
{
    return t->width == SILMEZGA_EIGHT ? SILMEZGA_WIDE_MOST_LEVELS : SILMEZGA_MOST_LEVELS;
}

void make_long_names(tape *t, silmezga_width width, size_t rows)
{
    unsigned level;
    start(t, width, "long names");
    for (level = 1; level < levels_of(t); level++) {
        add_row(t, level, INSURANCE);
    }
    while (t->rows < rows) {
        add_row(t, level, INSURANCE);
    }
}

void make_same_ends(tape *t, silmezga_width width, size_t rows)
{
    unsigned level, root;
    start(t, width, "same ends");
    for (root = 1; root <= SILMEZGA_MOST_TYPES / levels_of(t); root++) {
        add_row(t, 1, root);
        for (level = 2; level <= levels_of(t); level++) {
            add_row(t, level, DOCUMENT);
        }
    }
    while (t->rows < rows) {
        add_row(t, levels_of(t), DOCUMENT);
    }
}
