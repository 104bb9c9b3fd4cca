/* The tables and shapes that are measured. */
#ifndef TAPES_H
#define TAPES_H

#include "silmezga.h"

typedef struct {
    const char *name;
    silmezga_width width;
    size_t rows;
    size_t table_len, shape_len;
    uint8_t table[SILMEZGA_WIDE_MOST_TABLE_BYTES];
    uint8_t shape[SILMEZGA_WIDE_MOST_SHAPE_BYTES];
} tape;

/* Each of 128 to 1,024 rows, at either width but for the last two: the wide tape is the narrow one widened. */

/* Books of leases: lessees of three leases of three assets each, to lease[lessee asset]. */
void make_book(tape *t, silmezga_width width, size_t rows);

/* One lessee with all leases, an asset each: the rows of one run are nearly the whole table. To lease[lessee asset]. */
void make_fan(tape *t, silmezga_width width, size_t rows);

/* The book again, to a shape of 16 entries on 6 levels. */
void make_sixteen(tape *t, silmezga_width width, size_t rows);

/* 64 types, as many as there may be, to a shape of 8 entries over the last of them. */
void make_64_types(tape *t, silmezga_width width, size_t rows);

/* A random forest of a fixed seed, to a shape of 8 entries over the types most frequent in its first 128 rows. */
void make_random(tape *t, silmezga_width width, size_t rows);

/* One tree of six levels, to a shape of 6 entries that has the levels upside down. */
void make_one_tree(tape *t, silmezga_width width, size_t rows);

/* Siblings on level 6: where a row meets the next is dear to find, since their numbers differ in the last component only. To meter[payment asset]. */
void make_siblings(tape *t, silmezga_width width, size_t rows);

/* Hostile: rows that ask for some 10^15 lines where they are 1,024, for some 10^9 where they are 128. */
void make_many_lines(tape *t, silmezga_width width, size_t rows);

/* Hostile: 4 lines a row, which just fit, and of which nearly each asks for 14 searches of a whole tree that find nothing. */
void make_vain_searches(tape *t, silmezga_width width, size_t rows);

/*
 * For judging alone: one table with two shapes of as many entries, of verdict 0 and of verdict 1. The table is a book whose last row is a
 * lease without an asset. Verdict 1 is as dear as it can be: it comes at the last entry and names the last row, and no two entries are
 * apart, so that all pairs are looked at.
 */

/* To lease[lessee asset] and to asset[lessee lease]. */
void make_lone_lease_kept(tape *t, silmezga_width width, size_t rows);
void make_lone_lease_missing(tape *t, silmezga_width width, size_t rows);

/* To 16 entries on 6 levels, assets but for the lessee, and to the same with a lease as the last. */
void make_lone_sixteen_kept(tape *t, silmezga_width width, size_t rows);
void make_lone_sixteen_missing(tape *t, silmezga_width width, size_t rows);

/* For typed trees alone: their shapes are left empty, and the trees are made of their deepest types. */

/* One way down and siblings on the last level, all labelled insurance: no name of a label is longer. */
void make_long_names(tape *t, silmezga_width width, size_t rows);

/* Hostile: 60 types, 64 where wide, on ways down whose roots alone differ, so that a name is compared with each type up to its root. */
void make_same_ends(tape *t, silmezga_width width, size_t rows);

/* For the wide width alone. */

/* One tree of eight levels, to a shape of 8 entries that has the levels upside down. */
void make_eight_levels(tape *t, silmezga_width width, size_t rows);

/* Siblings on level 8, to a shape of 3 entries: the last level, and beneath it the two above that. */
void make_siblings_on_8(tape *t, silmezga_width width, size_t rows);

#endif
