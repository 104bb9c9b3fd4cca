/*
 * Totals: adds up the values of a wanted tree's source rows, tape by tape, over a month of tapes. A library of its own above Silmezga, of which it uses only
 * what is promised.
 *
 * Two calls. Each is a function of its arguments alone: no call keeps anything, allocates, reads or writes a file, or stops the program. Each takes bytes
 * and numbers of every kind, and gives its answer, or a refusal with a number and a place. What each call answers is proved for every input
 * (docs/PROVED.md).
 *
 * The archive is target/staticlib/libtotals_c.a, made by `tools/staticlib totals_c`. It is for x86-64 Linux, has all that it needs of Silmezga in itself, and
 * all that it takes from other libraries is memcpy and memset. A program may be linked to it and to libsilmezga_c.a too. This header is C99 and C++. Calls from
 * several threads do not disturb each other. A call took 206 KB of stack when measured, built by an older toolchain: a new table of 4,096 lines
 * has room there. The proofs say nothing of stack.
 *
 * What a caller owes
 *   - A pointer and the length behind it tell of memory that is there: `table` has table_len bytes, and so on. No length passes the
 *     object's own.
 *   - No pointer is NULL, also where the length is 0: then pass the address of any object of the pointer's type.
 *
 * Tables, shapes, widths and entries are those of silmezga.h, and what stands there of them holds here. A tape is a table and a shape of one width, and an
 * entry of the shape.
 *
 * What is added
 *   The rows of an entry are the rows of the table that have the entry's type. A row of them is shown where it is the source row of some line of that entry, in
 *   the new table that silmezga_reshape makes of the tape with room for 4,096 lines; lines of other entries do not count, also where they have the same type.
 *   The first sum is of the values of the rows that are shown, each once however many lines show it, and the second of the values of all others. So the two
 *   together are the sum over all rows of the type.
 *
 *   A value of a row of that type lies from -10^12 to 10^12, both allowed; values of other rows may be any. A table has at most 1,024 rows, and a total at most
 *   1,000 tapes: no sum passes 1.024 x 10^18 either way, and none overflows.
 */
#ifndef TOTALS_H
#define TOTALS_H

#include <stddef.h>
#include <stdint.h>

#include "silmezga.h"

#ifdef __cplusplus
extern "C" {
#endif

/* ---- Limits */
#define TOTALS_MOST_VALUE INT64_C(1000000000000)             /* of a value that is added, either way: 10^12 */
#define TOTALS_MOST_TAPE_SUM INT64_C(1024000000000000)       /* of a sum of one tape, either way: 1.024 x 10^15 */
#define TOTALS_MOST_TAPES 1000                               /* that are taken in */

/*
 * ---- Refusals
 * In the order in which they are tested. Each is given exactly then; 0 means that the call is accepted, and its place is 0.
 *
 *   sum_tape   1 to 8 as silmezga_summarise gives them, then 16, 17
 *   take_in    the same, then 18
 */
enum {
    TOTALS_NO_SUCH_ENTRY = 16,    /* the shape has no such entry; place 0 */
    TOTALS_BAD_VALUE = 17,        /* a value of the entry's type is below -10^12 or above 10^12; place: the first such row, shown or not */
    TOTALS_BAD_TOTAL = 18         /* the total handed in has 1,000 tapes or more, or a sum beyond 1.024 x 10^15 a tape, either way; place 0 */
};

/*
 * ---- Answers
 * Structs by value. `number` and `place` are the refusal's, 0 and 0 where there is none.
 */
typedef struct totals_tape_sums {
    size_t number;
    size_t place;
    int64_t shown;              /* over the rows of the entry that are shown, each once; 0 where the call is refused */
    int64_t unshown;            /* over its rows that are not shown; 0 where the call is refused */
} totals_tape_sums;

/* A running total. Before the first tape all three are 0: totals_total total = {0, 0, 0}. */
typedef struct totals_total {
    int64_t shown;              /* both sums over the tapes taken in */
    int64_t unshown;
    size_t tapes;               /* how many these are */
} totals_total;

typedef struct totals_taken_in {
    size_t number;
    size_t place;
    totals_total total;         /* the total with this tape; where the call is refused, as it was handed in */
} totals_taken_in;

/* ---- The two calls */

/* Adds up one tape: refusals 1 to 8, 16 and 17, or both sums of the entry. */
totals_tape_sums totals_sum_tape(silmezga_width width, const uint8_t *table, size_t table_len, const uint8_t *shape, size_t shape_len, size_t entry);

/*
 * Takes a tape into a total: refusals 1 to 8, 16 and 17 of the tape, then 18 of the total; or the total with both sums of the tape added, and one tape more.
 * A refused call gives the total back as it was handed in, so that its answer's `total` is always the one to go on with.
 *
 * After any list of tapes, each sum is the sum over those that were taken in, whatever their order, and both together are the sum over all rows of the
 * entries' types. The tapes may have different widths, shapes and entries. A total that started from zeros is not refused before 1,000 tapes are in it.
 */
totals_taken_in totals_take_in(totals_total total, silmezga_width width, const uint8_t *table, size_t table_len, const uint8_t *shape, size_t shape_len,
                               size_t entry);

#ifdef __cplusplus
}
#endif

#endif
