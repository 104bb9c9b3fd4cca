/*
 * Silmezga: moves a seller's table of lease records into the tree that a buyer wants, says whether the move keeps the links between
 * records, and writes the new table with the source row of every line.
 *
 * Seventeen calls: six for tables and shapes, four that widen and narrow files, one that converts labels, two for trees as a line of
 * text, and four for an index beside a table. Each is a function of its arguments alone: no call keeps anything, allocates, reads or
 * writes a file, or stops the program. Each takes bytes and numbers of every kind. It gives its answer, or a refusal with a number and a
 * place, and a refused call changes nothing that it was lent. What each call answers is proved for every input (docs/PROVED.md).
 *
 * The archive is target/staticlib/libsilmezga_c.a, made by `tools/staticlib silmezga_c`. It is for x86-64 Linux, and all that it takes from other
 * libraries is memcpy and memset. This header is C99 and C++. Calls from several threads do not disturb each other, as long as nothing
 * that one of them writes to is lent to another. Measured with an older toolchain, reshaping and
 * summarising took at most 64 KB of stack, building an index at most 20 KB, the others at most 10 KB; the proofs say nothing of stack.
 *
 * What a caller owes
 *   - A pointer and the length behind it tell of memory that is there: `table` has table_len bytes, and so on. No length passes the
 *     object's own.
 *   - No pointer is NULL, also where the length is 0: then pass the address of any object of the pointer's type.
 *   - What a call writes to (`new_table`, `new_shape`, `sources`, `summaries`; `shape` in reading a tree, `text` in printing one, `last`
 *     and `next` in building an index) overlaps nothing else that is lent to the same call.
 *   - `sources`, `summaries`, `pairs`, `last` and `next` are aligned as their types ask, which they are when declared or allocated as such.
 *
 * Widths
 *   A file is narrow, with levels to 6, or wide, with levels to 8. A file does not say which it is: the caller does, and a table and the
 *   shape that goes with it have one width. All limits but those of levels and bytes are the same for both.
 *
 * Tables
 *   Numbers are little-endian. A table is records of 24 bytes, of 28 where it is wide, one a row, no header; it may be empty. Rows count
 *   from 0.
 *
 *     narrow       wide
 *     byte  0      byte  0      level, 1 to 6; wide 1 to 8
 *     byte  1      byte  1      zero
 *     bytes 2-3    bytes 2-3    label, 1 to 99
 *     bytes 4-15   bytes 4-19   Dewey number: six 16-bit components, wide eight; those past the level are zero
 *     bytes 16-23  bytes 20-27  value, signed 64-bit, any
 *
 *   Row 0 has Dewey number 1. Each later row is either the number before with a component 1 added at its end, or the number before cut
 *   after some component, that component raised by one. A row's type is the list of labels from its tree's root down to it. Types are
 *   numbered from 0 by first row.
 *
 * Shapes
 *   A shape is the tree that is wanted: records of 16 bytes, of 20 where it is wide, one an entry, 1 to 16 of them. Entries count from 0.
 *
 *     narrow       wide
 *     byte  0      byte  0      level, 1 to 6; wide 1 to 8
 *     byte  1      byte  1      length of the entry's type, 1 to 6; wide 1 to 8
 *     bytes 2-3    bytes 2-3    zero
 *     bytes 4-15   bytes 4-19   the type: six 16-bit labels, wide eight, each 1 to 99 within the length, zero past it
 *
 *   Entry 0 has level 1; every later entry has level at least 2 and at most one more than the entry before it. An entry's parent is the
 *   nearest earlier entry one level up. Two entries may name one type.
 */
#ifndef SILMEZGA_H
#define SILMEZGA_H

#include <stddef.h>
#include <stdint.h>

#ifdef __cplusplus
extern "C" {
#endif

/*
 * The version of the project; CHANGELOG.md says what each brought. A program is compiled with the header of the archive that it is linked to:
 * silmezga_judged is larger than before version 3.2.
 */
#define SILMEZGA_VERSION "3.4.0"

/* The archive's numbers have 64 bits: this line refuses a target whose size_t has not. */
typedef char silmezga_size_t_has_64_bits[sizeof(size_t) == 8 ? 1 : -1];

/*
 * ---- Widths
 * The first argument of each of the six calls, of the one that converts labels, of the two for trees as a line of text and of the four for an index: the
 * width of the table and of the shape that it is lent, and of what it writes. It is passed as a number of 32 bits. 8 means eight levels, and every other
 * number six.
 */
typedef enum silmezga_width {
    SILMEZGA_SIX = 6,       /* narrow: six levels */
    SILMEZGA_EIGHT = 8      /* wide: eight levels */
} silmezga_width;

/* This line refuses a compiler that gives the enum another size. */
typedef char silmezga_width_has_32_bits[sizeof(silmezga_width) == 4 ? 1 : -1];

/* ---- Limits of narrow files */
#define SILMEZGA_ROW_BYTES 24          /* a row of a table, a line of a new table */
#define SILMEZGA_ENTRY_BYTES 16        /* an entry of a shape */
#define SILMEZGA_MOST_LEVELS 6         /* levels of rows and entries; labels of a type */
#define SILMEZGA_MOST_TABLE_BYTES 24576
#define SILMEZGA_MOST_SHAPE_BYTES 256

/* ---- The same limits of wide files */
#define SILMEZGA_WIDE_ROW_BYTES 28
#define SILMEZGA_WIDE_ENTRY_BYTES 20
#define SILMEZGA_WIDE_MOST_LEVELS 8
#define SILMEZGA_WIDE_MOST_TABLE_BYTES 28672
#define SILMEZGA_WIDE_MOST_SHAPE_BYTES 320

/* ---- Limits of both */
#define SILMEZGA_MOST_ROWS 1024        /* rows of a source table */
#define SILMEZGA_LEAST_LABEL 1
#define SILMEZGA_MOST_LABEL 99
#define SILMEZGA_MOST_OLD_LABEL 999    /* of files stored before version 3; silmezga_convert_labels alone takes labels up to it */
#define SILMEZGA_MOST_TYPES 64         /* types of a table */
#define SILMEZGA_MOST_ENTRIES 16       /* entries of a shape, of which there is at least 1 */
#define SILMEZGA_MOST_LINES 4096       /* lines of a new table */
#define SILMEZGA_MOST_TEXT_BYTES 1536  /* of a tree as a line of text; a printed line has at most 1,360 */
#define SILMEZGA_NO_NEXT 65535         /* in an index, for a row that no row of its type follows */

/*
 * ---- Refusals
 * In the order in which they are tested, but for reading a typed tree and for the calls with an index, whose order stands beside them. Each is given exactly
 * then; 0 means that the call is accepted, and its place is 0.
 *
 *   examine    1 to 3            widen_table     1 to 3, 29
 *   look_up    1 to 3, 11        narrow_table    1 to 3, 24, 29
 *   adorn      1 to 4, 10        widen_shape     5 and 6, 29
 *   judge      1 to 7            narrow_shape    5 and 6, 24, 29
 *   reshape    1 to 8            convert_labels  1 to 3, 5 and 6 with labels to 999; 25, 26, 29
 *   summarise  1 to 8            read_tree       1 to 4, then 12, 5, 6, 13, 29
 *                                print_tree      5 and 6, 29
 *
 *   build_index            1 to 3, 14
 *   judge_with_index       1 to 4, then 14, 15, 5 to 7
 *   reshape_with_index     1 to 4, then 14, 15, 5 to 8
 *   summarise_with_index   1 to 4, then 14, 15, 5 to 8
 */
enum {
    SILMEZGA_ACCEPTED = 0,
    SILMEZGA_TABLE_TOO_LONG = 1,     /* table longer than 24,576 bytes, wide 28,672; place 0 */
    SILMEZGA_TABLE_RAGGED = 2,       /* table length no multiple of 24, wide 28; place 0 */
    SILMEZGA_BAD_ROW = 3,            /* a row breaks a rule above; place: the first bad row */
    SILMEZGA_TOO_MANY_TYPES = 4,     /* more than 64 types; place: the first row of the 65th type */
    SILMEZGA_BAD_SHAPE_LENGTH = 5,   /* shape empty, over 256 bytes, or no multiple of 16, wide 320 and 20; place 0 */
    SILMEZGA_BAD_ENTRY = 6,          /* a shape entry breaks a rule; place: the first bad entry */
    SILMEZGA_NO_SUCH_TYPE = 7,       /* an entry's type has no row; place: the first such entry */
    SILMEZGA_NO_ROOM = 8,            /* more lines than there is room for; place 0 */
    SILMEZGA_FEW_SUMMARIES = 10,     /* fewer lent summaries than types; place 0 */
    SILMEZGA_NO_SUCH_ROW = 11,       /* no such row; place: the row asked for */
    SILMEZGA_BAD_TEXT = 12,          /* the typed tree is over 1,536 bytes or not in the grammar; place: 1,536 where it is too long, else the
                                        first byte of the first token that no wanted tree has there, or the text's length where it ends early */
    SILMEZGA_BAD_NAME = 13,          /* a typed name matches no type of the table, or several; place: the first such entry */
    SILMEZGA_FEW_PLACES = 14,        /* a list of an index has fewer lent places than the table has rows; place 0 */
    SILMEZGA_BAD_INDEX = 15,         /* the lists of an index are not this table's; place: the first row at which either is wrong */
    SILMEZGA_TOO_DEEP = 24,          /* for narrowing, a level or the length of a type over 6; place: the first such row or entry */
    SILMEZGA_BAD_PAIR = 25,          /* for converting, a pair breaks a rule below; place: the first such pair */
    SILMEZGA_UNLISTED_LABEL = 26,    /* for converting, a label above 99 is not in the list; place: the first such row, else entry */
    SILMEZGA_FEW_BYTES = 29          /* for widening, narrowing, converting, reading and printing, fewer lent bytes than are written; place 0 */
};

/* Number 9 is unused: no call gives it. The name stays only so that a program that has it still compiles. */
#define SILMEZGA_BAD_LINE 9

/*
 * ---- Verdicts
 * Two rows meet at the number of leading Dewey components that they share, two types at the largest level at which any of their rows
 * meet, and two rows are closest when they meet where their types do and this is not 0. A partner of a row, for an entry, is a row of the
 * parent entry's type closest to it. An edge of the shape, from an entry to its parent, has the level at which the two types meet; it is
 * full when every row of the parent's type has a closest row of the child's. The path between two entries runs up to the deepest entry
 * above or equal to both (the fork) and down again.
 *
 * The verdict is the first fault that is found. The second answer, `none_apart`, is about all pairs of entries, whatever the verdict: it
 * is 1 exactly when none of them would earn a 2. Then a reshape makes nothing up, also with verdict 1 or 3: any two lines of different
 * entries that hang under, or are, one line of their fork entry have closest source rows. With verdict 0 it is 1, with verdict 2 it is 0.
 * It holds one way only: 0 does not mean that something is made up.
 *
 * Beside them stand the numbers of each edge, whatever the verdict; an edge is named by its lower entry. The children of a row of the parent
 * entry's type are the rows of the entry's type closest to it, the parents of a row of the entry's type its partners. Every row of the two
 * types counts, also one that no line shows and one that has none: least and greatest are over all of them, and each is the number of some
 * row. So an edge is full exactly where the least number of children is not 0, each row of the entry's type has a partner exactly where the
 * least number of parents is not 0, and where the two types do not meet all four are 0.
 */
enum {
    SILMEZGA_KEPT = 0,       /* the move keeps every link and makes up none */
    SILMEZGA_MISSING = 1,    /* entry `first`: row `second` of its type has no partner. First such entry, then first such row */
    SILMEZGA_APART = 2,      /* entries `first` before `second`: their types do not meet at exactly the least level on their path */
    SILMEZGA_UNSURE = 3      /* they do, but for no edge of that least level are all edges between it and the fork full */
};

/*
 * ---- Answers
 * Structs by value. `number` and `place` are the refusal's, 0 and 0 where there is none; in a refused answer every other field is 0.
 */
typedef struct {
    size_t number;
    size_t place;
    size_t rows;                /* rows of the table */
} silmezga_examined;

typedef struct {
    size_t number;
    size_t place;
    size_t start;               /* the row's own bytes are table[start] to table[start + length - 1] */
    size_t length;              /* 24, wide 28 */
} silmezga_looked_up;

typedef struct {
    size_t parent;              /* the parent type, 64 for none */
    size_t label;               /* the last label of the type */
    size_t level;
    size_t rows;                /* rows of this type */
    size_t least;               /* the least and the greatest number of children of this type under a row of the parent type; */
    size_t greatest;            /* both are the number of rows where there is no parent type */
} silmezga_type_summary;

typedef struct {
    size_t number;
    size_t place;
    size_t types;               /* types of the table */
} silmezga_adorned;

typedef struct {
    size_t number;
    size_t place;
    size_t verdict;             /* 0 to 3 */
    size_t first;               /* verdict 1: the entry; 2 and 3: the earlier entry; 0: zero */
    size_t second;              /* verdict 1: the row; 2 and 3: the later entry; 0: zero */
    size_t none_apart;          /* the second answer: 1 where no pair of entries would earn a 2, else 0 */
    size_t least_children[SILMEZGA_MOST_ENTRIES];     /* for each entry, over all rows of its parent entry's type, the least number of children */
    size_t greatest_children[SILMEZGA_MOST_ENTRIES];  /* and the greatest; zeros for entry 0 and past the last entry, here and below */
    size_t least_parents[SILMEZGA_MOST_ENTRIES];      /* for each entry, over all rows of its own type, the least number of parents */
    size_t greatest_parents[SILMEZGA_MOST_ENTRIES];   /* and the greatest */
} silmezga_judged;

typedef struct {
    size_t number;
    size_t place;
    size_t lines;               /* lines of the new table */
} silmezga_reshaped;

typedef struct {
    size_t number;
    size_t place;
    size_t lines[SILMEZGA_MOST_ENTRIES];      /* for each entry its lines; zeros past the last entry */
    size_t rows[SILMEZGA_MOST_ENTRIES];       /* the source rows of its type; rows less different: those that no line shows */
    size_t copies[SILMEZGA_MOST_ENTRIES];     /* lines less different */
    size_t different[SILMEZGA_MOST_ENTRIES];  /* the different source rows that appear in its lines, each counted once */
} silmezga_summary;

typedef struct silmezga_moved {
    size_t number;
    size_t place;
    size_t count;               /* rows or entries written */
} silmezga_moved;

typedef struct silmezga_converted {
    size_t number;
    size_t place;
    size_t rows;                /* rows of the table */
    size_t entries;             /* entries of the shape */
} silmezga_converted;

typedef struct silmezga_tree_read {
    size_t number;
    size_t place;
    size_t entries;             /* entries written */
} silmezga_tree_read;

typedef struct silmezga_tree_printed {
    size_t number;
    size_t place;
    size_t bytes;               /* bytes written */
} silmezga_tree_printed;

typedef struct silmezga_index_built {
    size_t number;
    size_t place;
    size_t rows;                /* rows of the table: so many places of each list are written */
} silmezga_index_built;

/* ---- The six calls */

/* Examines a table: refusals 1 to 3, or the number of rows. */
silmezga_examined silmezga_examine(silmezga_width width, const uint8_t *table, size_t table_len);

/* Looks up a row: refusals 1 to 3 and 11, or where the row's own bytes, 24 or wide 28, stand in the caller's table. */
silmezga_looked_up silmezga_look_up(silmezga_width width, const uint8_t *table, size_t table_len, size_t row);

/*
 * Adorns a table: refusals 1 to 4 and 10, or one summary a type, in type order, at the front of the `lent` summaries; those past the last
 * type stay as they were. 64 summaries are always enough.
 */
silmezga_adorned silmezga_adorn(silmezga_width width, const uint8_t *table, size_t table_len, silmezga_type_summary *summaries, size_t lent);

/* Judges a table and a shape: refusals 1 to 7, or the verdict in numbers, the second answer, and four numbers of each edge. */
silmezga_judged silmezga_judge(silmezga_width width, const uint8_t *table, size_t table_len, const uint8_t *shape, size_t shape_len);

/*
 * Reshapes a table: refusals 1 to 8, or the lines of the new table, written to the front of `new_table`, and for each line its entry x
 * 65,536 + its source row, to the front of `sources`. Bytes and places past the last line stay as they were.
 *
 * `new_len` is in bytes, `source_places` in numbers. There is room for the least of new_len / 24 (wide: 28), source_places and 4,096 lines;
 * the lines are counted before the first is written. Where the verdict on the same table and shape is 0, what the call leaves keeps the links
 * between records: the pairs of source rows read off the closest pairs of new lines are exactly the closest pairs of source rows of those
 * two types. Where the second answer is 1, whatever the verdict, nothing is made up: any two lines of different entries that hang under,
 * or are, one line of their fork entry have closest source rows. Where the verdict is 1 with entry e and row r, that row stands in no
 * line of that entry: no place of `sources` among the lines written is e x 65,536 + r. A new table of at most 1,024 lines is a sound
 * source of the same width: no call refuses its `lines` x 24 (wide: 28) bytes with 1 to 4, so that they can be reshaped again with no test
 * in between.
 */
silmezga_reshaped silmezga_reshape(silmezga_width width, const uint8_t *table, size_t table_len, const uint8_t *shape, size_t shape_len,
                                   uint8_t *new_table, size_t new_len, uint32_t *sources, size_t source_places);

/* Summarises a reshape with room for 4,096 lines, with nothing written: refusals 1 to 8, or four figures of each entry. */
silmezga_summary silmezga_summarise(silmezga_width width, const uint8_t *table, size_t table_len, const uint8_t *shape, size_t shape_len);

/*
 * ---- Widening and narrowing
 * Each writes the file at the other width to the front of the lent bytes, which are `new_len`; bytes past it stay as they were. `count` is
 * the number of rows or entries, so that a wide table takes count x 28 bytes, a narrow one count x 24, a wide shape count x 20 and a narrow
 * one count x 16. What is written is always accepted at its width: with no refusal 1 to 3, or 5 and 6.
 *
 * A record is widened by two zero components (in a shape, labels) behind the six that it has; narrowed, it loses the last two, which are
 * zero. So narrowing what was widened gives back the same bytes, and widening what was narrowed too. A widened table has the same types
 * as the narrow one, and with the widened shape the same verdict, second answer, numbers of edges, summary and source list, and the same
 * lines, widened.
 */

/* Widens a narrow table: refusals 1 to 3 of the narrow width and 29. SILMEZGA_WIDE_MOST_TABLE_BYTES are always enough. */
silmezga_moved silmezga_widen_table(const uint8_t *table, size_t table_len, uint8_t *new_table, size_t new_len);

/* Narrows a wide table: refusals 1 to 3 of the wide width, 24 with the first row whose level is over 6, and 29. */
silmezga_moved silmezga_narrow_table(const uint8_t *table, size_t table_len, uint8_t *new_table, size_t new_len);

/* Widens a narrow shape: refusals 5 and 6 of the narrow width and 29. SILMEZGA_WIDE_MOST_SHAPE_BYTES are always enough. */
silmezga_moved silmezga_widen_shape(const uint8_t *shape, size_t shape_len, uint8_t *new_shape, size_t new_len);

/* Narrows a wide shape: refusals 5 and 6 of the wide width, 24 with the first entry whose level or type length is over 6, and 29. */
silmezga_moved silmezga_narrow_shape(const uint8_t *shape, size_t shape_len, uint8_t *new_shape, size_t new_len);

/*
 * ---- Converting labels
 * Labels go to 99. Before version 3 they went to 999, and what was stored then, a table and the shape that goes with it, is converted by a
 * list: `pairs` holds 16-bit numbers, old label, new label, and so on, `numbers` of them. Pairs count from 0. An odd number at the end is a half
 * pair, which breaks a rule.
 *
 * The rules of a pair
 *   - The old label lies in 100 to 999, the new one in 1 to 99.
 *   - The new label does not occur in the table or in the shape, even if the old one occurs in neither.
 *   - No pair before it has the same old label or the same new one: of two that clash, the later is at fault.
 * An old label need not occur. Since new labels differ, a list has at most 99 pairs.
 *
 * Place of refusal 26: the first row that has a label above 99 which is no old label of the list; where there is no such row, the first entry
 * with such a label in its type. So it is row `place` where that row has such a label, and else entry `place`.
 */

/*
 * Converts the labels of a table and its shape: refusals 1 to 3, 5 and 6 of the width with labels to 999, 25, 26 and 29, or both files with
 * each old label of the list replaced by the new one of its pair, in what is lent. Every other byte is that of the file which was read, so that the
 * new files have the lengths of the old ones, table_len and shape_len; 29 says that one of the two has fewer bytes lent. Bytes past them stay as
 * they were.
 *
 * What is written is always accepted at its width: with no refusal 1 to 3, or 5 and 6. Two rows have equal types afterwards exactly if they had
 * before, and closest rows stay closest. So refusals 4 and 7 come exactly where the old range would have them, and the verdict, the second answer,
 * the numbers of edges, the summary and the source list are those of the old files; the lines too, with their labels converted.
 */
silmezga_converted silmezga_convert_labels(silmezga_width width, const uint8_t *table, size_t table_len, const uint8_t *shape, size_t shape_len,
                                           const uint16_t *pairs, size_t numbers, uint8_t *new_table, size_t new_table_len,
                                           uint8_t *new_shape, size_t new_shape_len);

/*
 * ---- Trees as a line of text
 * A wanted tree may be typed: `asset [ lease [ lessee ] ]`. This is the grammar.
 *
 *   text   one tree; spaces between tokens, before the first and after the last are free
 *   tree   a name, or a name, `[`, one tree or more, `]`
 *   name   parts with single dots between them, and a dot before the first or none
 *   part   one of the twenty names of labels 1 to 20, or a number from 21 to 99 without leading zeros
 *   token  `[`, `]`, or a longest run of bytes other than space and these two; a name is one token
 *
 * The names of labels 1 to 20: portfolio, lessee, lease, asset, payment, meter, guarantor, invoice, site, insurance, deposit, vendor, schedule,
 * residual, tax, service, reading, contact, currency, document. Large letters, tabs and line ends are bytes of a token like others, so that a text
 * which ends with a line end is refused.
 *
 * A name stands for a type of the table: `lessee.lease` for the one whose list of labels ends so, `.portfolio.lessee.lease`, with a dot before it,
 * for the one whose whole list that is. It must match exactly one. A name of more labels than there are levels matches none.
 */

/*
 * Reads a typed tree over a table: refusals 1 to 4 of the table, then 12, then 5 (place 0) for more than 16 entries, 6 for a level above 6, wide 8
 * (place: the first such entry), 13 and 29; or the records of the shape, at the front of the lent bytes, which are `shape_len`. Bytes past them
 * stay as they were. 12 is given exactly for texts that are over 1,536 bytes or not in the grammar. An entry of the shape is a name of the text, in
 * the text's order: its level is one more than the brackets that are open there, its type the one that the name matches.
 *
 * The shape takes entries x 16 bytes, wide 20; SILMEZGA_MOST_SHAPE_BYTES, wide SILMEZGA_WIDE_MOST_SHAPE_BYTES, are always enough.
 */
silmezga_tree_read silmezga_read_tree(silmezga_width width, const uint8_t *table, size_t table_len, const uint8_t *text, size_t text_len,
                                      uint8_t *shape, size_t shape_len);

/*
 * Prints a shape as a line: refusals 5, 6 and 29, or the line at the front of the lent bytes, which are `text_len`; bytes past it stay as they
 * were. Each entry's type is written whole, with a dot before it, and there is one space between two tokens; no line end. The line has at
 * most 1,360 bytes, so that SILMEZGA_MOST_TEXT_BYTES are always enough. Read with the same width over any table that is not refused with 1 to 4 and
 * that has all types of the shape, it gives back the same shape.
 */
silmezga_tree_printed silmezga_print_tree(silmezga_width width, const uint8_t *shape, size_t shape_len, uint8_t *text, size_t text_len);

/*
 * ---- An index beside a table
 * An index of a table is two lists of 16-bit numbers, one place a row:
 *
 *   last   the row's last descendant, the row itself where it has none; a row's descendants are the rows whose Dewey numbers begin with its own
 *   next   the next row of the same type, SILMEZGA_NO_NEXT where there is none
 *
 * It is built once, kept by the caller, and lent to as many calls on the same table as there are trees. `last_places` and `next_places` are in numbers,
 * not in bytes. A list may be longer than the table has rows, also longer than the other: places past the rows are neither read nor written.
 * SILMEZGA_MOST_ROWS places are always enough.
 *
 * A lent index is not trusted: its lists are held to the table, row by row, before the shape is read. So no call answers from a wrong one, and where the
 * lists pass, the answer, and all that the call leaves, is that of the call without an index.
 */

/*
 * Builds the index of a table: refusals 1 to 3, then 14 where either list has fewer places than the table has rows; or the number of rows, and the two
 * lists at the front of `last` and `next`. Places past the rows stay as they were, and where the call is refused all do. Types are not counted: a table of
 * more than 64, which the calls below refuse with 4, has an index too. What is written is never refused by them with 15 beside the same table.
 */
silmezga_index_built silmezga_build_index(silmezga_width width, const uint8_t *table, size_t table_len, uint16_t *last, size_t last_places,
                                          uint16_t *next, size_t next_places);

/*
 * Judges a table and a shape, with an index of the table: refusals 1 to 4 of the table, then 14 where either list has fewer places than the table has rows,
 * then 15 where the lists are not the table's, with the first row at which either is wrong, then 5 to 7; or what silmezga_judge answers. `last` and `next`
 * stay as they were, here and in the two calls below.
 */
silmezga_judged silmezga_judge_with_index(silmezga_width width, const uint8_t *table, size_t table_len, const uint8_t *shape, size_t shape_len,
                                          const uint16_t *last, size_t last_places, const uint16_t *next, size_t next_places);

/*
 * Reshapes a table, with an index of it: refusals 1 to 4, 14 and 15 as in judging with an index, then 5 to 8; or what silmezga_reshape answers, with the same
 * lines at the front of `new_table` and the same numbers at the front of `sources`. Bytes and places past the last line stay as they were, and where
 * the call is refused all do. All that stands beside silmezga_reshape, of room and of links, holds of this call too.
 */
silmezga_reshaped silmezga_reshape_with_index(silmezga_width width, const uint8_t *table, size_t table_len, const uint8_t *shape, size_t shape_len,
                                              const uint16_t *last, size_t last_places, const uint16_t *next, size_t next_places,
                                              uint8_t *new_table, size_t new_len, uint32_t *sources, size_t source_places);

/*
 * Summarises a reshape with room for 4,096 lines, with an index of the table and with nothing written: refusals 1 to 4, 14 and 15 as in judging with an index,
 * then 5 to 8; or what silmezga_summarise answers.
 */
silmezga_summary silmezga_summarise_with_index(silmezga_width width, const uint8_t *table, size_t table_len, const uint8_t *shape, size_t shape_len,
                                               const uint16_t *last, size_t last_places, const uint16_t *next, size_t next_places);

#ifdef __cplusplus
}
#endif

#endif
