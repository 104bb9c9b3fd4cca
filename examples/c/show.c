/*
 * Shows what the calls say of a table and a shape: show FOLDER
 *
 * The wide files source8.tab and shape8.tab in the folder where source8.tab opens, else the narrow ones, source.tab and shape.tab.
 */
#include <inttypes.h>
#include <stdio.h>
#include <stdlib.h>
#include <string.h>

#include "silmezga.h"

/* A table and a shape of one width. There is a byte more than the longest that is accepted, so that a longer file is refused and not cut. */
typedef struct {
    silmezga_width width;
    uint8_t table[SILMEZGA_WIDE_MOST_TABLE_BYTES + 1];
    uint8_t shape[SILMEZGA_WIDE_MOST_SHAPE_BYTES + 1];
    size_t table_len, shape_len;
} files;

static uint8_t new_table[SILMEZGA_MOST_LINES * SILMEZGA_WIDE_ROW_BYTES];
static uint32_t sources[SILMEZGA_MOST_LINES];

static size_t row_bytes(silmezga_width width)
{
    return width == SILMEZGA_EIGHT ? SILMEZGA_WIDE_ROW_BYTES : SILMEZGA_ROW_BYTES;
}

static size_t entry_bytes(silmezga_width width)
{
    return width == SILMEZGA_EIGHT ? SILMEZGA_WIDE_ENTRY_BYTES : SILMEZGA_ENTRY_BYTES;
}

/* Reads a file of a folder; says whether it opens. */
static int read_file(const char *folder, const char *name, uint8_t *bytes, size_t room, size_t *length)
{
    char path[4096];
    FILE *file;
    snprintf(path, sizeof path, "%s/%s", folder, name);
    file = fopen(path, "rb");
    if (file == NULL) {
        return 0;
    }
    *length = fread(bytes, 1, room, file);
    fclose(file);
    return 1;
}

static void read_files(const char *folder, files *read)
{
    int wide = read_file(folder, "source8.tab", read->table, SILMEZGA_WIDE_MOST_TABLE_BYTES + 1, &read->table_len);
    int both;
    if (wide) {
        read->width = SILMEZGA_EIGHT;
        both = read_file(folder, "shape8.tab", read->shape, SILMEZGA_WIDE_MOST_SHAPE_BYTES + 1, &read->shape_len);
    } else {
        read->width = SILMEZGA_SIX;
        both = read_file(folder, "source.tab", read->table, SILMEZGA_MOST_TABLE_BYTES + 1, &read->table_len) &&
               read_file(folder, "shape.tab", read->shape, SILMEZGA_MOST_SHAPE_BYTES + 1, &read->shape_len);
    }
    if (!both) {
        fprintf(stderr, "%s: no table and shape\n", folder);
        exit(2);
    }
}

static unsigned word(const uint8_t *bytes)
{
    return bytes[0] + 256u * bytes[1];
}

/* Prints a row: its Dewey number, its label and its value, which is its last eight bytes. */
static void print_row(silmezga_width width, const uint8_t *row)
{
    const uint8_t *value = row + row_bytes(width) - 8;
    unsigned level = row[0], k;
    uint64_t bits = 0;
    for (k = 0; k < level; k++) {
        printf(k == 0 ? "%u" : ".%u", word(row + 4 + 2 * k));
    }
    for (k = 8; k > 0; k--) {
        bits = bits << 8 | value[k - 1];
    }
    printf(" label %u value %" PRId64, word(row + 2), (int64_t)bits);
}

/* Prints a refusal; says whether there is one. */
static int refused(const char *call, size_t number, size_t place)
{
    if (number != SILMEZGA_ACCEPTED) {
        printf("%s: refused %zu at %zu\n", call, number, place);
    }
    return number != SILMEZGA_ACCEPTED;
}

static void show_examined(const files *read)
{
    silmezga_examined answer = silmezga_examine(read->width, read->table, read->table_len);
    if (!refused("examine", answer.number, answer.place)) {
        printf("examine: %zu rows\n", answer.rows);
    }
}

static void show_looked_up(const files *read, size_t row)
{
    silmezga_looked_up answer = silmezga_look_up(read->width, read->table, read->table_len, row);
    if (!refused("look up", answer.number, answer.place)) {
        printf("look up row %zu: bytes %zu to %zu, ", row, answer.start, answer.start + answer.length - 1);
        print_row(read->width, read->table + answer.start);
        printf("\n");
    }
}

static void show_adorned(const files *read, size_t lent)
{
    silmezga_type_summary summaries[SILMEZGA_MOST_TYPES];
    silmezga_adorned answer = silmezga_adorn(read->width, read->table, read->table_len, summaries, lent);
    size_t k;
    if (refused("adorn", answer.number, answer.place)) {
        return;
    }
    printf("adorn: %zu types\n", answer.types);
    for (k = 0; k < answer.types; k++) {
        printf("  type %zu: parent %zu label %zu level %zu rows %zu children %zu..%zu\n", k, summaries[k].parent, summaries[k].label,
               summaries[k].level, summaries[k].rows, summaries[k].least, summaries[k].greatest);
    }
}

/* What the second answer adds to verdicts 1 and 3. Verdict 0 says as much already, and verdict 2 names two entries that are apart. */
static void show_none_apart(const silmezga_judged *answer)
{
    if (answer->verdict == SILMEZGA_MISSING || answer->verdict == SILMEZGA_UNSURE) {
        printf("  %s\n", answer->none_apart ? "no two entries are apart: nothing is made up" : "two entries are apart: something may be made up");
    }
}

/* The numbers of each edge: of children under a row of the parent entry's type, of parents of a row of the entry's own. Entry 0 has none. */
static void show_edges(const silmezga_judged *answer, size_t entries)
{
    size_t e;
    for (e = 1; e < entries; e++) {
        printf("  edge %zu: children %zu..%zu parents %zu..%zu\n", e, answer->least_children[e], answer->greatest_children[e],
               answer->least_parents[e], answer->greatest_parents[e]);
    }
}

static void show_judged(const files *read)
{
    silmezga_judged answer = silmezga_judge(read->width, read->table, read->table_len, read->shape, read->shape_len);
    if (refused("judge", answer.number, answer.place)) {
        return;
    }
    switch (answer.verdict) {
    case SILMEZGA_KEPT:
        printf("judge: verdict 0, the links are kept\n");
        break;
    case SILMEZGA_MISSING:
        printf("judge: verdict 1, row %zu has no partner for entry %zu\n", answer.second, answer.first);
        break;
    case SILMEZGA_APART:
        printf("judge: verdict 2, entries %zu and %zu\n", answer.first, answer.second);
        break;
    default:
        printf("judge: verdict 3, entries %zu and %zu\n", answer.first, answer.second);
    }
    show_none_apart(&answer);
    show_edges(&answer, read->shape_len / entry_bytes(read->width));
}

static void show_reshaped(const files *read)
{
    silmezga_reshaped answer = silmezga_reshape(read->width, read->table, read->table_len, read->shape, read->shape_len, new_table,
                                                sizeof new_table, sources, SILMEZGA_MOST_LINES);
    size_t k;
    if (refused("reshape", answer.number, answer.place)) {
        return;
    }
    printf("reshape: %zu lines\n", answer.lines);
    for (k = 0; k < answer.lines; k++) {
        printf("  ");
        print_row(read->width, new_table + row_bytes(read->width) * k);
        printf(", entry %u of row %u\n", (unsigned)(sources[k] / 65536), (unsigned)(sources[k] % 65536));
    }
}

static void show_summary(const files *read)
{
    silmezga_summary answer = silmezga_summarise(read->width, read->table, read->table_len, read->shape, read->shape_len);
    size_t entry;
    if (refused("summarise", answer.number, answer.place)) {
        return;
    }
    printf("summarise:\n");
    for (entry = 0; entry < read->shape_len / entry_bytes(read->width); entry++) {
        printf("  entry %zu: lines %zu rows %zu copies %zu different %zu\n", entry, answer.lines[entry], answer.rows[entry],
               answer.copies[entry], answer.different[entry]);
    }
}

/* Narrows both files; says whether neither is refused. */
static int narrow(const files *wide, files *made)
{
    silmezga_moved table = silmezga_narrow_table(wide->table, wide->table_len, made->table, SILMEZGA_MOST_TABLE_BYTES);
    silmezga_moved shape = silmezga_narrow_shape(wide->shape, wide->shape_len, made->shape, SILMEZGA_MOST_SHAPE_BYTES);
    int refusals = refused("narrow the table", table.number, table.place) + refused("narrow the shape", shape.number, shape.place);
    made->width = SILMEZGA_SIX;
    made->table_len = SILMEZGA_ROW_BYTES * table.count;
    made->shape_len = SILMEZGA_ENTRY_BYTES * shape.count;
    return refusals == 0;
}

/* Widens both files; says whether neither is refused. */
static int widen(const files *read, files *made)
{
    silmezga_moved table = silmezga_widen_table(read->table, read->table_len, made->table, SILMEZGA_WIDE_MOST_TABLE_BYTES);
    silmezga_moved shape = silmezga_widen_shape(read->shape, read->shape_len, made->shape, SILMEZGA_WIDE_MOST_SHAPE_BYTES);
    int refusals = refused("widen the table", table.number, table.place) + refused("widen the shape", shape.number, shape.place);
    made->width = SILMEZGA_EIGHT;
    made->table_len = SILMEZGA_WIDE_ROW_BYTES * table.count;
    made->shape_len = SILMEZGA_WIDE_ENTRY_BYTES * shape.count;
    return refusals == 0;
}

static int equal(const uint8_t *a, size_t a_len, const uint8_t *b, size_t b_len)
{
    return a_len == b_len && memcmp(a, b, a_len) == 0;
}

/* Shows narrow files widened: the same verdict; and the same bytes when they are narrowed again. */
static void show_widened(const files *read)
{
    static files wide, back;
    if (widen(read, &wide)) {
        printf("widen: a table of %zu bytes, a shape of %zu\n", wide.table_len, wide.shape_len);
        show_judged(&wide);
        if (narrow(&wide, &back)) {
            int same = equal(back.table, back.table_len, read->table, read->table_len) &&
                       equal(back.shape, back.shape_len, read->shape, read->shape_len);
            printf("narrow: %s\n", same ? "the same bytes again" : "other bytes");
        }
    }
}

/* Shows wide files narrowed, where no level and no length of a type is over 6. */
static void show_narrowed(const files *read)
{
    static files made;
    if (narrow(read, &made)) {
        printf("narrow: a table of %zu bytes, a shape of %zu\n", made.table_len, made.shape_len);
        show_judged(&made);
    }
}

int main(int count, char **words)
{
    static files read;
    if (count != 2) {
        fprintf(stderr, "usage: show FOLDER\n");
        return 2;
    }
    read_files(words[1], &read);
    show_examined(&read);
    show_looked_up(&read, 3);
    show_looked_up(&read, 9);
    show_adorned(&read, SILMEZGA_MOST_TYPES);
    show_adorned(&read, 3);
    show_judged(&read);
    show_reshaped(&read);
    show_summary(&read);
    if (read.width == SILMEZGA_EIGHT) {
        show_narrowed(&read);
    } else {
        show_widened(&read);
    }
    return 0;
}
