/*
 * Shows an index beside a table: index FOLDER TEXT...
 *
 * The index of the folder's table, source8.tab where it opens, else source.tab, is built once. With it the table is judged and reshaped to each tree that
 * is typed as a text, and what comes out is held to what the calls without an index give. At the end stand indexes that are refused.
 */
#include <stdio.h>
#include <string.h>

#include "silmezga.h"

/* There is a byte more than the longest table that is accepted, so that a longer file is refused and not cut. */
typedef struct {
    silmezga_width width;
    uint8_t table[SILMEZGA_WIDE_MOST_TABLE_BYTES + 1];
    size_t table_len;
} file;

/* An index; the lists are longer than most tables have rows, and the places past the rows are neither read nor written. */
typedef struct {
    uint16_t last[SILMEZGA_MOST_ROWS], next[SILMEZGA_MOST_ROWS];
    size_t rows;
} lists;

/* What a reshape leaves. */
typedef struct {
    silmezga_reshaped answer;
    uint8_t new_table[SILMEZGA_MOST_LINES * SILMEZGA_WIDE_ROW_BYTES];
    uint32_t sources[SILMEZGA_MOST_LINES];
} lines;

static size_t entry_bytes(silmezga_width width)
{
    return width == SILMEZGA_EIGHT ? SILMEZGA_WIDE_ENTRY_BYTES : SILMEZGA_ENTRY_BYTES;
}

/* Reads a table of a folder; says whether it opens. */
static int read_file(const char *folder, const char *name, silmezga_width width, file *read)
{
    char path[4096];
    FILE *opened;
    snprintf(path, sizeof path, "%s/%s", folder, name);
    opened = fopen(path, "rb");
    if (opened == NULL) {
        return 0;
    }
    read->width = width;
    read->table_len = fread(read->table, 1, sizeof read->table, opened);
    fclose(opened);
    return 1;
}

/* Prints a refusal; says whether there is one. */
static int refused(const char *call, size_t number, size_t place)
{
    if (number != SILMEZGA_ACCEPTED) {
        printf("%s: refused %zu at %zu\n", call, number, place);
    }
    return number != SILMEZGA_ACCEPTED;
}

/* Builds the index and prints it; says whether there is one. */
static int show_built(const file *read, lists *index)
{
    silmezga_index_built answer =
        silmezga_build_index(read->width, read->table, read->table_len, index->last, SILMEZGA_MOST_ROWS, index->next, SILMEZGA_MOST_ROWS);
    size_t row;
    if (refused("build the index", answer.number, answer.place)) {
        return 0;
    }
    index->rows = answer.rows;
    printf("build the index: %zu rows\n", answer.rows);
    for (row = 0; row < answer.rows; row++) {
        printf("  row %zu: last descendant %u, ", row, index->last[row]);
        if (index->next[row] == SILMEZGA_NO_NEXT) {
            printf("no next row of its type\n");
        } else {
            printf("next row of its type %u\n", index->next[row]);
        }
    }
    return 1;
}

/* Judges with the index: the verdict. */
static void show_judged(const file *read, const lists *index, const uint8_t *shape, size_t shape_len)
{
    silmezga_judged answer = silmezga_judge_with_index(read->width, read->table, read->table_len, shape, shape_len, index->last, index->rows,
                                                       index->next, index->rows);
    if (!refused("  judge with the index", answer.number, answer.place)) {
        printf("  judge with the index: verdict %zu\n", answer.verdict);
    }
}

/* Reshapes with the index: the source row of each line, and whether all is as without the index, what is lent past the last line too. */
static void show_reshaped(const file *read, const lists *index, const uint8_t *shape, size_t shape_len)
{
    static lines with, without;
    size_t k;
    memset(&with, 0, sizeof with);
    memset(&without, 0, sizeof without);
    with.answer = silmezga_reshape_with_index(read->width, read->table, read->table_len, shape, shape_len, index->last, index->rows,
                                              index->next, index->rows, with.new_table, sizeof with.new_table, with.sources, SILMEZGA_MOST_LINES);
    without.answer = silmezga_reshape(read->width, read->table, read->table_len, shape, shape_len, without.new_table, sizeof without.new_table,
                                      without.sources, SILMEZGA_MOST_LINES);
    if (refused("  reshape with the index", with.answer.number, with.answer.place)) {
        return;
    }
    printf("  reshape with the index: %zu lines, of rows", with.answer.lines);
    for (k = 0; k < with.answer.lines; k++) {
        printf(" %u", (unsigned)(with.sources[k] % 65536));
    }
    printf("\n  without it: %s\n", memcmp(&with, &without, sizeof with) == 0 ? "the same" : "something else");
}

/* Summarises with the index: the lines of each entry. */
static void show_summary(const file *read, const lists *index, const uint8_t *shape, size_t shape_len)
{
    silmezga_summary answer = silmezga_summarise_with_index(read->width, read->table, read->table_len, shape, shape_len, index->last, index->rows,
                                                            index->next, index->rows);
    size_t entry;
    if (refused("  summarise with the index", answer.number, answer.place)) {
        return;
    }
    printf("  summarise with the index: lines");
    for (entry = 0; entry < shape_len / entry_bytes(read->width); entry++) {
        printf(" %zu", answer.lines[entry]);
    }
    printf("\n");
}

static void show_tree(const file *read, const lists *index, const char *text)
{
    uint8_t shape[SILMEZGA_WIDE_MOST_SHAPE_BYTES];
    silmezga_tree_read answer =
        silmezga_read_tree(read->width, read->table, read->table_len, (const uint8_t *)text, strlen(text), shape, sizeof shape);
    size_t shape_len = answer.entries * entry_bytes(read->width);
    printf("typed: %s\n", text);
    if (!refused("  read", answer.number, answer.place)) {
        show_judged(read, index, shape, shape_len);
        show_reshaped(read, index, shape, shape_len);
        show_summary(read, index, shape, shape_len);
    }
}

/* Judges an empty shape, which is refused with 5 where the index passes: an index is tested before the shape is read. */
static void show_tested(const char *which, const file *read, const lists *index, size_t places)
{
    silmezga_judged answer = silmezga_judge_with_index(read->width, read->table, read->table_len, read->table, 0, index->last, places, index->next,
                                                       places);
    refused(which, answer.number, answer.place);
}

/* An index that is too short, and one that is wrong at one row and then at an earlier one too; a table of no rows has none of these. */
static void show_wrong(const file *read, lists *index)
{
    if (index->rows == 0) {
        return;
    }
    show_tested("an empty shape with the index", read, index, index->rows);
    show_tested("with a place less", read, index, index->rows - 1);
    index->next[index->rows - 1] = 0;
    show_tested("with a wrong next row", read, index, index->rows);
    index->last[index->rows / 2]++;
    show_tested("with a wrong last descendant too", read, index, index->rows);
}

int main(int words, char **word)
{
    static file read;
    static lists index;
    int k;
    if (words < 3) {
        fprintf(stderr, "usage: index FOLDER TEXT...\n");
        return 2;
    }
    if (!read_file(word[1], "source8.tab", SILMEZGA_EIGHT, &read) && !read_file(word[1], "source.tab", SILMEZGA_SIX, &read)) {
        fprintf(stderr, "%s: no table\n", word[1]);
        return 2;
    }
    if (show_built(&read, &index)) {
        for (k = 2; k < words; k++) {
            show_tree(&read, &index, word[k]);
        }
        show_wrong(&read, &index);
    }
    return 0;
}
