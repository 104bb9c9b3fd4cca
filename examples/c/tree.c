/*
 * Shows what the calls make of wanted trees that are typed as a line of text: tree FOLDER TEXT...
 *
 * Each text is read over the folder's table, source8.tab where it opens, else source.tab. What is read is judged, printed as a line, and read again
 * from that line.
 */
#include <stdio.h>
#include <string.h>

#include "silmezga.h"

/* There is a byte more than the longest table that is accepted, so that a longer file is refused and not cut. */
typedef struct {
    silmezga_width width;
    uint8_t table[SILMEZGA_WIDE_MOST_TABLE_BYTES + 1];
    size_t table_len;
} file;

static size_t entry_bytes(silmezga_width width)
{
    return width == SILMEZGA_EIGHT ? SILMEZGA_WIDE_ENTRY_BYTES : SILMEZGA_ENTRY_BYTES;
}

/* Reads a table of a folder; says whether it opens. */
static int read_file(const char *folder, const char *name, silmezga_width width, file *read)
{
    char path[4096];
    FILE *opened;
    snprintf(path, sizeof path, "%s/%s", folder, name);
    opened = fopen(path, "rb");
    if (opened == NULL) {
        return 0;
    }
    read->width = width;
    read->table_len = fread(read->table, 1, sizeof read->table, opened);
    fclose(opened);
    return 1;
}

/* Prints a refusal; says whether there is one. */
static int refused(const char *call, size_t number, size_t place)
{
    if (number != SILMEZGA_ACCEPTED) {
        printf("  %s: refused %zu at %zu\n", call, number, place);
    }
    return number != SILMEZGA_ACCEPTED;
}

/* The verdict, and the numbers of each edge. */
static void show_judged(const file *read, const uint8_t *shape, size_t shape_len)
{
    silmezga_judged answer = silmezga_judge(read->width, read->table, read->table_len, shape, shape_len);
    size_t e;
    if (refused("judge", answer.number, answer.place)) {
        return;
    }
    printf("  judge: verdict %zu\n", answer.verdict);
    for (e = 1; e < shape_len / entry_bytes(read->width); e++) {
        printf("  edge %zu: children %zu..%zu parents %zu..%zu\n", e, answer.least_children[e], answer.greatest_children[e],
               answer.least_parents[e], answer.greatest_parents[e]);
    }
}

/* The shape as a line, and whether that line is read as the same shape. */
static void show_printed(const file *read, const uint8_t *shape, size_t shape_len)
{
    uint8_t line[SILMEZGA_MOST_TEXT_BYTES], again[SILMEZGA_WIDE_MOST_SHAPE_BYTES];
    silmezga_tree_printed printed = silmezga_print_tree(read->width, shape, shape_len, line, sizeof line);
    silmezga_tree_read answer;
    int same;
    if (refused("print", printed.number, printed.place)) {
        return;
    }
    printf("  print: %.*s\n", (int)printed.bytes, (const char *)line);
    answer = silmezga_read_tree(read->width, read->table, read->table_len, line, printed.bytes, again, sizeof again);
    if (!refused("read again", answer.number, answer.place)) {
        same = answer.entries * entry_bytes(read->width) == shape_len && memcmp(again, shape, shape_len) == 0;
        printf("  read again: %s\n", same ? "the same shape" : "another shape");
    }
}

static void show_tree(const file *read, const char *text)
{
    uint8_t shape[SILMEZGA_WIDE_MOST_SHAPE_BYTES];
    silmezga_tree_read answer =
        silmezga_read_tree(read->width, read->table, read->table_len, (const uint8_t *)text, strlen(text), shape, sizeof shape);
    size_t shape_len = answer.entries * entry_bytes(read->width);
    printf("typed: %s\n", text);
    if (!refused("read", answer.number, answer.place)) {
        printf("  read: %zu entries\n", answer.entries);
        show_judged(read, shape, shape_len);
        show_printed(read, shape, shape_len);
    }
}

int main(int words, char **word)
{
    static file read;
    int k;
    if (words < 3) {
        fprintf(stderr, "usage: tree FOLDER TEXT...\n");
        return 2;
    }
    if (!read_file(word[1], "source8.tab", SILMEZGA_EIGHT, &read) && !read_file(word[1], "source.tab", SILMEZGA_SIX, &read)) {
        fprintf(stderr, "%s: no table\n", word[1]);
        return 2;
    }
    for (k = 2; k < words; k++) {
        show_tree(&read, word[k]);
    }
    return 0;
}
