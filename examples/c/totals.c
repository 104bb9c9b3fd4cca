/*
 * Shows how tapes are added up: totals ENTRY FOLDER...
 *
 * Takes in the tapes of the folders one after the other, the wide files source8.tab and shape8.tab where source8.tab opens, else source.tab and
 * shape.tab, and prints what each adds, or that it is refused, and the total last. Then takes the last tape in once more, with a total that has its
 * thousand tapes.
 */
#include <inttypes.h>
#include <stdio.h>
#include <stdlib.h>

#include "totals.h"

/* A table and a shape of one width. There is a byte more than the longest that is accepted, so that a longer file is refused and not cut. */
typedef struct {
    silmezga_width width;
    uint8_t table[SILMEZGA_WIDE_MOST_TABLE_BYTES + 1];
    uint8_t shape[SILMEZGA_WIDE_MOST_SHAPE_BYTES + 1];
    size_t table_len, shape_len;
} files;

/* Reads a file of a folder; says whether it opens. */
static int read_file(const char *folder, const char *name, uint8_t *bytes, size_t room, size_t *length)
{
    char path[4096];
    FILE *file;
    snprintf(path, sizeof path, "%s/%s", folder, name);
    file = fopen(path, "rb");
    if (file == NULL) {
        return 0;
    }
    *length = fread(bytes, 1, room, file);
    fclose(file);
    return 1;
}

/* Reads the two files of a folder; says whether both open. */
static int read_files(const char *folder, files *read)
{
    if (read_file(folder, "source8.tab", read->table, sizeof read->table, &read->table_len)) {
        read->width = SILMEZGA_EIGHT;
        return read_file(folder, "shape8.tab", read->shape, sizeof read->shape, &read->shape_len);
    }
    read->width = SILMEZGA_SIX;
    return read_file(folder, "source.tab", read->table, sizeof read->table, &read->table_len) &&
           read_file(folder, "shape.tab", read->shape, sizeof read->shape, &read->shape_len);
}

/* What a tape adds, by itself. */
static void show_sums(const char *folder, const files *read, size_t entry)
{
    totals_tape_sums sums = totals_sum_tape(read->width, read->table, read->table_len, read->shape, read->shape_len, entry);
    if (sums.number != SILMEZGA_ACCEPTED) {
        printf("%s: refused %zu at %zu\n", folder, sums.number, sums.place);
    } else {
        printf("%s: shown %" PRId64 ", not shown %" PRId64 "\n", folder, sums.shown, sums.unshown);
    }
}

/* Takes a tape in. A refused one leaves the total as it was, so that there is nothing to be tested here. */
static totals_taken_in take_in(totals_total total, const files *read, size_t entry)
{
    return totals_take_in(total, read->width, read->table, read->table_len, read->shape, read->shape_len, entry);
}

int main(int words, char **word)
{
    static files read;
    totals_total total = {0, 0, 0}, full = {0, 0, TOTALS_MOST_TAPES};
    totals_taken_in more;
    size_t entry;
    int k;
    if (words < 3) {
        fprintf(stderr, "usage: totals ENTRY FOLDER...\n");
        return 2;
    }
    entry = (size_t)strtoul(word[1], NULL, 10);
    printf("entry %zu\n", entry);
    for (k = 2; k < words; k++) {
        if (!read_files(word[k], &read)) {
            fprintf(stderr, "%s: no table, or no shape\n", word[k]);
            return 2;
        }
        show_sums(word[k], &read, entry);
        total = take_in(total, &read, entry).total;
    }
    printf("total: shown %" PRId64 ", not shown %" PRId64 ", tapes %zu\n", total.shown, total.unshown, total.tapes);
    more = take_in(full, &read, entry);
    printf("one tape more than a thousand: refused %zu at %zu, and the total has %zu\n", more.number, more.place, more.total.tapes);
    return 0;
}
