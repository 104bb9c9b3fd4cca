/*
 * Makes the call that converts labels, for tools/convert_labels: convert_labels LEVELS TABLE_BYTES SHAPE_BYTES
 *
 * Standard input is the table, the shape, and then the list of pairs as 16-bit numbers, low byte first as this processor has them. Standard output
 * is a line, number, place, rows and entries of the answer, then for refusal 26 what the place is and the label at fault (`row 500`), else
 * `none 0`; and after the line, where nothing is refused, both new files.
 */
#include <stdio.h>
#include <stdlib.h>

#include "silmezga.h"

/* As many numbers as a text of 1,048,576 bytes can hold, which is the longest that the command reads. */
enum { MOST_NUMBERS = 524288 };

/* There is a byte more than the longest file that is accepted, so that a longer one is refused and not cut. */
static uint8_t table[SILMEZGA_WIDE_MOST_TABLE_BYTES + 1], new_table[sizeof table];
static uint8_t shape[SILMEZGA_WIDE_MOST_SHAPE_BYTES + 1], new_shape[sizeof shape];
static uint16_t pairs[MOST_NUMBERS + 1];

/* The first of some labels that is above the range and no old label of the list; 0 for none. */
static unsigned unlisted(const uint8_t *labels, size_t count, size_t numbers)
{
    size_t k, at;
    for (k = 0; k < count; k++) {
        unsigned label = labels[2 * k] + 256u * labels[2 * k + 1];
        for (at = 0; at < numbers && pairs[at] != label; at += 2) {
        }
        if (label > SILMEZGA_MOST_LABEL && at >= numbers) {
            return label;
        }
    }
    return 0;
}

/* Prints what the place of refusal 26 is: the row there where that has a label at fault, and else the entry. */
static void print_fault(silmezga_width width, size_t place, size_t table_len, size_t numbers)
{
    size_t row_bytes = width == SILMEZGA_EIGHT ? SILMEZGA_WIDE_ROW_BYTES : SILMEZGA_ROW_BYTES;
    size_t entry_bytes = width == SILMEZGA_EIGHT ? SILMEZGA_WIDE_ENTRY_BYTES : SILMEZGA_ENTRY_BYTES;
    const uint8_t *row = table + row_bytes * place, *entry = shape + entry_bytes * place;
    unsigned label = place < table_len / row_bytes ? unlisted(row + 2, 1, numbers) : 0;
    if (label != 0) {
        printf(" row %u\n", label);
    } else {
        printf(" entry %u\n", unlisted(entry + 4, entry[1], numbers));
    }
}

static silmezga_converted convert(silmezga_width width, size_t table_len, size_t shape_len, size_t numbers)
{
    return silmezga_convert_labels(width, table, table_len, shape, shape_len, pairs, numbers, new_table, table_len, new_shape, shape_len);
}

int main(int count, char **words)
{
    silmezga_width width;
    silmezga_converted answer;
    size_t table_len, shape_len, numbers;
    if (count != 4) {
        return 2;
    }
    width = strtoul(words[1], NULL, 10) == 8 ? SILMEZGA_EIGHT : SILMEZGA_SIX;
    table_len = strtoul(words[2], NULL, 10);
    shape_len = strtoul(words[3], NULL, 10);
    if (table_len > sizeof table || shape_len > sizeof shape || fread(table, 1, table_len, stdin) != table_len ||
        fread(shape, 1, shape_len, stdin) != shape_len) {
        return 2;
    }
    numbers = fread(pairs, sizeof *pairs, MOST_NUMBERS + 1, stdin);
    if (numbers > MOST_NUMBERS || ferror(stdin)) {
        return 2;
    }
    answer = convert(width, table_len, shape_len, numbers);
    printf("%zu %zu %zu %zu", answer.number, answer.place, answer.rows, answer.entries);
    if (answer.number == SILMEZGA_UNLISTED_LABEL) {
        print_fault(width, answer.place, table_len, numbers);
    } else {
        printf(" none 0\n");
    }
    if (answer.number == SILMEZGA_ACCEPTED) {
        fwrite(new_table, 1, table_len, stdout);
        fwrite(new_shape, 1, shape_len, stdout);
    }
    return fflush(stdout) != 0 || ferror(stdout) ? 1 : 0;
}
