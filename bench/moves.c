#include <string.h>

#include "moves.h"
#include "plain.h"

enum { ROW = SILMEZGA_ROW_BYTES, WIDE_ROW = SILMEZGA_WIDE_ROW_BYTES };
enum { KEPT = SILMEZGA_ENTRY_BYTES, ADDED = WIDE_ROW - ROW };    /* the bytes before the added components, and of these */
enum { VALUE_BYTES = ROW - KEPT };

static silmezga_moved moved(size_t number, size_t place, size_t count)
{
    silmezga_moved answer;
    answer.number = number;
    answer.place = place;
    answer.count = count;
    return answer;
}

silmezga_moved plain_widen_table(const uint8_t *table, size_t table_len, uint8_t *new_table, size_t new_len)
{
    silmezga_examined found = plain_narrow_examine(table, table_len);
    size_t i;
    if (found.number != 0) {
        return moved(found.number, found.place, 0);
    }
    if (new_len < WIDE_ROW * found.rows) {
        return moved(29, 0, 0);
    }
    for (i = 0; i < found.rows; i++) {
        const uint8_t *row = table + ROW * i;
        uint8_t *wide = new_table + WIDE_ROW * i;
        memcpy(wide, row, KEPT);
        memset(wide + KEPT, 0, ADDED);
        memcpy(wide + KEPT + ADDED, row + KEPT, VALUE_BYTES);
    }
    return moved(0, 0, found.rows);
}

silmezga_moved plain_narrow_table(const uint8_t *table, size_t table_len, uint8_t *new_table, size_t new_len)
{
    silmezga_examined found = plain_wide_examine(table, table_len);
    size_t i;
    if (found.number != 0) {
        return moved(found.number, found.place, 0);
    }
    for (i = 0; i < found.rows; i++) {
        if (table[WIDE_ROW * i] > SILMEZGA_MOST_LEVELS) {
            return moved(24, i, 0);
        }
    }
    if (new_len < ROW * found.rows) {
        return moved(29, 0, 0);
    }
    for (i = 0; i < found.rows; i++) {
        const uint8_t *wide = table + WIDE_ROW * i;
        uint8_t *row = new_table + ROW * i;
        memcpy(row, wide, KEPT);
        memcpy(row + KEPT, wide + KEPT + ADDED, VALUE_BYTES);
    }
    return moved(0, 0, found.rows);
}
