/* Widening and narrowing a table in plain C: the table is tested by the plain program, then its records are copied. Nothing is proved. */
#ifndef MOVES_H
#define MOVES_H

#include "silmezga.h"

silmezga_moved plain_widen_table(const uint8_t *table, size_t table_len, uint8_t *new_table, size_t new_len);
silmezga_moved plain_narrow_table(const uint8_t *table, size_t table_len, uint8_t *new_table, size_t new_len);

#endif
