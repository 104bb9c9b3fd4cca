/* The four calls that the programs in plain C have, answering in the structs of silmezga.h, so that they can be held to the library. */
#ifndef CALLS_H
#define CALLS_H

#include "silmezga.h"

/* Declares them for a program and one width, which the names begin with. */
#define FOUR_CALLS(program) \
    silmezga_examined program##_examine(const uint8_t *table, size_t table_len); \
    silmezga_judged program##_judge(const uint8_t *table, size_t table_len, const uint8_t *shape, size_t shape_len); \
    silmezga_reshaped program##_reshape(const uint8_t *table, size_t table_len, const uint8_t *shape, size_t shape_len, uint8_t *new_table, \
                                        size_t new_len, uint32_t *sources, size_t source_places); \
    silmezga_summary program##_summarise(const uint8_t *table, size_t table_len, const uint8_t *shape, size_t shape_len);

#endif
