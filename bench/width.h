/*
 * For a program that is compiled once for each width, with the number of levels as LEVELS: the sizes of that width, and the names of its
 * calls. So each width has code of its own, which is as fast as if there were no other.
 */
#ifndef WIDTH_H
#define WIDTH_H

#include "silmezga.h"

#if LEVELS == SILMEZGA_MOST_LEVELS
#define OF_WIDTH(program, call) program##_narrow_##call
#elif LEVELS == SILMEZGA_WIDE_MOST_LEVELS
#define OF_WIDTH(program, call) program##_wide_##call
#else
#error "LEVELS is neither 6 nor 8"
#endif

enum { VALUE_AT = 4 + 2 * LEVELS, ROW_BYTES = VALUE_AT + 8, ENTRY_BYTES = 4 + 2 * LEVELS };
enum { MOST_TABLE_BYTES = SILMEZGA_MOST_ROWS * ROW_BYTES, MOST_SHAPE_BYTES = SILMEZGA_MOST_ENTRIES * ENTRY_BYTES };

#endif
