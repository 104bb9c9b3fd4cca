/*
 * The plain program that the bars of the engine were set on: examining, judging, reshaping and summarising by one linear pass, sets of
 * types, and lines that are walked. Nothing is proved.
 */
#ifndef FORMER_H
#define FORMER_H

#include "calls.h"

FOUR_CALLS(former_narrow)
FOUR_CALLS(former_wide)

#endif
