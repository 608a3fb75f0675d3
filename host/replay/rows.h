/* The rows: a line for each entry of a run. */
#ifndef REPLAY_ROWS_H
#define REPLAY_ROWS_H

#include <stdio.h>

#include "walk.h"

/* Prints the rows from one entry to another, both counted from 1, and which were left out before and after them. */
void print_rows(FILE *to, const struct parts *parts, const struct step *steps, size_t first, size_t last);

#endif
