/* A whole run for a person: the ring, the rows, the race, the report, the bytes read. */
#ifndef REPLAY_SHOW_H
#define REPLAY_SHOW_H

#include <stdio.h>

#include "ask.h"
#include "parts.h"

/* The rows to show, counted from 1. */
struct window {
  size_t first, last;
};

/* Shows a run that the library played. Answers 0, or 1 after a message where the answer cannot be explained. */
int show(FILE *to, const char *name, const struct parts *parts, const struct answer *answer, struct window rows);

#endif
