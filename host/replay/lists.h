/* Lists of sizes, bytes and entries in words, wrapped to lines: as the text form has them. */
#ifndef REPLAY_LISTS_H
#define REPLAY_LISTS_H

#include <stdio.h>

#include "parts.h"

/* A line under way: its first words stand at `column`, and lines after the first begin with `indent` spaces. */
struct lines {
  FILE *to;
  size_t column, indent;
};

/* Begins a line with some spaces and a word, and says how far it has got. */
struct lines begin_line(FILE *to, size_t indent, const char *word);

/* Each ends its last line. An empty list is "none". An item that comes several times in a row is followed by x and how often. */
void put_sizes(struct lines lines, const uint8_t *sizes, size_t n);
void put_bytes(struct lines lines, const uint8_t *bytes, size_t n);
void put_schedule(struct lines lines, const uint8_t *schedule, size_t entries);

#endif
