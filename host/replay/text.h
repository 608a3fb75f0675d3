/* The text form of a run file: what people write and read. docs/REPLAY.md describes it. */
#ifndef REPLAY_TEXT_H
#define REPLAY_TEXT_H

#include <stdio.h>

#include "parts.h"

/* A text may describe a file that is too long to be lawful: its bytes to push and its schedule have each at most MOST_LISTED bytes. */
enum { MOST_LISTED = 1 << 20, MOST_WRITTEN = 2 * MOST_LISTED + 1024 };

/* Is this file the text form? By its name, or by its first word. */
int is_text(const char *name, const uint8_t *bytes, size_t n);

/* Makes the bytes that a text describes; `bytes` has MOST_WRITTEN places. Answers 0, or 1 after a message with the text's line. */
int read_text(const char *name, const uint8_t *text, size_t n, uint8_t *bytes, size_t *bytes_n);

/* Writes the text form. */
void write_text(FILE *to, const struct parts *parts);

#endif
