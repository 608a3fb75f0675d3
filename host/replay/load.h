/* A file as it lies on the disk, and whether it is a run file's bytes or its text form. */
#ifndef REPLAY_LOAD_H
#define REPLAY_LOAD_H

#include "ferrulique.h"

/* Longer files are read only so far: enough for every text form, and for a run file that is too long to be seen to be so. */
enum { MOST_LOADED = 4 << 20 };

struct loaded {
  uint8_t bytes[MOST_LOADED];
  size_t n;
};

/* Reads a file. Answers 0, or 1 after a message. */
int load(const char *name, struct loaded *file);

/* Writes a file. Answers 0, or 1 after a message. */
int save(const char *name, const uint8_t *bytes, size_t n);

#endif
