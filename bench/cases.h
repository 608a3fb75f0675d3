/* Run files that the library is timed on, each made by a short rule. */
#ifndef CASES_H
#define CASES_H

#include "ferrulique.h"

struct run {
  uint8_t file[FERRULIQUE_MOST_FILE_BYTES];
  size_t length;
};

/* A case: a key for scripts, what it is in words, how to make it, and a run whose time is taken off (its beginning), or a null pointer. */
struct bench_case {
  const char *key, *words;
  void (*make)(struct run *);
  void (*less)(struct run *);
};

extern const struct bench_case bench_cases[];
extern const size_t bench_case_count;

/* The runs of which it is asked only whether and where they race. */
extern const struct bench_case bench_races[];
extern const size_t bench_race_count;

/* One core after the other, cut to at most this many entries. */
void in_turns(struct run *r, size_t entries);

/* How many entries the schedule of a lawful file has. */
size_t entries_in(const struct run *r);

#endif
