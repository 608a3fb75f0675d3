/* The race of a run, told as a sentence. */
#ifndef REPLAY_RACE_H
#define REPLAY_RACE_H

#include <stdio.h>

#include "walk.h"

/* The two accesses that race, and the load and the store of an index that did not put them in order. racing is 0 where nothing raced. */
struct race {
  unsigned racing, partner, load, store, slot;
  enum core core, other; /* of the racing access and of its partner */
  int load_is_strong, store_is_strong;
};

/* Finds the race of a run. Answers 0 where the run does not give its reason: an error in this program or in the library. */
int find_race(const struct parts *parts, const struct answer *answer, const struct step *steps, struct race *race);

/* Tells the race, or that there was none. */
void print_race(FILE *to, const struct race *race);

#endif
