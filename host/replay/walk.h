/* The walk: what each entry did, worked out from the file and the marks. */
#ifndef REPLAY_WALK_H
#define REPLAY_WALK_H

#include "ask.h"
#include "hidden.h"
#include "parts.h"

/* What a core does next is decided by where it stands in its batch. */
enum deed { NO_DEED, OWN_LOAD, FOREIGN_LOAD, DATA_ACCESS, INDEX_STORE };

/* One entry. What has no meaning for its mark is 0. */
struct step {
  uint8_t core, age, mark;
  enum deed deed;       /* what the core did or, where it was refused, would have done */
  unsigned batch, size; /* the core's batch, counted from 1, and its bytes */
  unsigned byte, slot;  /* data accesses: the byte's place in its batch, counted from 1, and its slot */
  unsigned value;       /* what was loaded or stored; mark 134: the value of the store that the age names */
  unsigned from;        /* loads: the entry that stored what was read, or what the age names; 0 for the initial store */
  unsigned cached;      /* own and foreign loads: the other's index as the core now knows it, */
  unsigned room;        /* and the room that this leaves */
  unsigned shortfall;   /* mark 3: the bytes by which the room is below the batch */
  unsigned stores;      /* foreign loads: how many stores the index had */
  struct hiding hidden; /* mark 134: what hides the store that the age names */
  unsigned halted;      /* mark 130: the entry that raced */
  unsigned partner;     /* mark 7: the entry that it races with */
  unsigned occupancy;   /* after the entry */
};

/* Fills a step for each entry. Answers 0, or the number of an entry whose mark the rules do not explain, or one past the last entry where the
 * report does not. That is an error in this program or in the library. */
size_t walk(const struct parts *parts, const struct answer *answer, struct step *steps);

#endif
