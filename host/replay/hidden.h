/* Which stores of an index a core may no longer read, and by which rule. */
#ifndef REPLAY_HIDDEN_H
#define REPLAY_HIDDEN_H

#include "parts.h"

/* A store of an index: the entry that made it, 0 for the initial one, and its value. */
struct store {
  uint32_t entry, value;
};

/* The stores of one index, oldest first: the initial one and at most one for each of 255 batches. */
enum { MOST_STORES = 256 };
struct stores {
  struct store list[MOST_STORES];
  size_t count;
};

/* The latest store of the other's index that a core has come by: the entry that made it, and this core's load that first came by it. */
struct met {
  uint32_t store, load;
};

/* What a core has come by in its loads of the other's index; 0 where it has read no store but the initial one.
 * acquired: by an acquire load of a release store. That store, and all before it on the other core, happens before what this core does from now on;
 * with two cores nothing else crosses over.
 * read: by any load. */
struct known {
  struct met acquired, read;
};

/* The rules that hide a store from a core's load: axiom 2, a later store of that index happens before the load; coherence, the core has already
 * read a later store of that index. */
enum rule { NO_RULE, AXIOM_2, COHERENCE };

/* The rule by which a store is hidden, the newest store that hides it by this rule, and the load by which the core came by that one. */
struct hiding {
  enum rule rule;
  struct met by;
};

/* A load at entry `load` has read a store. */
void note_read(struct known *known, uint32_t load, const struct store *read, int load_is_acquire, int store_is_release);

/* What hides a store of the other's index from the core's next load. Where both rules do, it is axiom 2. Entries rise along the list of stores, so
 * the later store is the one with the larger entry. */
struct hiding hiding(const struct store *store, const struct known *known);

#endif
