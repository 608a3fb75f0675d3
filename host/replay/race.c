/* The race of a run, told as a sentence.
 *
 * With two cores one core's access happens before the other's only by way of an index: a release store of it, made after the access, that an
 * acquire load reads. For the consumer's loads that index is back, for the producer's stores front. So a race has its reason in the orders of
 * the racing core's load of the other's index and of the other's store of it. */
#include "race.h"

#include "words.h"

/* The latest load of the other's index that the core made before an entry, or 0. */
static unsigned latest_foreign_load(const struct step *steps, enum core core, unsigned before) {
  for (unsigned k = before - 1; k > 0; k--) {
    const struct step *s = &steps[k - 1];
    if (s->core == core && s->deed == FOREIGN_LOAD && s->mark <= FERRULIQUE_RACED) return k;
  }
  return 0;
}

/* Are the two entries data accesses of one slot by different cores? One is then a store, since each core only stores or only loads. */
static int clash(const struct step *racing, const struct step *partner) {
  return racing->mark == FERRULIQUE_RACED && racing->deed == DATA_ACCESS && partner->deed == DATA_ACCESS && partner->mark < FERRULIQUE_RACED &&
         racing->slot == partner->slot && racing->core != partner->core;
}

/* Finds the load and the store. Answers 0 where they do not explain the race: no such load, a store not after the partner, both strong. */
static int find_reason(const struct parts *p, const struct step *steps, struct race *r) {
  r->load = latest_foreign_load(steps, r->core, r->racing);
  if (r->load == 0) return 0;
  r->store = steps[r->load - 1].from;
  r->load_is_strong = is_strong(order_of_load(r->core), p->orders);
  r->store_is_strong = is_strong(order_of_store(r->other), p->orders);
  return r->partner < r->store && !(r->load_is_strong && r->store_is_strong);
}

int find_race(const struct parts *p, const struct answer *a, const struct step *steps, struct race *r) {
  *r = (struct race){.racing = ferrulique_number(a->report, FERRULIQUE_RACE_ENTRY), .partner = ferrulique_number(a->report, FERRULIQUE_RACE_PARTNER)};
  if (r->racing == 0) return r->partner == 0;
  if (r->partner == 0 || r->partner >= r->racing || !clash(&steps[r->racing - 1], &steps[r->partner - 1])) return 0;
  r->slot = steps[r->racing - 1].slot;
  r->core = (enum core)steps[r->racing - 1].core;
  r->other = other_core(r->core);
  return find_reason(p, steps, r);
}

static const char *access_words(enum core core) { return core == PRODUCER ? "store to" : "load of"; }

static void print_relaxed(FILE *to, const struct race *r) {
  const char *index = other_index(r->core);
  if (!r->store_is_strong) fprintf(to, "the %s's store of %s", core_words(r->other), index);
  if (!r->store_is_strong && !r->load_is_strong) fprintf(to, " and ");
  if (!r->load_is_strong) fprintf(to, "the %s's load of %s", core_words(r->core), index);
  fprintf(to, !r->store_is_strong && !r->load_is_strong ? " are relaxed" : " is relaxed");
}

/* What the load and the store were, and why they order nothing. */
static const char *why_unordered(const struct race *r) {
  if (r->store_is_strong) return "the store is release, but the load is relaxed";
  return r->load_is_strong ? "the load is acquire, but the store is relaxed" : "both the store and the load are relaxed";
}

void print_race(FILE *to, const struct race *r) {
  if (r->racing == 0) {
    fprintf(to, "race: none\n");
    return;
  }
  fprintf(to, "race: entry %u, the %s's %s slot %u, ", r->racing, core_words(r->core), access_words(r->core), r->slot);
  fprintf(to, "and entry %u, the %s's %s slot %u: ", r->partner, core_words(r->other), access_words(r->other), r->slot);
  fprintf(to, "neither happens before the other, because ");
  print_relaxed(to, r);
  fprintf(to, ".\n      Entry %u read %s from the store of entry %u, ", r->load, other_index(r->core), r->store);
  fprintf(to, "which the %s made after entry %u; %s, so this orders nothing.\n", core_words(r->other), r->partner, why_unordered(r));
}
