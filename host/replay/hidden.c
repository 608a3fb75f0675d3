/* Which stores of an index a core may no longer read, and by which rule. */
#include "hidden.h"

static void meet(struct met *met, uint32_t load, const struct store *read) {
  if (read->entry > met->store) *met = (struct met){read->entry, load};
}

void note_read(struct known *known, uint32_t load, const struct store *read, int load_is_acquire, int store_is_release) {
  meet(&known->read, load, read);
  if (load_is_acquire && store_is_release) meet(&known->acquired, load, read);
}

struct hiding hiding(const struct store *store, const struct known *known) {
  if (known->acquired.store > store->entry) return (struct hiding){AXIOM_2, known->acquired};
  if (known->read.store > store->entry) return (struct hiding){COHERENCE, known->read};
  return (struct hiding){NO_RULE, {0, 0}};
}
