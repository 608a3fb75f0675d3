/* Names for what a run file has only numbers for: cores, indexes, orders. */
#ifndef REPLAY_WORDS_H
#define REPLAY_WORDS_H

#include "parts.h"

/* One of the four index accesses that have an order: its bit, whose it is, and its words. */
struct order {
  enum ferrulique_order bit;
  enum core core;
  const char *access, *index, *strong;
};

enum { ORDERS = 4 };
extern const struct order orders[ORDERS];

const char *core_words(enum core core);
const char *batch_words(enum core core);
const char *own_index(enum core core);
const char *other_index(enum core core);
enum core other_core(enum core core);

/* The order of the core's load of the other's index, and of its store of its own. */
const struct order *order_of_load(enum core core);
const struct order *order_of_store(enum core core);

/* "relaxed", or the order's strong name, under these order bits. */
int is_strong(const struct order *order, uint32_t bits);
const char *order_words(const struct order *order, uint32_t bits);

/* "s" where a count is not 1. */
const char *plural(size_t count);

#endif
