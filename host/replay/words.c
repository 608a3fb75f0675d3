/* Names for what a run file has only numbers for: cores, indexes, orders. */
#include "words.h"

const struct order orders[ORDERS] = {
    {FERRULIQUE_PRODUCER_ACQUIRE, PRODUCER, "load", "front", "acquire"},
    {FERRULIQUE_PRODUCER_RELEASE, PRODUCER, "store", "back", "release"},
    {FERRULIQUE_CONSUMER_ACQUIRE, CONSUMER, "load", "back", "acquire"},
    {FERRULIQUE_CONSUMER_RELEASE, CONSUMER, "store", "front", "release"},
};

const char *core_words(enum core core) { return core == PRODUCER ? "producer" : "consumer"; }
const char *batch_words(enum core core) { return core == PRODUCER ? "push" : "pop"; }
const char *own_index(enum core core) { return core == PRODUCER ? "back" : "front"; }
const char *other_index(enum core core) { return own_index(other_core(core)); }
enum core other_core(enum core core) { return core == PRODUCER ? CONSUMER : PRODUCER; }

const struct order *order_of_load(enum core core) { return &orders[core == PRODUCER ? 0 : 2]; }
const struct order *order_of_store(enum core core) { return order_of_load(core) + 1; }

int is_strong(const struct order *order, uint32_t bits) { return (bits & (uint32_t)order->bit) != 0; }
const char *order_words(const struct order *order, uint32_t bits) { return is_strong(order, bits) ? order->strong : "relaxed"; }

const char *plural(size_t count) { return count == 1 ? "" : "s"; }
