/* The text form of a run file, read: statements, each a word and what belongs to it, in any order. */
#include <string.h>

#include "text.h"
#include "text_words.h"
#include "words.h"

/* A list under way: its statement's line, its bytes, and where its latest item begins, which a repetition copies. */
struct list {
  int given;
  unsigned line;
  uint8_t *bytes;
  size_t n, most, item;
};

struct number {
  int given;
  uint32_t value;
};

/* What a text has said so far. Of the orders, named says which bits were given by name. */
struct described {
  struct number size, modulus, orders;
  uint32_t named;
  struct list sizes[CORES], data, schedule;
};

enum { MOST_BATCHES = 255 };

/* Notes that a statement has come. Answers 1 after a message where it had come before. */
static int note_given(const struct words *w, int *given) {
  if (*given) return wrong_word(w, "this is given a second time");
  *given = 1;
  return 0;
}

static int put_item(struct words *w, struct list *list, const uint8_t *bytes, size_t n) {
  if (n > list->most - list->n) return wrong_word(w, list->most == MOST_BATCHES ? "there are more than 255 batches" : "this list has more than 1 MiB");
  list->item = list->n;
  if (n > 0) memcpy(list->bytes + list->n, bytes, n);
  list->n += n;
  return 0;
}

/* Has the latest item come `times` times in all. */
static int repeat_item(struct words *w, struct list *list, uint32_t times) {
  size_t start = list->item, n = list->n - start;
  for (uint32_t k = 1; k < times && n > 0; k++) {
    if (put_item(w, list, list->bytes + start, n) != 0) return 1;
  }
  list->item = start;
  return 0;
}

/* x and a number: how often the item before it comes. */
static int read_repetition(struct words *w, struct list *list, int after_item) {
  uint32_t times;
  if (!after_item) return wrong_word(w, "there is no item before this repetition");
  if (decimal(w, 1, w->length, MOST_LISTED, &times) != 0 || times == 0) return wrong_word(w, "x takes a number from 1, as in x3");
  return repeat_item(w, list, times);
}

static int read_size(struct words *w, struct list *list) {
  uint32_t number;
  if (decimal(w, 0, w->length, UINT8_MAX, &number) != 0) return wrong_word(w, "a batch size is a number from 0 to 255");
  uint8_t size = (uint8_t)number;
  return put_item(w, list, &size, 1);
}

/* A quoted string: its bytes, where a backslash stands before a quote or a backslash that is meant. */
static int read_string(struct words *w, struct list *list) {
  size_t start = list->n;
  for (size_t i = 0; i < w->length; i++) {
    if (w->word[i] == '\\' && w->word[++i] != '"' && w->word[i] != '\\') return wrong_word(w, "a backslash stands only before \" or \\");
    if (put_item(w, list, w->word + i, 1) != 0) return 1;
  }
  list->item = start;
  return 0;
}

static int read_byte(struct words *w, struct list *list) {
  uint32_t number;
  if (w->quoted) return read_string(w, list);
  int is_hexadecimal = w->length > 2 && w->word[0] == '0' && w->word[1] == 'x';
  int failed = is_hexadecimal ? hexadecimal(w, 2, w->length, UINT8_MAX, &number) : decimal(w, 0, w->length, UINT8_MAX, &number);
  if (failed) return wrong_word(w, "a byte is a number from 0 to 255, a hexadecimal one as 0x41, or a quoted string");
  uint8_t byte = (uint8_t)number;
  return put_item(w, list, &byte, 1);
}

/* The core of an entry, and where its age begins: P3, C3, or 2:3 for any core byte. */
static int read_core(const struct words *w, uint32_t *core, size_t *age) {
  *core = w->word[0] == 'P' ? PRODUCER : CONSUMER;
  *age = 1;
  if (w->word[0] == 'P' || w->word[0] == 'C') return 0;
  const uint8_t *colon = memchr(w->word, ':', w->length);
  if (colon == NULL) return 1;
  *age = (size_t)(colon - w->word) + 1;
  return decimal(w, 0, *age - 1, UINT8_MAX, core);
}

static int read_entry(struct words *w, struct list *list) {
  static const char message[] = "an entry is P or C and an age from 0 to 255, as P0 or P0x3, or a core byte, a colon and an age, as 2:0";
  uint32_t core, number, times = 1;
  size_t age, end = w->length;
  if (w->quoted || w->length == 0 || read_core(w, &core, &age) != 0) return wrong_word(w, message);
  const uint8_t *x = memchr(w->word, 'x', w->length);
  if (x != NULL) end = (size_t)(x - w->word);
  if (x != NULL && (decimal(w, end + 1, w->length, MOST_LISTED, &times) != 0 || times == 0)) return wrong_word(w, message);
  if (decimal(w, age, end, UINT8_MAX, &number) != 0) return wrong_word(w, message);
  const uint8_t entry[2] = {(uint8_t)core, (uint8_t)number};
  return put_item(w, list, entry, sizeof entry) != 0 || repeat_item(w, list, times) != 0;
}

typedef int read_item(struct words *, struct list *);

static int is_keyword(const struct words *w) {
  static const char *const keywords[] = {"ring", "modulus", "orders", "producer", "consumer", "push", "pop", "bytes", "schedule"};
  for (size_t k = 0; k < sizeof keywords / sizeof *keywords; k++) {
    if (word_is(w, keywords[k])) return 1;
  }
  return 0;
}

/* Items up to the next statement. "none" stands for no items. */
static int read_list(struct words *w, struct list *list, read_item *item) {
  int items = 0;
  list->line = w->word_line;
  if (note_given(w, &list->given) != 0 || next_word(w) != 0) return 1;
  if (word_is(w, "none")) return next_word(w);
  for (int after_item = 0; !at_end(w) && !is_keyword(w); items++) {
    int repetition = !w->quoted && w->word[0] == 'x';
    if (repetition ? read_repetition(w, list, after_item) : item(w, list)) return 1;
    after_item = !repetition;
    if (next_word(w) != 0) return 1;
  }
  return items > 0 ? 0 : wrong_line(w, list->line, "a list has no items: an empty one is written none");
}

static int read_number(struct words *w, struct number *number, uint32_t most, const char *range) {
  if (note_given(w, &number->given) != 0 || next_word(w) != 0) return 1;
  if (decimal(w, 0, w->length, most, &number->value) != 0) return wrong_word(w, range);
  return next_word(w);
}

/* The order that an access of this core has: the words at hand are "loads front", say. */
static const struct order *read_access(struct words *w, enum core core) {
  int loads = word_is(w, "loads");
  const struct order *order = loads ? order_of_load(core) : order_of_store(core);
  if ((!loads && !word_is(w, "stores")) || next_word(w) != 0 || !word_is(w, order->index)) return NULL;
  return order;
}

/* producer loads front acquire, and the three like it. */
static int read_order(struct words *w, struct described *d, enum core core) {
  if (next_word(w) != 0) return 1;
  const struct order *order = read_access(w, core);
  if (order == NULL) return wrong_word(w, core == PRODUCER ? "the producer loads front and stores back" : "the consumer loads back and stores front");
  if (d->orders.given || (d->named & (uint32_t)order->bit) != 0) return wrong_word(w, "this order is given a second time");
  d->named |= (uint32_t)order->bit;
  if (next_word(w) != 0) return 1;
  if (word_is(w, order->strong)) {
    d->orders.value |= (uint32_t)order->bit;
  } else if (!word_is(w, "relaxed")) {
    return wrong_word(w, order == order_of_load(core) ? "a load is relaxed or acquire" : "a store is relaxed or release");
  }
  return next_word(w);
}

/* One statement; the word at hand is its first. */
static int read_statement(struct words *w, struct described *d) {
  if (word_is(w, "ring")) return read_number(w, &d->size, UINT8_MAX, "a ring size is a number from 0 to 255 (a lawful one is 1 to 128)");
  if (word_is(w, "modulus")) return read_number(w, &d->modulus, UINT32_MAX, "a modulus is a number of at most four bytes (a lawful one is 2 to 65536)");
  if (word_is(w, "orders") && d->named != 0) return wrong_word(w, "orders are given by name already");
  if (word_is(w, "orders")) return read_number(w, &d->orders, UINT8_MAX, "order bits are a number from 0 to 255 (lawful ones are 0 to 15)");
  if (word_is(w, "producer")) return read_order(w, d, PRODUCER);
  if (word_is(w, "consumer")) return read_order(w, d, CONSUMER);
  if (word_is(w, "push")) return read_list(w, &d->sizes[PRODUCER], read_size);
  if (word_is(w, "pop")) return read_list(w, &d->sizes[CONSUMER], read_size);
  if (word_is(w, "bytes")) return read_list(w, &d->data, read_byte);
  if (word_is(w, "schedule")) return read_list(w, &d->schedule, read_entry);
  return wrong_word(w, "a statement begins with ring, modulus, orders, producer, consumer, push, pop, bytes or schedule");
}

/* Is all there that has no meaning when left out? The words are at their end. */
static int check_described(const struct words *w, const struct described *d) {
  size_t sum = 0;
  char message[100];
  if (!d->size.given) return wrong_word(w, "the ring size is missing: ring 1, say");
  if (!d->modulus.given) return wrong_word(w, "the modulus is missing: modulus 2, say");
  for (int k = 0; k < ORDERS && !d->orders.given; k++) {
    snprintf(message, sizeof message, "an order is missing: %s %ss %s", core_words(orders[k].core), orders[k].access, orders[k].index);
    if ((d->named & (uint32_t)orders[k].bit) == 0) return wrong_word(w, message);
  }
  for (size_t i = 0; i < d->sizes[PRODUCER].n; i++) sum += d->sizes[PRODUCER].bytes[i];
  snprintf(message, sizeof message, "the push sizes add up to %zu, but the bytes to push are %zu", sum, d->data.n);
  return sum == d->data.n ? 0 : wrong_line(w, d->data.given ? d->data.line : d->sizes[PRODUCER].line, message);
}

static uint8_t *put_list(uint8_t *to, const struct list *list) {
  if (list->n > 0) memcpy(to, list->bytes, list->n);
  return to + list->n;
}

/* Lays the parts out as a run file. Answers its length. */
static size_t lay_out(const struct described *d, uint8_t *bytes) {
  bytes[0] = (uint8_t)d->size.value;
  for (int k = 0; k < 4; k++) bytes[1 + k] = (uint8_t)(d->modulus.value >> 8 * k);
  bytes[5] = (uint8_t)d->orders.value;
  bytes[6] = (uint8_t)d->sizes[PRODUCER].n;
  bytes[7] = (uint8_t)d->sizes[CONSUMER].n;
  uint8_t *end = put_list(bytes + FERRULIQUE_HEADER_BYTES, &d->sizes[PRODUCER]);
  end = put_list(end, &d->sizes[CONSUMER]);
  end = put_list(end, &d->data);
  return (size_t)(put_list(end, &d->schedule) - bytes);
}

int read_text(const char *name, const uint8_t *text, size_t n, uint8_t *bytes, size_t *bytes_n) {
  static uint8_t sizes[CORES][MOST_BATCHES], data[MOST_LISTED], schedule[MOST_LISTED];
  struct words w = {.name = name, .text = text, .n = n, .line = 1};
  struct described d = {.sizes = {{.bytes = sizes[PRODUCER], .most = MOST_BATCHES}, {.bytes = sizes[CONSUMER], .most = MOST_BATCHES}},
                        .data = {.bytes = data, .most = sizeof data},
                        .schedule = {.bytes = schedule, .most = sizeof schedule}};
  if (next_word(&w) != 0) return 1;
  while (!at_end(&w)) {
    if (read_statement(&w, &d) != 0) return 1;
  }
  if (check_described(&w, &d) != 0) return 1;
  *bytes_n = lay_out(&d, bytes);
  return 0;
}

/* No lawful run file is taken for a text: its modulus is at most 65,536, so its fifth byte is 0. */
int is_text(const char *name, const uint8_t *bytes, size_t n) {
  struct words w = {.name = name, .text = bytes, .n = n, .line = 1, .quiet = 1};
  size_t length = strlen(name);
  if (length >= 4 && strcmp(name + length - 4, ".txt") == 0) return 1;
  return memchr(bytes, 0, n) == NULL && next_word(&w) == 0 && is_keyword(&w);
}
