/* A whole run for a person: the ring, the rows, the race, the report, the bytes read. */
#include "show.h"

#include "../print.h"
#include "lists.h"
#include "race.h"
#include "rows.h"
#include "words.h"

/* The bytes to push; of a long list only the first ones, since the text form has them all. */
static void print_data(FILE *to, const struct parts *p) {
  enum { SHOWN = 80 };
  char label[80];
  snprintf(label, sizeof label, "bytes to push, the first %d of %zu:", SHOWN, p->data_bytes);
  int is_long = p->data_bytes > SHOWN;
  put_bytes(begin_line(to, 2, is_long ? label : "bytes to push:"), p->data, is_long ? SHOWN : p->data_bytes);
}

static void print_ring(FILE *to, const struct parts *p) {
  fprintf(to, "  ring: %u slot%s, indexes modulo %u\n", (unsigned)p->size, plural(p->size), (unsigned)p->modulus);
  fprintf(to, "  orders: %u\n", (unsigned)p->orders);
  for (int k = 0; k < ORDERS; k++) {
    const struct order *o = &orders[k];
    fprintf(to, "    the %s's %s of %s is %s\n", core_words(o->core), o->access, o->index, order_words(o, p->orders));
  }
  put_sizes(begin_line(to, 2, "push sizes:"), p->sizes[PRODUCER], p->batches[PRODUCER]);
  put_sizes(begin_line(to, 2, "pop sizes:"), p->sizes[CONSUMER], p->batches[CONSUMER]);
  print_data(to, p);
  fprintf(to, "  schedule: %zu entr%s\n", p->entries, p->entries == 1 ? "y" : "ies");
}

static int unexplained(const char *name, const char *what, size_t entry) {
  fprintf(stderr, "%s: internal error: %s %zu does not follow from the rules, so nothing is shown; --raw has the library's answer\n", name, what, entry);
  return 1;
}

int show(FILE *to, const char *name, const struct parts *parts, const struct answer *answer, struct window rows) {
  static struct step steps[FERRULIQUE_MOST_ENTRIES];
  struct race race;
  size_t wrong = walk(parts, answer, steps);
  if (wrong > parts->entries) return unexplained(name, "the report after entry", parts->entries);
  if (wrong != 0) return unexplained(name, "the mark of entry", wrong);
  if (!find_race(parts, answer, steps, &race)) return unexplained(name, "the race at entry", race.racing);
  fprintf(to, "%s: code 0, it ran\n", name);
  print_ring(to, parts);
  fputc('\n', to);
  print_rows(to, parts, steps, rows.first, rows.last);
  fputc('\n', to);
  print_race(to, &race);
  fprintf(to, "report:\n");
  print_report(to, answer->report);
  put_bytes(begin_line(to, 0, "bytes read:"), answer->out, ferrulique_number(answer->report, FERRULIQUE_DATA_LOADS));
  return 0;
}
