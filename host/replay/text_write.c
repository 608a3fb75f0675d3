/* The text form of a run file, written. */
#include "lists.h"
#include "text.h"
#include "words.h"

/* Orders go by name; bits that no order has can only be told as a number. */
static void write_orders(FILE *to, uint32_t bits) {
  if (bits > FERRULIQUE_MOST_ORDER_BITS) {
    fprintf(to, "orders %u\n", (unsigned)bits);
    return;
  }
  for (int k = 0; k < ORDERS; k++) {
    fprintf(to, "%s %ss %s %s\n", core_words(orders[k].core), orders[k].access, orders[k].index, order_words(&orders[k], bits));
  }
}

void write_text(FILE *to, const struct parts *p) {
  fprintf(to, "ring %u\nmodulus %u\n", (unsigned)p->size, (unsigned)p->modulus);
  write_orders(to, p->orders);
  put_sizes(begin_line(to, 0, "push"), p->sizes[PRODUCER], p->batches[PRODUCER]);
  put_sizes(begin_line(to, 0, "pop"), p->sizes[CONSUMER], p->batches[CONSUMER]);
  put_bytes(begin_line(to, 0, "bytes"), p->data, p->data_bytes);
  put_schedule(begin_line(to, 0, "schedule"), p->schedule, p->entries);
}
