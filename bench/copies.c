/* What the compiled library copies at an entry: its calls of memcpy are counted, by the entry's mark.
 * Of a foreign load it also matters whether its age is 0.
 * Link it with -Wl,--wrap=memcpy. Prints "copies MARK AGED COPIES BYTES", once for each different pair; AGED is 1 for a foreign load of another age. */
#include <stdio.h>
#include <stdlib.h>

#include "cases.h"

void *__real_memcpy(void *to, const void *from, size_t n);
void *__wrap_memcpy(void *to, const void *from, size_t n);

enum { ENTRIES = 900 };

/* The calls made so far, and their bytes. */
static struct count {
  unsigned long copies, bytes;
} so_far;

void *__wrap_memcpy(void *to, const void *from, size_t n) {
  so_far.copies++;
  so_far.bytes += n;
  return __real_memcpy(to, from, n);
}

static uint8_t marks[FERRULIQUE_MOST_ENTRIES];

/* The copies of a whole call. */
static struct count copies_of(const struct run *r, size_t length) {
  static uint8_t out[FERRULIQUE_MOST_OUT_BYTES], report[FERRULIQUE_REPORT_BYTES];
  so_far = (struct count){0, 0};
  if (ferrulique_run(r->file, length, marks, sizeof marks, out, sizeof out, report, sizeof report) != FERRULIQUE_RAN) abort();
  return so_far;
}

/* Says it once. */
static void tell(unsigned mark, unsigned aged, struct count c) {
  static struct count told[256][2][8];
  static size_t n[256][2];
  for (size_t i = 0; i < n[mark][aged]; i++) {
    if (told[mark][aged][i].copies == c.copies && told[mark][aged][i].bytes == c.bytes) return;
  }
  if (n[mark][aged] < 8) told[mark][aged][n[mark][aged]++] = c;
  printf("copies %u %u %lu %lu\n", mark, aged, c.copies, c.bytes);
}

/* Of the entries that are performed, only a foreign load may have an age but 0. */
static unsigned is_aged(uint8_t mark, uint8_t age) {
  return mark < FERRULIQUE_NO_SUCH_CORE && age != 0;
}

/* Entry by entry: what the file with one entry more copies beyond the file without it. */
static void count_case(const struct bench_case *c) {
  static struct run r;
  c->make(&r);
  size_t n = entries_in(&r), at = r.length - 2 * n;
  struct count before = copies_of(&r, at);
  for (size_t i = 0; i < n && i < ENTRIES; i++) {
    struct count after = copies_of(&r, at + 2 * (i + 1));
    tell(marks[i], is_aged(marks[i], r.file[at + 2 * i + 1]), (struct count){after.copies - before.copies, after.bytes - before.bytes});
    before = after;
  }
}

int main(void) {
  for (size_t i = 0; i < bench_case_count; i++) count_case(&bench_cases[i]);
  return 0;
}
