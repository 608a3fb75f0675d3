/* Holds the library against plain C: code, marks, out, report and every byte that must stay; and where the file races, asked alone.
 *
 * Plain C gets heap buffers of the exact length, so that the address sanitizer sees each of its accesses. The library's own code is compiled
 * without a sanitizer: it gets buffers that end at an unreadable page, and the bytes before them are looked at. */
#define _DEFAULT_SOURCE
#include "hold.h"

#include <stdio.h>
#include <stdlib.h>
#include <string.h>
#include <sys/mman.h>
#include <unistd.h>

#include "plain.h"

enum { MARKS, OUT, REPORT, BUFFERS, SPARE = 64, PAINT = 0xA5 };

unsigned long hold_codes[FERRULIQUE_REPORT_SHORT + 1], hold_marks[256];

/* Ends of memory that is followed by a page that can't be touched: for the file, and for each buffer. */
static uint8_t *file_end, *ends[BUFFERS];

static uint8_t *fence(void) {
  size_t page = (size_t)sysconf(_SC_PAGESIZE), room = HOLD_MOST + page;
  uint8_t *p = mmap(NULL, room + page, PROT_READ | PROT_WRITE, MAP_PRIVATE | MAP_ANONYMOUS, -1, 0);
  if (p == MAP_FAILED || mprotect(p + room, page, PROT_NONE) != 0) {
    perror("hold");
    exit(1);
  }
  return p + room;
}

static void fence_all(void) {
  if (file_end != NULL) return;
  file_end = fence();
  for (int b = 0; b < BUFFERS; b++) ends[b] = fence();
}

/* Buffers, and what a call on them answered. */
struct call {
  uint32_t code;
  uint8_t *at[BUFFERS];
};

/* Memory for n bytes; it ends the program where there is none. */
static uint8_t *heap(size_t n) {
  uint8_t *p = malloc(n);
  if (p == NULL && n > 0) abort();
  return p;
}

static void call_plain(struct call *c, const uint8_t *file, size_t n, const size_t length[BUFFERS]) {
  uint8_t *copy = heap(n);
  if (n > 0) memcpy(copy, file, n);
  for (int b = 0; b < BUFFERS; b++) {
    c->at[b] = heap(length[b]);
    if (length[b] > 0) memset(c->at[b], PAINT, length[b]);
  }
  c->code = plain_run(copy, n, c->at[MARKS], length[MARKS], c->at[OUT], length[OUT], c->at[REPORT], length[REPORT]);
  free(copy);
}

/* A null pointer is lent where the length is 0. */
static void call_library(struct call *c, const uint8_t *file, size_t n, const size_t length[BUFFERS]) {
  if (n > 0) memcpy(file_end - n, file, n);
  for (int b = 0; b < BUFFERS; b++) {
    memset(ends[b] - length[b] - SPARE, PAINT, length[b] + SPARE);
    c->at[b] = length[b] == 0 ? NULL : ends[b] - length[b];
  }
  c->code = ferrulique_run(n == 0 ? NULL : file_end - n, n, c->at[MARKS], length[MARKS], c->at[OUT], length[OUT], c->at[REPORT], length[REPORT]);
}

static int painted(const uint8_t *p, size_t n) {
  for (size_t i = 0; i < n; i++) {
    if (p[i] != PAINT) return 0;
  }
  return 1;
}

/* How many bytes of each buffer the library may have written, by its own report. */
static void written(size_t used[BUFFERS], const struct call *c) {
  memset(used, 0, BUFFERS * sizeof used[0]);
  if (c->code != FERRULIQUE_RAN) return;
  const uint8_t *report = c->at[REPORT];
  used[MARKS] = (size_t)ferrulique_number(report, FERRULIQUE_PERFORMED) + ferrulique_number(report, FERRULIQUE_REFUSED);
  used[OUT] = ferrulique_number(report, FERRULIQUE_DATA_LOADS);
  used[REPORT] = FERRULIQUE_REPORT_BYTES;
}

static const char *compare(const struct call *ours, const struct call *plains, const uint8_t *file, size_t n, const size_t length[BUFFERS]) {
  static const char *const differs[BUFFERS] = {"the marks differ", "the bytes read differ", "the reports differ"};
  size_t used[BUFFERS];
  if (ours->code != plains->code) return "the codes differ";
  if (n > 0 && memcmp(file_end - n, file, n) != 0) return "the file was changed";
  written(used, ours);
  for (int b = 0; b < BUFFERS; b++) {
    if (!painted(ends[b] - length[b] - SPARE, SPARE)) return "a byte before a buffer was changed";
    if (used[b] > length[b]) return "the report counts more bytes than a buffer has";
    if (!painted(ends[b] - length[b] + used[b], length[b] - used[b])) return "a byte was changed that must stay";
    if (length[b] > 0 && memcmp(ours->at[b], plains->at[b], length[b]) != 0) return differs[b];
  }
  return NULL;
}

/* Both on buffers of these lengths; the code that they answered is left in *code. */
static const char *hold_lengths(uint32_t *code, const uint8_t *file, size_t n, const size_t length[BUFFERS]) {
  struct call ours, plains;
  call_plain(&plains, file, n, length);
  call_library(&ours, file, n, length);
  const char *wrong = ours.code > FERRULIQUE_REPORT_SHORT ? "no such code" : compare(&ours, &plains, file, n, length);
  if (wrong == NULL) hold_codes[ours.code]++;
  for (int b = 0; b < BUFFERS; b++) free(plains.at[b]);
  *code = ours.code;
  return wrong;
}

/* What a lawful file needs; for another one some small lengths. */
static void needs(size_t need[BUFFERS], const uint8_t *file, size_t n) {
  need[MARKS] = n / 2;
  need[OUT] = 0;
  need[REPORT] = FERRULIQUE_REPORT_BYTES;
  if (n < FERRULIQUE_HEADER_BYTES) return;
  size_t at = FERRULIQUE_HEADER_BYTES, sizes = (size_t)file[6] + file[7], sum = 0;
  if (n < at + sizes) return;
  for (size_t i = 0; i < sizes; i++) *(i < file[6] ? &sum : &need[OUT]) += file[at + i];
  if (at + sizes + sum <= n) need[MARKS] = (n - at - sizes - sum) / 2;
}

/* One buffer a byte short: the code that the file's table has for it. */
static const char *hold_short(int buffer, const uint8_t *file, size_t n, const size_t need[BUFFERS]) {
  size_t length[BUFFERS];
  uint32_t code;
  if (need[buffer] == 0) return NULL;
  memcpy(length, need, sizeof length);
  length[buffer]--;
  const char *wrong = hold_lengths(&code, file, n, length);
  if (wrong == NULL && code != (uint32_t)(FERRULIQUE_MARKS_SHORT + buffer)) wrong = "a buffer one byte short is not refused by its code";
  return wrong;
}

static void count_marks(size_t n) {
  for (size_t i = 0; i < n; i++) hold_marks[*(ends[MARKS] - n + i)]++;
}

/* Both asked only whether and where the file races. */
static const char *hold_race(const uint8_t *file, size_t n) {
  uint8_t *copy = heap(n);
  if (n > 0) memcpy(copy, file, n);
  uint64_t plains = plain_race(copy, n);
  free(copy);
  if (n > 0) memcpy(file_end - n, file, n);
  uint64_t ours = ferrulique_race(n == 0 ? NULL : file_end - n, n);
  if (ours != plains) return "the races differ";
  return n > 0 && memcmp(file_end - n, file, n) != 0 ? "the file was changed" : NULL;
}

const char *hold(const uint8_t *file, size_t n) {
  static const size_t none[BUFFERS] = {0, 0, 0};
  size_t need[BUFFERS], longer[BUFFERS];
  uint32_t code, ignored;
  fence_all();
  needs(need, file, n);
  for (int b = 0; b < BUFFERS; b++) longer[b] = need[b] + SPARE;
  const char *wrong = hold_race(file, n);
  if (wrong == NULL) wrong = hold_lengths(&code, file, n, longer);
  if (wrong == NULL) wrong = hold_lengths(&ignored, file, n, none);
  if (wrong != NULL || code != FERRULIQUE_RAN) return wrong;
  wrong = hold_lengths(&code, file, n, need);
  if (wrong == NULL && code != FERRULIQUE_RAN) wrong = "buffers just long enough are refused";
  if (wrong == NULL) count_marks(need[MARKS]);
  for (int b = 0; b < BUFFERS && wrong == NULL; b++) wrong = hold_short(b, file, n, need);
  return wrong;
}

/* One number, and whether it is 0. */
static int tell(unsigned k, unsigned long count) {
  printf(" %u: %lu", k, count);
  return count == 0;
}

int hold_tell(void) {
  int never = 0;
  printf("calls by code:");
  for (unsigned c = FERRULIQUE_RAN; c <= FERRULIQUE_REPORT_SHORT; c++) never |= tell(c, hold_codes[c]);
  printf("\nentries by mark:");
  for (unsigned m = FERRULIQUE_OWN_LOADED; m <= FERRULIQUE_RACED; m++) never |= tell(m, hold_marks[m]);
  for (unsigned m = FERRULIQUE_NO_SUCH_CORE; m <= FERRULIQUE_STORE_HIDDEN; m++) never |= tell(m, hold_marks[m]);
  printf("\n");
  return never;
}
