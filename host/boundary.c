/* The C boundary: plays run files, as they are and damaged, on buffers that end at an unreadable page, and looks at every byte.
 * Usage: boundary COUNT FILE...   COUNT damaged copies are made of the files, always the same ones.
 *
 * What it can tell without a second machine: nothing outside a buffer is read or written (it would end here); with a code but 0 no byte
 * changes; with code 0 none past what the report counts does; the answer does not depend on where the buffers lie or what they held; buffers
 * of just enough bytes are enough, and one byte less gives 9, 10 or 11; a shortfall is there exactly where a batch failed, and is at most a
 * batch's size; asked only where the file races, the library says what the report says. */
#define _DEFAULT_SOURCE
#include <stdio.h>
#include <stdlib.h>
#include <string.h>
#include <sys/mman.h>
#include <unistd.h>

#include "ferrulique.h"

enum { ROOM = 1 << 17, SPARE = 64 };

static unsigned long ran, refused[12];

static void fail(const char *what, const uint8_t *file, size_t n) {
  fprintf(stderr, "boundary: %s\n", what);
  FILE *f = fopen("boundary-failed.run", "wb");
  if (f != NULL) {
    fwrite(file, 1, n, f);
    fclose(f);
  }
  exit(1);
}

/* The end of ROOM bytes; the page after it can't be touched. */
static uint8_t *fence(void) {
  size_t page = (size_t)sysconf(_SC_PAGESIZE);
  uint8_t *p = mmap(NULL, ROOM + page, PROT_READ | PROT_WRITE, MAP_PRIVATE | MAP_ANONYMOUS, -1, 0);
  if (p == MAP_FAILED || mprotect(p + ROOM, page, PROT_NONE) != 0) {
    perror("boundary");
    exit(1);
  }
  return p + ROOM;
}

static uint8_t *file_end, *marks_end, *out_end, *report_end;

/* What a call left behind. */
struct answer {
  uint32_t code;
  uint8_t marks[65536], out[66000], report[FERRULIQUE_REPORT_BYTES + SPARE];
};

static int filled(const uint8_t *p, size_t n, uint8_t with) {
  for (size_t i = 0; i < n; i++) {
    if (p[i] != with) return 0;
  }
  return 1;
}

static size_t entries_of(const uint8_t *report) {
  return (size_t)ferrulique_number(report, FERRULIQUE_PERFORMED) + ferrulique_number(report, FERRULIQUE_REFUSED);
}

/* One call, with buffers of these lengths that hold this byte. */
static void call(struct answer *a, const uint8_t *file, size_t n, size_t m, size_t o, size_t r, uint8_t with) {
  uint8_t *marks = marks_end - m, *out = out_end - o, *report = report_end - r;
  memcpy(file_end - n, file, n);
  memset(marks, with, m);
  memset(out, with, o);
  memset(report, with, r);
  a->code = ferrulique_run(file_end - n, n, marks, m, out, o, report, r);
  if (a->code > FERRULIQUE_REPORT_SHORT) fail("an unknown code", file, n);
  if (memcmp(file_end - n, file, n) != 0) fail("the file changed", file, n);
  size_t used_marks = 0, used_out = 0, used_report = 0;
  if (a->code == FERRULIQUE_RAN) {
    used_marks = entries_of(report);
    used_out = ferrulique_number(report, FERRULIQUE_DATA_LOADS);
    used_report = FERRULIQUE_REPORT_BYTES;
    if (used_marks > m || used_out > o) fail("the report counts more than the buffers hold", file, n);
  }
  if (!filled(marks + used_marks, m - used_marks, with)) fail("marks changed past the entries", file, n);
  if (!filled(out + used_out, o - used_out, with)) fail("out changed past the data loads", file, n);
  if (!filled(report + used_report, r - used_report, with)) fail("report changed past its end", file, n);
  memcpy(a->marks, marks, used_marks);
  memcpy(a->out, out, used_out);
  memcpy(a->report, report, used_report);
}

static void same(const struct answer *a, const struct answer *b, const uint8_t *file, size_t n) {
  if (a->code != b->code) fail("two calls give two codes", file, n);
  if (a->code != FERRULIQUE_RAN) return;
  if (memcmp(a->report, b->report, FERRULIQUE_REPORT_BYTES) != 0) fail("two calls give two reports", file, n);
  if (memcmp(a->marks, b->marks, entries_of(a->report)) != 0) fail("two calls give different marks", file, n);
  if (memcmp(a->out, b->out, ferrulique_number(a->report, FERRULIQUE_DATA_LOADS)) != 0) fail("two calls read different bytes", file, n);
}

/* The sum of the pop sizes of a file that ran. */
static size_t pops_of(const uint8_t *file) {
  size_t sum = 0;
  for (size_t i = 0; i < file[7]; i++) sum += file[FERRULIQUE_HEADER_BYTES + file[6] + i];
  return sum;
}

/* Does the largest shortfall go with the count of failed batches and with the n sizes of that kind? */
static int shortfall_fits(const uint8_t *report, enum ferrulique_field failed, enum ferrulique_field shortfall, const uint8_t *sizes, size_t n) {
  uint32_t most = 0, largest = ferrulique_number(report, shortfall);
  for (size_t i = 0; i < n; i++) most = sizes[i] > most ? sizes[i] : most;
  return (ferrulique_number(report, failed) == 0) == (largest == 0) && largest <= most;
}

static int shortfalls_fit(const uint8_t *report, const uint8_t *file) {
  const uint8_t *pushes = file + FERRULIQUE_HEADER_BYTES, *pops = pushes + file[6];
  return shortfall_fits(report, FERRULIQUE_FAILED_PUSHES, FERRULIQUE_PUSH_SHORTFALL, pushes, file[6]) &&
         shortfall_fits(report, FERRULIQUE_FAILED_POPS, FERRULIQUE_POP_SHORTFALL, pops, file[7]);
}

/* Is the answer of ferrulique_race this answer's code and, of a file that ran, its two numbers? */
static int race_fits(const struct answer *a, const uint8_t *file, size_t n) {
  uint32_t entry = 0, partner = 0;
  if (a->code == FERRULIQUE_RAN) {
    entry = ferrulique_number(a->report, FERRULIQUE_RACE_ENTRY);
    partner = ferrulique_number(a->report, FERRULIQUE_RACE_PARTNER);
  }
  memcpy(file_end - n, file, n);
  uint64_t race = ferrulique_race(file_end - n, n);
  return race >> 56 == 0 && ferrulique_code(race) == a->code && ferrulique_race_entry(race) == entry && ferrulique_race_partner(race) == partner &&
         memcmp(file_end - n, file, n) == 0;
}

static void try_file(const uint8_t *file, size_t n) {
  static struct answer long_enough, just_enough, shorter;
  size_t pops = n < FERRULIQUE_HEADER_BYTES ? 0 : file[7];
  call(&long_enough, file, n, n / 2 + SPARE, 255 * pops + SPARE, FERRULIQUE_REPORT_BYTES + SPARE, 0xA5);
  refused[long_enough.code]++;
  if (!race_fits(&long_enough, file, n)) fail("asked only where it races, the library says something else", file, n);
  if (long_enough.code != FERRULIQUE_RAN) {
    call(&shorter, file, n, 0, 0, 0, 0);
    same(&long_enough, &shorter, file, n);
    return;
  }
  ran++;
  if (!shortfalls_fit(long_enough.report, file)) fail("a shortfall does not go with the batches", file, n);
  size_t m = entries_of(long_enough.report), o = pops_of(file);
  call(&just_enough, file, n, m, o, FERRULIQUE_REPORT_BYTES, 0x5A);
  same(&long_enough, &just_enough, file, n);
  if (m > 0) {
    call(&shorter, file, n, m - 1, o, FERRULIQUE_REPORT_BYTES, 1);
    if (shorter.code != FERRULIQUE_MARKS_SHORT) fail("marks one short is not refused with 9", file, n);
  }
  if (o > 0) {
    call(&shorter, file, n, m, o - 1, FERRULIQUE_REPORT_BYTES, 2);
    if (shorter.code != FERRULIQUE_OUT_SHORT) fail("out one short is not refused with 10", file, n);
  }
  call(&shorter, file, n, m, o, FERRULIQUE_REPORT_BYTES - 1, 3);
  if (shorter.code != FERRULIQUE_REPORT_SHORT) fail("report one short is not refused with 11", file, n);
}

static uint64_t seed = 0x9E3779B97F4A7C15u;

static uint32_t random_below(uint32_t n) {
  seed ^= seed << 13;
  seed ^= seed >> 7;
  seed ^= seed << 17;
  return (uint32_t)(seed >> 32) % n;
}

/* A few bytes changed, most of them small numbers, or the file cut or made longer. */
static size_t damage(uint8_t *file, size_t n) {
  for (uint32_t k = 1 + random_below(4); k > 0 && n > 0; k--) {
    uint32_t near = n < 64 || random_below(2) == 0 ? (uint32_t)(n < 24 ? n : 24) : (uint32_t)n;
    file[random_below(near)] = (uint8_t)(random_below(3) == 0 ? random_below(256) : random_below(6));
  }
  if (random_below(8) == 0) n = random_below((uint32_t)n + 1);
  if (random_below(8) == 0 && n + 16 <= FERRULIQUE_MOST_FILE_BYTES) {
    for (uint32_t k = random_below(16); k > 0; k--) file[n++] = (uint8_t)random_below(3);
  }
  return n;
}

int main(int argc, char **argv) {
  static uint8_t files[128][FERRULIQUE_MOST_FILE_BYTES + 1], copy[FERRULIQUE_MOST_FILE_BYTES + 1];
  static size_t lengths[128];
  int count = argc - 2;
  if (argc < 3 || count > 128) {
    fprintf(stderr, "usage: boundary COUNT FILE... (at most 128 files)\n");
    return 2;
  }
  file_end = fence();
  marks_end = fence();
  out_end = fence();
  report_end = fence();
  for (int i = 0; i < count; i++) {
    FILE *f = fopen(argv[i + 2], "rb");
    if (f == NULL) {
      perror(argv[i + 2]);
      return 1;
    }
    lengths[i] = fread(files[i], 1, sizeof files[i], f);
    fclose(f);
    try_file(files[i], lengths[i]);
  }
  unsigned long copies = strtoul(argv[1], NULL, 10);
  for (unsigned long k = 0; k < copies; k++) {
    /* long files are slow, and no more telling: take few of them */
    int i = (int)random_below((uint32_t)count);
    if (lengths[i] > 4096 && random_below(200) != 0) continue;
    memcpy(copy, files[i], lengths[i]);
    try_file(copy, damage(copy, lengths[i]));
  }
  printf("boundary: %lu ran; refused by code:", ran);
  for (int c = FERRULIQUE_FILE_SHORT; c <= FERRULIQUE_ODD_SCHEDULE; c++) printf(" %d: %lu", c, refused[c]);
  printf("\n");
  for (int c = FERRULIQUE_RAN; c <= FERRULIQUE_ODD_SCHEDULE; c++) {
    if (refused[c] == 0) fail("a code was never seen", copy, 0);
  }
  return 0;
}
