/* How much stack a call takes: it runs on a painted stack, and the lowest changed byte is found.
 * Prints "stack run LIBRARY PLAIN", and the same for race: bytes from the return address down, the largest over all cases. For x86-64. */
#define _DEFAULT_SOURCE
#include <pthread.h>
#include <stdio.h>
#include <stdlib.h>
#include <string.h>
#include <sys/mman.h>

#include "cases.h"
#include "plain.h"

enum { STACK = 1 << 20, PAINT = 0xA5 };

typedef uint32_t run_function(const uint8_t *, size_t, uint8_t *, size_t, uint8_t *, size_t, uint8_t *, size_t);
typedef uint64_t race_function(const uint8_t *, size_t);

static uint8_t *stack;
static struct run run;

/* What is called: the one or the other. */
static run_function *function;
static race_function *only_race;

/* Where a call's return address lies on the painted stack: two words above a callee's frame. */
static uint8_t *start;

/* Find that place, for each. */
static uint64_t no_race(const uint8_t *file, size_t file_len) {
  (void)file, (void)file_len;
  start = (uint8_t *)__builtin_frame_address(0) + 2 * sizeof(void *);
  return FERRULIQUE_RAN;
}
static uint32_t nothing(const uint8_t *file, size_t file_len, uint8_t *marks, size_t marks_len, uint8_t *out, size_t out_len, uint8_t *report,
                        size_t report_len) {
  (void)file, (void)file_len, (void)marks, (void)marks_len, (void)out, (void)out_len, (void)report, (void)report_len;
  start = (uint8_t *)__builtin_frame_address(0) + 2 * sizeof(void *);
  return FERRULIQUE_RAN;
}

static void *call(void *unused) {
  static uint8_t marks[FERRULIQUE_MOST_ENTRIES], out[FERRULIQUE_MOST_OUT_BYTES], report[FERRULIQUE_REPORT_BYTES];
  if (function(run.file, run.length, marks, sizeof marks, out, sizeof out, report, sizeof report) != FERRULIQUE_RAN) abort();
  return unused;
}

static void *call_race(void *unused) {
  if (ferrulique_code(only_race(run.file, run.length)) != FERRULIQUE_RAN) abort();
  return unused;
}

/* The lowest changed byte. */
static const uint8_t *lowest(void *(*call)(void *)) {
  pthread_attr_t attr;
  pthread_t thread;
  call(NULL); /* so that the names of memcpy and memset are bound before */
  memset(stack, PAINT, STACK);
  if (pthread_attr_init(&attr) != 0 || pthread_attr_setstack(&attr, stack, STACK) != 0 || pthread_create(&thread, &attr, call, NULL) != 0 ||
      pthread_join(thread, NULL) != 0) {
    fprintf(stderr, "stack: no thread\n");
    exit(1);
  }
  pthread_attr_destroy(&attr);
  const uint8_t *low = stack;
  while (low < stack + STACK && *low == PAINT) low++;
  return low;
}

/* The largest over all cases. */
static size_t most(void *(*call)(void *)) {
  size_t best = 0;
  for (size_t i = 0; i < bench_case_count; i++) {
    bench_cases[i].make(&run);
    size_t used = (size_t)(start - lowest(call));
    if (used > best) best = used;
  }
  return best;
}

static size_t most_run(run_function *f) {
  function = f;
  return most(call);
}

static size_t most_race(race_function *f) {
  only_race = f;
  return most(call_race);
}

int main(void) {
  stack = mmap(NULL, STACK, PROT_READ | PROT_WRITE, MAP_PRIVATE | MAP_ANONYMOUS, -1, 0);
  if (stack == MAP_FAILED) {
    perror("stack");
    return 1;
  }
  bench_cases[0].make(&run);
  function = nothing;
  lowest(call);
  printf("stack run %zu %zu\n", most_run(ferrulique_run), most_run(plain_run));
  only_race = no_race;
  lowest(call_race);
  printf("stack race %zu %zu\n", most_race(ferrulique_race), most_race(plain_race));
  return 0;
}
