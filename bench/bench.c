/* Times the library and plain C in one process, in rounds over all runs, the two in turn, and prints the least time of each.
 * Usage: bench [ROUNDS]
 * Lines: "case KEY ENTRIES LIBRARY PLAIN WORDS", "race" and the same where it was only asked whether the run races, and "grow ENTRIES LIBRARY
 * PLAIN", times in nanoseconds for a whole run. */
#define _POSIX_C_SOURCE 200809L
#include <stdio.h>
#include <stdlib.h>
#include <string.h>
#include <time.h>

#include "cases.h"
#include "plain.h"

typedef uint32_t run_function(const uint8_t *, size_t, uint8_t *, size_t, uint8_t *, size_t, uint8_t *, size_t);
typedef uint64_t race_function(const uint8_t *, size_t);

/* The library, then plain C; each writes to buffers of its own. */
enum { LIBRARY, PLAIN, BOTH };
static run_function *const functions[BOTH] = {ferrulique_run, plain_run};
static race_function *const race_functions[BOTH] = {ferrulique_race, plain_race};
static struct answer {
  uint64_t race;
  uint8_t marks[FERRULIQUE_MOST_ENTRIES], out[FERRULIQUE_MOST_OUT_BYTES], report[FERRULIQUE_REPORT_BYTES];
} answers[BOTH];

/* A run, whether it is only asked if it races, how often it is played in one sample by each, and the least time of it. */
struct timed {
  struct run run;
  int only_race;
  unsigned long times[BOTH];
  double best[BOTH];
};

static void play(int which, const struct timed *t) {
  struct answer *a = &answers[which];
  const struct run *r = &t->run;
  uint32_t code;
  if (t->only_race) {
    a->race = race_functions[which](r->file, r->length);
    code = ferrulique_code(a->race);
  } else {
    code = functions[which](r->file, r->length, a->marks, sizeof a->marks, a->out, sizeof a->out, a->report, sizeof a->report);
  }
  if (code != FERRULIQUE_RAN) {
    fprintf(stderr, "bench: a case was refused with code %u\n", (unsigned)code);
    exit(1);
  }
}

static double now(void) {
  struct timespec t;
  clock_gettime(CLOCK_MONOTONIC, &t);
  return (double)t.tv_sec * 1e9 + (double)t.tv_nsec;
}

/* Time of one run, from so many of them in a row. */
static double time_of(int which, const struct timed *t, unsigned long times) {
  double start = now();
  for (unsigned long i = 0; i < times; i++) play(which, t);
  return (now() - start) / (double)times;
}

/* As many runs as take some 200 microseconds, so that the clock does not matter. */
static unsigned long enough(int which, const struct timed *t) {
  unsigned long times = 1;
  while (time_of(which, t, times) * (double)times < 200e3) times *= 2;
  return times;
}

/* Before a run is timed: both give the same answer. */
static void prepare(struct timed *t) {
  for (int w = 0; w < BOTH; w++) play(w, t);
  if (memcmp(&answers[LIBRARY], &answers[PLAIN], sizeof answers[PLAIN]) != 0) {
    fprintf(stderr, "bench: the library and plain C differ\n");
    exit(1);
  }
  for (int w = 0; w < BOTH; w++) {
    t->times[w] = enough(w, t);
    t->best[w] = 1e18;
  }
}

static void sample(struct timed *t) {
  for (int w = 0; w < BOTH; w++) {
    double ns = time_of(w, t, t->times[w]);
    if (ns < t->best[w]) t->best[w] = ns;
  }
}

/* What is timed: each case; the part of each that is taken off; the runs that are only asked if they race; and those that show how cost grows. */
enum { MOST_CASES = 32, STEPS = 18, STEP = 1500 };
static struct timed whole[MOST_CASES], start[MOST_CASES], racing[MOST_CASES], growing[STEPS];

static void make_all(void) {
  for (size_t i = 0; i < bench_case_count; i++) {
    const struct bench_case *c = &bench_cases[i];
    c->make(&whole[i].run);
    prepare(&whole[i]);
    if (c->less == NULL) continue;
    c->less(&start[i].run);
    prepare(&start[i]);
  }
  for (size_t i = 0; i < bench_race_count; i++) {
    bench_races[i].make(&racing[i].run);
    racing[i].only_race = 1;
    prepare(&racing[i]);
  }
  for (size_t k = 0; k < STEPS; k++) {
    in_turns(&growing[k].run, k * STEP);
    prepare(&growing[k]);
  }
}

static void round_of_all(void) {
  for (size_t i = 0; i < bench_case_count; i++) {
    sample(&whole[i]);
    if (bench_cases[i].less != NULL) sample(&start[i]);
  }
  for (size_t i = 0; i < bench_race_count; i++) sample(&racing[i]);
  for (size_t k = 0; k < STEPS; k++) sample(&growing[k]);
}

static void print_case(size_t i) {
  const struct bench_case *c = &bench_cases[i];
  size_t n = entries_in(&whole[i].run);
  if (c->less != NULL) n -= entries_in(&start[i].run);
  printf("case %s %zu", c->key, n);
  for (int w = 0; w < BOTH; w++) printf(" %.1f", whole[i].best[w] - (c->less == NULL ? 0 : start[i].best[w]));
  printf(" %s\n", c->words);
}

static void print_race(size_t i) {
  const struct timed *t = &racing[i];
  printf("race %s %zu %.1f %.1f %s\n", bench_races[i].key, entries_in(&t->run), t->best[LIBRARY], t->best[PLAIN], bench_races[i].words);
}

int main(int argc, char **argv) {
  unsigned long rounds = argc > 1 ? strtoul(argv[1], NULL, 10) : 200;
  if (argc > 2 || rounds == 0 || bench_case_count > MOST_CASES || bench_race_count > MOST_CASES) {
    fprintf(stderr, "usage: bench [ROUNDS]\n");
    return 2;
  }
  make_all();
  for (unsigned long k = 0; k < rounds; k++) {
    round_of_all();
    if ((k + 1) % 25 == 0 || k + 1 == rounds) fprintf(stderr, "round %lu of %lu\n", k + 1, rounds);
  }
  for (size_t i = 0; i < bench_case_count; i++) print_case(i);
  for (size_t i = 0; i < bench_race_count; i++) print_race(i);
  for (size_t k = 0; k < STEPS; k++) {
    printf("grow %zu %.1f %.1f\n", entries_in(&growing[k].run), growing[k].best[LIBRARY], growing[k].best[PLAIN]);
  }
  return 0;
}
