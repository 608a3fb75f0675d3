/* Plays one case once, by the library or by plain C, for a tool that counts instructions between the call and its return.
 * Usage: counted KEY library|plain
 * Without words: prints the key of each case whose cost is told by the entry, its entries, and the function's name without its first word. */
#include <stdio.h>
#include <string.h>

#include "cases.h"
#include "plain.h"

enum { MANY = 1000 };

static struct run played;

/* Plays it, or only asks whether it races. */
static void play(int by_library, int only_race) {
  static uint8_t marks[FERRULIQUE_MOST_ENTRIES], out[FERRULIQUE_MOST_OUT_BYTES], report[FERRULIQUE_REPORT_BYTES];
  if (only_race) {
    by_library ? ferrulique_race(played.file, played.length) : plain_race(played.file, played.length);
  } else if (by_library) {
    ferrulique_run(played.file, played.length, marks, sizeof marks, out, sizeof out, report, sizeof report);
  } else {
    plain_run(played.file, played.length, marks, sizeof marks, out, sizeof out, report, sizeof report);
  }
}

/* A case with a beginning that is taken off is left out. */
static void list_cases(const struct bench_case *cases, size_t count, const char *function) {
  for (size_t i = 0; i < count; i++) {
    cases[i].make(&played);
    size_t n = entries_in(&played);
    if (n >= MANY && cases[i].less == NULL) printf("%s %zu %s\n", cases[i].key, n, function);
  }
}

/* Plays the case of this key. Answers 0 where there is none. */
static int play_case(const struct bench_case *cases, size_t count, int only_race, const char *key, const char *who) {
  for (size_t i = 0; i < count; i++) {
    if (strcmp(cases[i].key, key) != 0) continue;
    cases[i].make(&played);
    play(strcmp(who, "library") == 0, only_race);
    return 1;
  }
  return 0;
}

int main(int argc, char **argv) {
  if (argc == 1) {
    list_cases(bench_cases, bench_case_count, "run");
    list_cases(bench_races, bench_race_count, "race");
    return 0;
  }
  if (argc == 3 && play_case(bench_cases, bench_case_count, 0, argv[1], argv[2])) return 0;
  if (argc == 3 && play_case(bench_races, bench_race_count, 1, argv[1], argv[2])) return 0;
  fprintf(stderr, "usage: counted [KEY library|plain]\n");
  return 2;
}
