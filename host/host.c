/* A host to start from: plays run files and tells what came of each.
 * Usage: host [--raw] FILE...   --raw prints what the program runlist prints.
 * Exit status: 0 where every file ran, raced or not; 1 where one was refused or could not be read; 2 for a bad command line. */
#include <stdio.h>
#include <string.h>

#include "ferrulique.h"
#include "print.h"

/* One byte more than a lawful file has, so that a longer one is refused by its code. */
static uint8_t file[FERRULIQUE_MOST_FILE_BYTES + 1];
static uint8_t marks[FERRULIQUE_MOST_ENTRIES];
static uint8_t out[FERRULIQUE_MOST_OUT_BYTES];
static uint8_t report[FERRULIQUE_REPORT_BYTES];

static void print_words(const char *name, uint32_t code) {
  printf("%s: %s\n", name, code_words(code));
  if (code != FERRULIQUE_RAN) return;
  print_report(stdout, report);
  print_name(stdout, "marks");
  print_line(stdout, marks, entries_of(report));
  print_name(stdout, "bytes read");
  print_line(stdout, out, ferrulique_number(report, FERRULIQUE_DATA_LOADS));
}

/* Reads a file and plays it. Answers 0, or 1 where it was refused or could not be read. */
static int play(const char *name, int raw) {
  FILE *f = fopen(name, "rb");
  if (f == NULL) {
    perror(name);
    return 1;
  }
  size_t n = fread(file, 1, sizeof file, f);
  int broken = ferror(f);
  fclose(f);
  if (broken) {
    fprintf(stderr, "%s: cannot be read\n", name);
    return 1;
  }
  uint32_t code = ferrulique_run(file, n, marks, sizeof marks, out, sizeof out, report, sizeof report);
  if (raw) {
    print_raw(stdout, code, marks, out, report);
  } else {
    print_words(name, code);
  }
  return code != FERRULIQUE_RAN;
}

int main(int argc, char **argv) {
  int raw = argc > 1 && strcmp(argv[1], "--raw") == 0;
  if (argc < 2 + raw) {
    fprintf(stderr, "usage: host [--raw] FILE...\n");
    return 2;
  }
  int refused = 0;
  for (int i = 1 + raw; i < argc; i++) refused |= play(argv[i], raw);
  return refused;
}
