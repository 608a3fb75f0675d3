/* What a host prints of an answer: the code and the report's numbers by name, and the lines that the program runlist prints. */
#ifndef FERRULIQUE_PRINT_H
#define FERRULIQUE_PRINT_H

#include <stdio.h>

#include "ferrulique.h"

/* What a code says of a file. */
static inline const char *code_words(uint32_t code) {
  static const char *const words[] = {
      "it ran",
      "refused: it has fewer than 8 bytes",
      "refused: it has more than 65,536 bytes",
      "refused: the ring size is 0 or above 128",
      "refused: the index modulus is below 2 or above 65,536",
      "refused: the ring size does not divide the modulus, or is the modulus",
      "refused: the order bits are above 15",
      "refused: it ends before its last batch size or its last byte to push",
      "refused: its schedule has an odd number of bytes",
      "refused: the marks buffer is too short",
      "refused: the out buffer is too short",
      "refused: the report buffer is too short",
  };
  return code < sizeof words / sizeof *words ? words[code] : "an answer that no code has";
}

/* The name of a number of the report. */
static inline const char *field_words(unsigned field) {
  static const char *const words[] = {
      "entries performed", "entries refused", "bytes pushed",           "bytes popped",
      "data loads",        "occupancy",       "failed pushes",          "failed pops",
      "racing entry",      "its partner",     "largest push shortfall", "largest pop shortfall",
  };
  _Static_assert(sizeof words / sizeof *words == FERRULIQUE_REPORT_NUMBERS, "each number of the report has a name");
  _Static_assert(FERRULIQUE_POP_SHORTFALL + 1 == FERRULIQUE_REPORT_NUMBERS, "the last field is the last number");
  return words[field];
}

/* How many entries a report counts: each was performed or refused. */
static inline size_t entries_of(const uint8_t *report) {
  return (size_t)ferrulique_number(report, FERRULIQUE_PERFORMED) + ferrulique_number(report, FERRULIQUE_REFUSED);
}

/* A line of decimal numbers with one space between. */
static inline void print_line(FILE *to, const uint8_t *bytes, size_t n) {
  for (size_t i = 0; i < n; i++) fprintf(to, i == 0 ? "%u" : " %u", (unsigned)bytes[i]);
  fputc('\n', to);
}

/* What runlist prints: the code and, where the file ran, the report, the marks and the bytes read. */
static inline void print_raw(FILE *to, uint32_t code, const uint8_t *marks, const uint8_t *out, const uint8_t *report) {
  fprintf(to, "code %lu\n", (unsigned long)code);
  if (code != FERRULIQUE_RAN) return;
  for (unsigned k = 0; k < FERRULIQUE_REPORT_NUMBERS; k++) {
    fprintf(to, k == 0 ? "%lu" : " %lu", (unsigned long)ferrulique_number(report, (enum ferrulique_field)k));
  }
  fputc('\n', to);
  print_line(to, marks, entries_of(report));
  print_line(to, out, ferrulique_number(report, FERRULIQUE_DATA_LOADS));
}

/* What begins a line of the report, and of what else stands below it. */
static inline void print_name(FILE *to, const char *name) { fprintf(to, "  %-22s ", name); }

/* The report by name, a number to a line. */
static inline void print_report(FILE *to, const uint8_t *report) {
  for (unsigned k = 0; k < FERRULIQUE_REPORT_NUMBERS; k++) {
    print_name(to, field_words(k));
    fprintf(to, "%lu\n", (unsigned long)ferrulique_number(report, (enum ferrulique_field)k));
  }
}

#endif
