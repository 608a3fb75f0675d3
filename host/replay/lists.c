/* Lists of sizes, bytes and entries in words, wrapped to lines: as the text form has them. */
#include "lists.h"

#include <string.h>

enum {
  WIDTH = 100,   /* of a line */
  WORD = 200,    /* an item with its repetition */
  QUOTED = 80,   /* bytes in a quoted string */
  REPEATED = 4   /* that many equal items, or more, are written as one with its repetition */
};

struct lines begin_line(FILE *to, size_t indent, const char *word) {
  fprintf(to, "%*s%s", (int)indent, "", word);
  return (struct lines){to, indent + strlen(word), indent + 2};
}

static void put_word(struct lines *lines, const char *word) {
  size_t n = strlen(word);
  if (lines->column + 1 + n > WIDTH) {
    fprintf(lines->to, "\n%*s%s", (int)lines->indent, "", word);
    lines->column = lines->indent + n;
  } else {
    fprintf(lines->to, " %s", word);
    lines->column += 1 + n;
  }
}

static void end_line(struct lines *lines, size_t items) {
  if (items == 0) put_word(lines, "none");
  fputc('\n', lines->to);
}

/* How many items of `width` bytes, from this one on, are equal to it. */
static size_t equal_items(const uint8_t *items, size_t n, size_t width) {
  size_t k = 1;
  while (k < n && memcmp(items, items + k * width, width) == 0) k++;
  return k;
}

/* Numbers, a long row of equal ones as one with its repetition. */
static void put_numbers(struct lines *lines, const uint8_t *numbers, size_t n) {
  char word[WORD];
  for (size_t i = 0, k; i < n; i += k) {
    k = equal_items(numbers + i, n - i, 1);
    if (k < REPEATED) k = 1;
    snprintf(word, sizeof word, k == 1 ? "%u" : "%u x%zu", numbers[i], k);
    put_word(lines, word);
  }
}

static int is_printable(uint8_t byte) { return byte >= ' ' && byte <= '~'; }

static int all_printable(const uint8_t *bytes, size_t n) {
  size_t i = 0;
  while (i < n && is_printable(bytes[i])) i++;
  return i == n;
}

/* Writes a quoted string to `word` and answers where it ends. */
static char *quote(char *word, const uint8_t *bytes, size_t n) {
  *word++ = '"';
  for (size_t i = 0; i < n; i++) {
    if (bytes[i] == '"' || bytes[i] == '\\') *word++ = '\\';
    *word++ = (char)bytes[i];
  }
  *word++ = '"';
  *word = '\0';
  return word;
}

/* How many bytes go into the next string: up to where a long row of equal ones begins. */
static size_t string_length(const uint8_t *bytes, size_t n) {
  size_t i = 0;
  while (i < n && i < QUOTED && equal_items(bytes + i, n - i, 1) < 2 * REPEATED) i++;
  return i;
}

static void put_strings(struct lines *lines, const uint8_t *bytes, size_t n) {
  char word[WORD];
  for (size_t i = 0, k; i < n; i += k) {
    k = string_length(bytes + i, n - i);
    if (k > 0) {
      quote(word, bytes + i, k);
    } else {
      k = equal_items(bytes + i, n - i, 1);
      char *end = quote(word, bytes + i, 1);
      snprintf(end, 24, " x%zu", k);
    }
    put_word(lines, word);
  }
}

void put_sizes(struct lines lines, const uint8_t *sizes, size_t n) {
  put_numbers(&lines, sizes, n);
  end_line(&lines, n);
}

void put_bytes(struct lines lines, const uint8_t *bytes, size_t n) {
  if (all_printable(bytes, n)) {
    put_strings(&lines, bytes, n);
  } else {
    put_numbers(&lines, bytes, n);
  }
  end_line(&lines, n);
}

/* An entry: P or C and its age, or a core byte that is no core, a colon and the age. */
static char *entry_words(char *word, const uint8_t *entry) {
  if (entry[0] >= CORES) return word + sprintf(word, "%u:%u", entry[0], entry[1]);
  return word + sprintf(word, "%c%u", entry[0] == PRODUCER ? 'P' : 'C', entry[1]);
}

void put_schedule(struct lines lines, const uint8_t *schedule, size_t entries) {
  char word[WORD];
  for (size_t i = 0, k; i < entries; i += k) {
    k = equal_items(schedule + 2 * i, entries - i, 2);
    char *end = entry_words(word, schedule + 2 * i);
    if (k > 1) snprintf(end, 24, schedule[2 * i] < CORES ? "x%zu" : " x%zu", k);
    put_word(&lines, word);
  }
  end_line(&lines, entries);
}
