/* The words of a text, one after the other, with the line that each stands on. */
#include "text_words.h"

#include <ctype.h>
#include <stdio.h>
#include <string.h>

int wrong_word(const struct words *w, const char *message) {
  if (w->quiet) return 1;
  fprintf(stderr, "%s:%u: %s", w->name, w->word_line, message);
  if (w->length > 0) fprintf(stderr, ": %.*s", w->length < 60 ? (int)w->length : 60, (const char *)w->word);
  fputc('\n', stderr);
  return 1;
}

int wrong_line(const struct words *w, unsigned line, const char *message) {
  fprintf(stderr, "%s:%u: %s\n", w->name, line, message);
  return 1;
}

static void skip_spaces_and_comments(struct words *w) {
  int comment = 0;
  for (; w->at < w->n; w->at++) {
    uint8_t c = w->text[w->at];
    if (c == '\n') {
      comment = 0;
      w->line++;
    } else if (c == '#') {
      comment = 1;
    } else if (!comment && !isspace(c)) {
      return;
    }
  }
}

/* A quoted string goes to the next quote that has no backslash before it, and stays on its line. */
static int quoted_word(struct words *w) {
  size_t start = ++w->at;
  while (w->at < w->n && w->text[w->at] != '"' && w->text[w->at] != '\n') w->at += w->text[w->at] == '\\' ? 2 : 1;
  w->quoted = 1;
  w->word = w->text + start;
  if (w->at >= w->n || w->text[w->at] != '"') return wrong_word(w, "a string has no quote at its end");
  w->length = w->at++ - start;
  return 0;
}

static void plain_word(struct words *w) {
  size_t start = w->at;
  while (w->at < w->n && !isspace(w->text[w->at]) && w->text[w->at] != '#' && w->text[w->at] != '"') w->at++;
  w->word = w->text + start;
  w->length = w->at - start;
}

int next_word(struct words *w) {
  skip_spaces_and_comments(w);
  w->word = NULL;
  w->length = 0;
  w->quoted = 0;
  if (w->at >= w->n) return 0;
  w->word_line = w->line;
  if (w->text[w->at] == '"') return quoted_word(w);
  plain_word(w);
  return 0;
}

int at_end(const struct words *w) { return w->word == NULL; }

int word_is(const struct words *w, const char *word) { return !w->quoted && w->length == strlen(word) && memcmp(w->word, word, w->length) == 0; }

static int digits(const struct words *w, size_t start, size_t end, uint32_t base, uint32_t most, uint32_t *number) {
  static const char all[] = "0123456789abcdef";
  uint64_t value = 0;
  if (w->quoted || start >= end) return 1;
  for (size_t i = start; i < end; i++) {
    const char *digit = strchr(all, tolower(w->word[i]));
    if (w->word[i] == '\0' || digit == NULL || (uint32_t)(digit - all) >= base) return 1;
    value = base * value + (uint64_t)(digit - all);
    if (value > most) return 1;
  }
  *number = (uint32_t)value;
  return 0;
}

int decimal(const struct words *w, size_t start, size_t end, uint32_t most, uint32_t *number) { return digits(w, start, end, 10, most, number); }

int hexadecimal(const struct words *w, size_t start, size_t end, uint32_t most, uint32_t *number) {
  return digits(w, start, end, 16, most, number);
}
