/* The words of a text, one after the other, with the line that each stands on. */
#ifndef REPLAY_TEXT_WORDS_H
#define REPLAY_TEXT_WORDS_H

#include "ferrulique.h"

/* A text under way, and its word at hand. A word is a quoted string, or anything without spaces; # begins a comment that ends with its line. */
struct words {
  const char *name;
  const uint8_t *text;
  size_t n, at;
  unsigned line, word_line; /* of the place reached, and of the word; at the end, of the last word */
  const uint8_t *word;      /* inside the quotes, where it has some */
  size_t length;            /* 0 at the end of the text, for a word without quotes */
  int quoted, quiet;        /* quiet: no message is printed */
};

/* Goes to the next word; at the end of the text there is none. Answers 0, or 1 after a message. */
int next_word(struct words *words);

int at_end(const struct words *words);

/* Is the word at hand this one? */
int word_is(const struct words *words, const char *word);

/* A message about the word at hand: file, line, the text, and the word itself where there is one. Always answers 1. */
int wrong_word(const struct words *words, const char *message);

/* A message about a line, that of a statement say. Always answers 1. */
int wrong_line(const struct words *words, unsigned line, const char *message);

/* A decimal number, digits only, from `start` to `end` of the word at hand. Answers 0, or 1 where it is none or above `most`; no message. */
int decimal(const struct words *words, size_t start, size_t end, uint32_t most, uint32_t *number);

/* The same for hexadecimal digits. */
int hexadecimal(const struct words *words, size_t start, size_t end, uint32_t most, uint32_t *number);

#endif
