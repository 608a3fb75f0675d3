/* The library's answer to a run file. Two files of this folder have the function: one links the library, the other runs the program runlist. */
#ifndef REPLAY_ASK_H
#define REPLAY_ASK_H

#include "ferrulique.h"

struct answer {
  uint32_t code;
  uint8_t marks[FERRULIQUE_MOST_ENTRIES];
  uint8_t out[FERRULIQUE_MOST_OUT_BYTES];
  uint8_t report[FERRULIQUE_REPORT_BYTES];
};

/* Plays the file once. Answers NULL, or why no answer could be had. */
const char *ask(const uint8_t *bytes, size_t n, struct answer *answer);

#endif
