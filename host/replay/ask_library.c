/* The library's answer, by a call of its one function. */
#include "ask.h"

const char *ask(const uint8_t *bytes, size_t n, struct answer *a) {
  a->code = ferrulique_run(bytes, n, a->marks, sizeof a->marks, a->out, sizeof a->out, a->report, sizeof a->report);
  return NULL;
}
