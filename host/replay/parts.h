/* The parts of a run file: where its lists stand among its bytes. */
#ifndef REPLAY_PARTS_H
#define REPLAY_PARTS_H

#include "ferrulique.h"

/* Core bytes; any other value in a schedule is no core. */
enum core { PRODUCER, CONSUMER, CORES };

/* The lists point into the file's bytes. sizes and batches are by core: the producer's are the pushes, the consumer's the pops. */
struct parts {
  uint32_t size, modulus, orders;
  const uint8_t *sizes[CORES];
  size_t batches[CORES];
  const uint8_t *data;
  size_t data_bytes;
  const uint8_t *schedule;
  size_t entries;
};

/* Finds the parts. Answers FERRULIQUE_RAN, or the code for a file whose lists cannot be told apart: too short, too long, cut off, odd. */
uint32_t parts_of(const uint8_t *bytes, size_t n, struct parts *parts);

#endif
