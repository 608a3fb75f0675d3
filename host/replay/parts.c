/* The parts of a run file: where its lists stand among its bytes. */
#include "parts.h"

static size_t sum(const uint8_t *sizes, size_t n) {
  size_t total = 0;
  for (size_t i = 0; i < n; i++) total += sizes[i];
  return total;
}

uint32_t parts_of(const uint8_t *bytes, size_t n, struct parts *p) {
  if (n < FERRULIQUE_HEADER_BYTES) return FERRULIQUE_FILE_SHORT;
  if (n > FERRULIQUE_MOST_FILE_BYTES) return FERRULIQUE_FILE_LONG;
  p->size = bytes[0];
  p->modulus = (uint32_t)bytes[1] | (uint32_t)bytes[2] << 8 | (uint32_t)bytes[3] << 16 | (uint32_t)bytes[4] << 24;
  p->orders = bytes[5];
  p->batches[PRODUCER] = bytes[6];
  p->batches[CONSUMER] = bytes[7];
  size_t at = FERRULIQUE_HEADER_BYTES;
  if (n - at < p->batches[PRODUCER] + p->batches[CONSUMER]) return FERRULIQUE_FILE_ENDS;
  p->sizes[PRODUCER] = bytes + at;
  at += p->batches[PRODUCER];
  p->sizes[CONSUMER] = bytes + at;
  at += p->batches[CONSUMER];
  p->data = bytes + at;
  p->data_bytes = sum(p->sizes[PRODUCER], p->batches[PRODUCER]);
  if (n - at < p->data_bytes) return FERRULIQUE_FILE_ENDS;
  at += p->data_bytes;
  if ((n - at) % 2 != 0) return FERRULIQUE_ODD_SCHEDULE;
  p->schedule = bytes + at;
  p->entries = (n - at) / 2;
  return FERRULIQUE_RAN;
}
