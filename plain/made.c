/* Run files made from a seed: small numbers mostly, since these make batches fit and fail, indexes wrap and stores hide. */
#include "made.h"

enum { LONGEST_BATCH = 30, LONG_SCHEDULE = 2000, SCHEDULE = 120 };

uint32_t random_below(uint64_t *seed, uint32_t n) {
  *seed ^= *seed << 13;
  *seed ^= *seed >> 7;
  *seed ^= *seed << 17;
  return (uint32_t)(*seed >> 32) % n;
}

/* Three times in four a small number. */
static uint32_t mostly_below(uint64_t *seed, uint32_t small, uint32_t large) {
  return random_below(seed, random_below(seed, 4) == 0 ? large : small);
}

/* A ring, its modulus and its orders. */
static void make_ring(uint64_t *seed, uint8_t *file) {
  uint32_t m = 1 + mostly_below(seed, 5, FERRULIQUE_MOST_SLOTS);
  uint32_t modulus = m * (2 + mostly_below(seed, 3, FERRULIQUE_MOST_MODULUS / m - 1));
  file[0] = (uint8_t)m;
  for (unsigned b = 0; b < 4; b++) file[1 + b] = (uint8_t)(modulus >> 8 * b);
  file[5] = (uint8_t)(random_below(seed, 2) == 0 ? FERRULIQUE_MOST_ORDER_BITS : random_below(seed, FERRULIQUE_MOST_ORDER_BITS + 1));
}

/* Fewer than `most` entries, a few in a row by one core, now and then by none; mostly age 0. Answers their bytes. */
static size_t make_schedule(uint64_t *seed, uint8_t *at, uint32_t most) {
  uint32_t n = random_below(seed, most), core = 0;
  for (uint32_t i = 0; i < n; i++) {
    if (random_below(seed, 5) == 0) core = random_below(seed, 2);
    *at++ = (uint8_t)(random_below(seed, 60) == 0 ? random_below(seed, 256) : core);
    *at++ = (uint8_t)(random_below(seed, 4) == 0 ? mostly_below(seed, 4, 256) : 0);
  }
  return 2 * (size_t)n;
}

size_t make_file(uint64_t *seed, uint8_t *file) {
  size_t n = FERRULIQUE_HEADER_BYTES, sum = 0;
  make_ring(seed, file);
  file[6] = (uint8_t)mostly_below(seed, 12, 256);
  file[7] = (uint8_t)mostly_below(seed, 12, 256);
  for (uint32_t i = 0; i < (uint32_t)file[6] + file[7]; i++) {
    uint32_t longest = file[0] + 2u < LONGEST_BATCH ? file[0] + 2u : LONGEST_BATCH;
    file[n] = (uint8_t)mostly_below(seed, 4, longest);
    if (i < file[6]) sum += file[n];
    n++;
  }
  while (sum-- > 0) file[n++] = (uint8_t)random_below(seed, 256);
  return n + make_schedule(seed, file + n, random_below(seed, 8) == 0 ? LONG_SCHEDULE : SCHEDULE);
}

size_t damage_file(uint64_t *seed, uint8_t *file, size_t n) {
  uint32_t near = n < 24 ? (uint32_t)n : 24;
  for (uint32_t k = 1 + random_below(seed, 4); k > 0 && n > 0; k--) {
    uint32_t at = mostly_below(seed, near, (uint32_t)n);
    file[at] = (uint8_t)mostly_below(seed, 6, 256);
  }
  if (random_below(seed, 8) == 0) n = random_below(seed, (uint32_t)n + 1);
  if (random_below(seed, 8) == 0) n += make_schedule(seed, file + n, 16);
  if (random_below(seed, 16) == 0) file[n++] = 1;
  return n;
}
