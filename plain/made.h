/* Run files made from a seed: lawful ones, and damaged copies. */
#ifndef MADE_H
#define MADE_H

#include "ferrulique.h"

/* A made file has at most this many bytes, a damaged one at most this many more than before. */
#define MADE_MOST 24576
#define DAMAGE_ADDS 64

/* A number below n. The seed is not 0, and changes. */
uint32_t random_below(uint64_t *seed, uint32_t n);

/* Makes a lawful file, and answers its length. */
size_t make_file(uint64_t *seed, uint8_t *file);

/* Changes a few bytes, sometimes the length. Answers the length. */
size_t damage_file(uint64_t *seed, uint8_t *file, size_t n);

#endif
