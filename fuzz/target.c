/* The libFuzzer target: the input is a run file, and the library is held against plain C on it. */
#include <stdio.h>
#include <stdlib.h>
#include <string.h>

#include "hold.h"
#include "made.h"

int LLVMFuzzerTestOneInput(const uint8_t *data, size_t size);
int LLVMFuzzerInitialize(int *argc, char ***argv);
size_t LLVMFuzzerCustomMutator(uint8_t *data, size_t size, size_t max_size, unsigned int seed);
size_t LLVMFuzzerMutate(uint8_t *data, size_t size, size_t max_size);

static void tell(void) { hold_tell(); }

int LLVMFuzzerInitialize(int *argc, char ***argv) {
  (void)argc, (void)argv;
  atexit(tell);
  return 0;
}

int LLVMFuzzerTestOneInput(const uint8_t *data, size_t size) {
  const char *wrong = size > HOLD_MOST ? NULL : hold(data, size);
  if (wrong != NULL) {
    fprintf(stderr, "fuzz: %s\n", wrong);
    abort();
  }
  return 0;
}

/* Mostly libFuzzer's own changes; now and then a few bytes that a run file feels, or a whole new lawful file. */
size_t LLVMFuzzerCustomMutator(uint8_t *data, size_t size, size_t max_size, unsigned int seed) {
  uint64_t state = (uint64_t)seed << 1 | 1;
  uint32_t kind = random_below(&state, 64);
  if (kind == 0 && MADE_MOST <= max_size) return make_file(&state, data);
  if (kind < 24 && size + DAMAGE_ADDS <= max_size) return damage_file(&state, data, size);
  return LLVMFuzzerMutate(data, size, max_size);
}
