/* The library and plain C agree: on stored run files, on damaged copies of them, and on made-up ones.
 * Usage: agree COUNT FILE...   COUNT files are made, always the same ones. Exit status 1 where the two differ, or a code or mark was never seen. */
#include <stdio.h>
#include <stdlib.h>
#include <string.h>

#include "hold.h"
#include "made.h"

enum { MOST_FILES = 128, MOST_STORED = FERRULIQUE_MOST_FILE_BYTES + 8192, LONG_FILE = 4096 };

static struct stored {
  uint8_t bytes[MOST_STORED];
  size_t length;
} stored[MOST_FILES];

static uint64_t seed = 0x9E3779B97F4A7C15u;

static void check(const uint8_t *file, size_t n) {
  const char *wrong = hold(file, n);
  if (wrong == NULL) return;
  fprintf(stderr, "agree: %s; the file is agree-failed.run\n", wrong);
  FILE *f = fopen("agree-failed.run", "wb");
  if (f != NULL) {
    fwrite(file, 1, n, f);
    fclose(f);
  }
  exit(1);
}

static void read_file(struct stored *s, const char *name) {
  FILE *f = fopen(name, "rb");
  if (f == NULL) {
    perror(name);
    exit(1);
  }
  s->length = fread(s->bytes, 1, sizeof s->bytes, f);
  fclose(f);
}

/* A damaged copy of a stored file, or a made one, damaged or not. Long files are slow, and no more telling: few of them. */
static size_t next_file(uint8_t *file, uint32_t files) {
  const struct stored *s = &stored[random_below(&seed, files)];
  if (random_below(&seed, 2) == 0 && (s->length < LONG_FILE || random_below(&seed, 50) == 0)) {
    memcpy(file, s->bytes, s->length);
    return damage_file(&seed, file, s->length);
  }
  size_t n = make_file(&seed, file);
  return random_below(&seed, 8) == 0 ? damage_file(&seed, file, n) : n;
}

int main(int argc, char **argv) {
  static uint8_t file[MOST_STORED + DAMAGE_ADDS];
  if (argc < 3 || argc - 2 > MOST_FILES) {
    fprintf(stderr, "usage: agree COUNT FILE... (at most %d files)\n", MOST_FILES);
    return 2;
  }
  uint32_t files = (uint32_t)argc - 2;
  for (uint32_t i = 0; i < files; i++) {
    read_file(&stored[i], argv[i + 2]);
    check(stored[i].bytes, stored[i].length);
  }
  for (unsigned long k = strtoul(argv[1], NULL, 10); k > 0; k--) check(file, next_file(file, files));
  if (hold_tell() != 0) {
    fprintf(stderr, "agree: one of these was never seen\n");
    return 1;
  }
  return 0;
}
