/* A file as it lies on the disk. */
#include "load.h"

#include <errno.h>
#include <stdio.h>
#include <string.h>

static int complain(const char *name, const char *what, int error) {
  fprintf(stderr, "%s: cannot be %s: %s\n", name, what, strerror(error));
  return 1;
}

int load(const char *name, struct loaded *file) {
  FILE *f = fopen(name, "rb");
  if (f == NULL) return complain(name, "read", errno);
  errno = 0;
  file->n = fread(file->bytes, 1, sizeof file->bytes, f);
  int error = ferror(f) ? errno : 0;
  fclose(f);
  return error == 0 ? 0 : complain(name, "read", error);
}

int save(const char *name, const uint8_t *bytes, size_t n) {
  FILE *f = fopen(name, "wb");
  if (f == NULL) return complain(name, "written", errno);
  errno = 0;
  int failed = fwrite(bytes, 1, n, f) != n;
  failed |= fclose(f) != 0;
  return failed ? complain(name, "written", errno) : 0;
}
