/* Tells of run files whether and where they race: a line for each, in the order in which they are named. They are asked on as many threads as there
 * are processors, and how far that has got is shown where standard error is a terminal.
 * Usage: race FILE...
 * Lines: "FILE: no race", "FILE: entry 10 races with entry 6", "FILE: code 3, refused: the ring size is 0 or above 128",
 * "FILE: cannot be read: No such file or directory".
 * Exit status: 0 where every file ran and none races; 1 where every file ran and one races; 2 where one was refused or could not be read, where the
 * lines could not be written, and for a bad command line.
 * Compile it with -pthread. */
#define _POSIX_C_SOURCE 200809L
#include <errno.h>
#include <fcntl.h>
#include <pthread.h>
#include <stdatomic.h>
#include <stdio.h>
#include <stdlib.h>
#include <string.h>
#include <time.h>
#include <unistd.h>

#include "ferrulique.h"
#include "print.h"

/* One byte more than a lawful file has, so that a longer one is refused by its code. */
enum { MOST_READ = FERRULIQUE_MOST_FILE_BYTES + 1 };

/* Threads beside the first, at most; how often a second it is shown how far they have got. */
enum { MOST_THREADS = 255, SHOWN_A_SECOND = 10 };

/* Exit statuses. */
enum { NONE_RACES, ONE_RACES, TROUBLE };

/* What came of a file: the library's answer, or, where it could not be read, an errno that is not 0. */
struct told {
  uint64_t answer;
  int error;
};

/* The files, what came of each, and the next that no thread has taken. Each place of `told` is one thread's alone until the threads are joined. */
struct work {
  char **names;
  struct told *told;
  size_t count;
  atomic_size_t next;
};

/* Reads as much of a file as there is room for; *length is 0 before. Answers 0, or an errno. */
static int read_file(const char *name, uint8_t *buffer, size_t *length) {
  int file = open(name, O_RDONLY | O_CLOEXEC), error = 0;
  if (file < 0) return errno;
  while (*length < MOST_READ) {
    ssize_t n = read(file, buffer + *length, MOST_READ - *length);
    if (n < 0 && errno == EINTR) continue;
    if (n < 0) error = errno;
    if (n <= 0) break;
    *length += (size_t)n;
  }
  close(file);
  return error;
}

/* Takes the next file, reads it and asks the library. Answers 0 where there was none. */
static int ask_one(struct work *w, uint8_t *buffer) {
  size_t mine = atomic_fetch_add(&w->next, 1), length = 0;
  if (mine >= w->count) return 0;
  struct told *t = &w->told[mine];
  t->error = read_file(w->names[mine], buffer, &length);
  if (t->error == 0) t->answer = ferrulique_race(buffer, length);
  return 1;
}

/* What a thread does. One that gets no memory leaves its files to the others. */
static void *ask(void *work) {
  uint8_t *buffer = malloc(MOST_READ);
  while (buffer != NULL && ask_one(work, buffer)) continue;
  free(buffer);
  return NULL;
}

/* How many times a tenth of a second has begun. */
static long tenths(void) {
  struct timespec t;
  clock_gettime(CLOCK_MONOTONIC, &t);
  return (long)t.tv_sec * SHOWN_A_SECOND + t.tv_nsec / (1000000000 / SHOWN_A_SECOND);
}

/* What the first thread does: the same, and on a terminal it shows how many files have been taken. */
static void ask_and_show(struct work *w) {
  static uint8_t buffer[MOST_READ];
  int shown = isatty(STDERR_FILENO);
  long last = tenths();
  while (ask_one(w, buffer)) {
    if (!shown || tenths() == last) continue;
    last = tenths();
    fprintf(stderr, "\r%zu of %zu files", atomic_load(&w->next), w->count);
  }
  if (shown) fprintf(stderr, "\r\033[K");
}

/* Asks about all files, by one thread for each processor. */
static void ask_all(struct work *w) {
  pthread_t threads[MOST_THREADS];
  long processors = sysconf(_SC_NPROCESSORS_ONLN);
  size_t wanted = processors < 1 ? 0 : (size_t)processors - 1, started = 0;
  while (started < wanted && started < MOST_THREADS && started + 1 < w->count && pthread_create(&threads[started], NULL, ask, w) == 0) started++;
  ask_and_show(w);
  while (started > 0) pthread_join(threads[--started], NULL);
}

/* Prints a file's line. Answers the exit status that it asks for. */
static int tell(const char *name, const struct told *t) {
  unsigned code = ferrulique_code(t->answer), entry = ferrulique_race_entry(t->answer), partner = ferrulique_race_partner(t->answer);
  if (t->error != 0) {
    printf("%s: cannot be read: %s\n", name, strerror(t->error));
    return TROUBLE;
  }
  if (code != FERRULIQUE_RAN) {
    printf("%s: code %u, %s\n", name, code, code_words(code));
    return TROUBLE;
  }
  if (entry == 0) {
    printf("%s: no race\n", name);
    return NONE_RACES;
  }
  printf("%s: entry %u races with entry %u\n", name, entry, partner);
  return ONE_RACES;
}

int main(int argc, char **argv) {
  int status = NONE_RACES;
  if (argc < 2) {
    fprintf(stderr, "usage: race FILE...\n");
    return TROUBLE;
  }
  struct work w = {argv + 1, calloc((size_t)argc - 1, sizeof(struct told)), (size_t)argc - 1, 0};
  if (w.told == NULL) {
    perror("race");
    return TROUBLE;
  }
  ask_all(&w);
  for (size_t i = 0; i < w.count; i++) {
    int asked = tell(w.names[i], &w.told[i]);
    if (asked > status) status = asked;
  }
  free(w.told);
  if (fflush(stdout) != 0 || ferror(stdout)) {
    perror("race");
    return TROUBLE;
  }
  return status;
}
