/* The library's answer, from the lines that the program runlist prints: for a machine that cannot link the library.
 * The script ./replay gives two environment variables: REPLAY_X86, a program that runs one for x86-64, and REPLAY_RUNLIST, runlist. */
#define _POSIX_C_SOURCE 200809L
#include <spawn.h>
#include <stdio.h>
#include <stdlib.h>
#include <sys/wait.h>
#include <unistd.h>

#include "../print.h"
#include "ask.h"

extern char **environ;

/* Starts runlist on the file `from` as its input. Answers its output, or NULL. */
static FILE *start(FILE *from, pid_t *child) {
  char *x86 = getenv("REPLAY_X86"), *runlist = getenv("REPLAY_RUNLIST");
  int pipes[2];
  if (x86 == NULL || runlist == NULL || pipe(pipes) != 0) return NULL;
  char *words[] = {x86, runlist, NULL};
  posix_spawn_file_actions_t actions;
  posix_spawn_file_actions_init(&actions);
  posix_spawn_file_actions_adddup2(&actions, fileno(from), STDIN_FILENO);
  posix_spawn_file_actions_adddup2(&actions, pipes[1], STDOUT_FILENO);
  posix_spawn_file_actions_addclose(&actions, pipes[0]);
  int failed = posix_spawn(child, x86, &actions, NULL, words, environ);
  posix_spawn_file_actions_destroy(&actions);
  close(pipes[1]);
  if (failed == 0) return fdopen(pipes[0], "r");
  close(pipes[0]);
  return NULL;
}

/* Reads a line of at most `most` decimal numbers. Answers how many there are, or -1 where it is no such line. */
static long line_of_numbers(FILE *from, uint32_t *to, size_t most) {
  size_t n = 0;
  int c, inside = 0;
  while ((c = getc(from)) != '\n') {
    if (c == ' ') {
      inside = 0;
      continue;
    }
    if (c < '0' || c > '9') return -1;
    if (!inside) {
      if (n == most) return -1;
      to[n++] = 0;
      inside = 1;
    }
    to[n - 1] = 10 * to[n - 1] + (uint32_t)(c - '0');
  }
  return (long)n;
}

/* Reads a line of exactly n bytes. Answers 0 where it is none. */
static int line_of_bytes(FILE *from, uint8_t *to, size_t n) {
  static uint32_t numbers[FERRULIQUE_MOST_OUT_BYTES];
  if (line_of_numbers(from, numbers, FERRULIQUE_MOST_OUT_BYTES) != (long)n) return 0;
  for (size_t i = 0; i < n; i++) {
    if (numbers[i] > UINT8_MAX) return 0;
    to[i] = (uint8_t)numbers[i];
  }
  return 1;
}

/* Reads the line of the report's numbers and lays them out as the library does. */
static int line_of_report(FILE *from, uint8_t *report) {
  uint32_t numbers[FERRULIQUE_REPORT_NUMBERS];
  if (line_of_numbers(from, numbers, FERRULIQUE_REPORT_NUMBERS) != (long)FERRULIQUE_REPORT_NUMBERS) return 0;
  for (size_t i = 0; i < FERRULIQUE_REPORT_BYTES; i++) report[i] = (uint8_t)(numbers[i / 4] >> 8 * (i % 4));
  return 1;
}

/* Reads what runlist prints. Answers 0 where it is something else. */
static int read_answer(FILE *from, struct answer *a) {
  if (fscanf(from, "code") != 0 || line_of_numbers(from, &a->code, 1) != 1) return 0;
  if (a->code != FERRULIQUE_RAN) return 1;
  return line_of_report(from, a->report) && entries_of(a->report) <= FERRULIQUE_MOST_ENTRIES &&
         line_of_bytes(from, a->marks, entries_of(a->report)) &&
         line_of_bytes(from, a->out, ferrulique_number(a->report, FERRULIQUE_DATA_LOADS));
}

const char *ask(const uint8_t *bytes, size_t n, struct answer *a) {
  FILE *file = tmpfile();
  if (file == NULL || fwrite(bytes, 1, n, file) != n || fseek(file, 0, SEEK_SET) != 0) return "no temporary file can be written";
  pid_t child = 0;
  FILE *printed = start(file, &child);
  if (printed == NULL) {
    fclose(file);
    return "runlist cannot be started";
  }
  int good = read_answer(printed, a);
  int status = 0;
  fclose(printed);
  fclose(file);
  if (waitpid(child, &status, 0) != child || status != 0 || !good) return "runlist did not print an answer";
  return NULL;
}
