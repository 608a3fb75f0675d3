/* Calls a program's main once for each line of standard input, all in one process: where a process takes seconds to start, as one with sanitizers
 * does on some machines, a thousand calls start one.
 * Usage: many FOLDER <CALLS   A line is a call's name and its words, with a tab before each word.
 * What call NAME prints is left in FOLDER/NAME.out and FOLDER/NAME.err and, when it has returned, its status in FOLDER/NAME.status. Compile the
 * program's sources and this one together, with -Dmain=program_main. */
#undef main
#define _POSIX_C_SOURCE 200809L
#include <fcntl.h>
#include <stdio.h>
#include <stdlib.h>
#include <string.h>
#include <unistd.h>

enum { MOST_WORDS = 8192 };

int program_main(int argc, char **argv);

static void die(const char *what) {
  perror(what);
  exit(3);
}

/* Opens FOLDER/NAME.ENDING anew. */
static int open_for(const char *folder, const char *name, const char *ending) {
  char path[4096];
  int length = snprintf(path, sizeof path, "%s/%s.%s", folder, name, ending);
  int file = length < (int)sizeof path ? open(path, O_WRONLY | O_CREAT | O_TRUNC, 0666) : -1;
  if (file < 0) die(path);
  return file;
}

/* Lets a stream write to a file. Answers where it wrote before. */
static int turn(FILE *stream, int to) {
  fflush(stream);
  int before = dup(fileno(stream));
  if (before < 0 || dup2(to, fileno(stream)) < 0) die("many");
  close(to);
  return before;
}

/* Makes one call: words[0] is its name. */
static void call(const char *folder, int count, char **words) {
  const char *name = words[0];
  int out = turn(stdout, open_for(folder, name, "out")), err = turn(stderr, open_for(folder, name, "err"));
  int status = program_main(count, words);
  close(turn(stdout, out));
  close(turn(stderr, err));
  clearerr(stdout);
  int file = open_for(folder, name, "status");
  if (dprintf(file, "%d\n", status) < 0 || close(file) != 0) die(name);
}

int main(int argc, char **argv) {
  char *line = NULL, *words[MOST_WORDS + 1];
  size_t room = 0;
  if (argc != 2) {
    fprintf(stderr, "usage: many FOLDER <CALLS\n");
    return 2;
  }
  while (getline(&line, &room, stdin) >= 0) {
    int count = 0;
    line[strcspn(line, "\n")] = '\0';
    for (char *at = line; at != NULL && count < MOST_WORDS; count++) {
      words[count] = at;
      at = strchr(at, '\t');
      if (at != NULL) *at++ = '\0';
    }
    words[count] = NULL;
    call(argv[1], count, words);
  }
  free(line);
  return 0;
}
