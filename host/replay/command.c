/* The command line. */
#include "command.h"

#include <stdio.h>
#include <stdlib.h>
#include <string.h>

static int bad(const char *what, const char *more) {
  fprintf(stderr, "replay: %s%s\n", what, more);
  return BAD_COMMAND_LINE;
}

/* A row's number: digits only, from 1. Answers 0 where it is none. */
static size_t row_number(const char *word) {
  size_t digits = strspn(word, "0123456789");
  return digits == 0 || digits > 9 || word[digits] != '\0' ? 0 : strtoul(word, NULL, 10);
}

/* --from or --to: the word after it is a number. */
static int take_bound(size_t *bound, const char *option, const char *next) {
  *bound = next == NULL ? 0 : row_number(next);
  return *bound != 0 ? FINE : bad(option, " takes the number of an entry, counted from 1");
}

static int take_mode(struct command *command, const char *option) {
  enum mode mode = strcmp(option, "--raw") == 0 ? RAW : strcmp(option, "--write") == 0 ? WRITE : strcmp(option, "--text") == 0 ? TEXT : SHOW;
  if (mode == SHOW) return bad("there is no option ", option);
  if (command->mode != SHOW) return bad(option, " does not go with another of --raw, --write and --text");
  command->mode = mode;
  return FINE;
}

static int has_window(const struct command *command) { return command->rows.first != 1 || command->rows.last != SIZE_MAX; }

/* Do the names and the options go together? */
static int check(const struct command *command) {
  int n = command->count;
  if (command->mode == WRITE && n != 2) return bad("--write", " takes the run file to make and the text");
  if (command->mode == TEXT && n != 1 && n != 2) return bad("--text", " takes the run file and, if you like, the text to make");
  if (n == 0) return bad("no file is given", "");
  if (command->mode != SHOW && has_window(command)) return bad("--from and --to", " are about the rows, which are not shown here");
  if (command->rows.first > command->rows.last) return bad("--from", " is above --to");
  return FINE;
}

int read_command(struct command *command, int argc, char **argv) {
  *command = (struct command){SHOW, {1, SIZE_MAX}, argv, 0};
  int options = 1, status = FINE;
  for (int i = 1; i < argc && status == FINE; i++) {
    if (!options || argv[i][0] != '-') {
      argv[command->count++] = argv[i];
    } else if (strcmp(argv[i], "--") == 0) {
      options = 0;
    } else if (strcmp(argv[i], "--from") == 0 || strcmp(argv[i], "--to") == 0) {
      size_t *bound = argv[i][2] == 'f' ? &command->rows.first : &command->rows.last;
      status = take_bound(bound, argv[i], argv[i + 1]);
      i++;
    } else {
      status = take_mode(command, argv[i]);
    }
  }
  return status == FINE ? check(command) : status;
}
