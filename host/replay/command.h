/* The command line. The script ./replay has the usage. */
#ifndef REPLAY_COMMAND_H
#define REPLAY_COMMAND_H

#include "show.h"

enum status { FINE = 0, REFUSED = 1, BAD_COMMAND_LINE = 2 };
enum mode { SHOW, RAW, WRITE, TEXT };

struct command {
  enum mode mode;
  struct window rows;
  char **names; /* the words that are no options */
  int count;
};

/* Reads the command line; the names are gathered at the front of argv. Answers 0 or, after a message, 2. */
int read_command(struct command *command, int argc, char **argv);

#endif
