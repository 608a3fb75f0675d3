/* replay: plays run files through the library and shows what happened. The script ./replay builds it, and tells its options. */
#include <stdio.h>

#include "../print.h"
#include "ask.h"
#include "command.h"
#include "load.h"
#include "show.h"
#include "text.h"

static struct loaded file;
static struct answer answer;

/* The file's bytes: as they are or, for a text, as it describes them. Answers 0, or 1 after a message. */
static int bytes_of(const char *name, const uint8_t **bytes, size_t *n) {
  static uint8_t described[MOST_WRITTEN];
  if (load(name, &file) != FINE) return REFUSED;
  *bytes = file.bytes;
  *n = file.n;
  if (!is_text(name, file.bytes, file.n)) return FINE;
  *bytes = described;
  return read_text(name, file.bytes, file.n, described, n);
}

/* Tells that the library refuses a file: the code, its meaning and what the file's head says, where the meaning is about it. */
static int tell_refusal(const char *name, uint32_t code, const uint8_t *bytes, size_t n) {
  struct parts p = {0};
  fprintf(stderr, "%s: code %u, %s", name, (unsigned)code, code_words(code));
  if (code >= FERRULIQUE_BAD_SIZE && code <= FERRULIQUE_FILE_ENDS) {
    parts_of(bytes, n, &p);
    fprintf(stderr, " (ring %u, modulus %u, order bits %u, %zu push sizes, %zu pop sizes)", (unsigned)p.size, (unsigned)p.modulus, (unsigned)p.orders,
            p.batches[PRODUCER], p.batches[CONSUMER]);
  }
  fputc('\n', stderr);
  return REFUSED;
}

/* Asks the library. Answers 0, or 1 after a message where there is no answer. */
static int ask_for(const char *name, const uint8_t *bytes, size_t n) {
  const char *trouble = ask(bytes, n, &answer);
  if (trouble == NULL) return FINE;
  fprintf(stderr, "%s: cannot be played: %s\n", name, trouble);
  return REFUSED;
}

/* Plays one file and shows it; `shown` counts the files shown. */
static int play(const struct command *command, const char *name, int *shown) {
  const uint8_t *bytes;
  size_t n;
  struct parts parts;
  if (bytes_of(name, &bytes, &n) != FINE || ask_for(name, bytes, n) != FINE) return REFUSED;
  if (command->mode == RAW) print_raw(stdout, answer.code, answer.marks, answer.out, answer.report);
  if (answer.code != FERRULIQUE_RAN) return tell_refusal(name, answer.code, bytes, n);
  if (command->mode == RAW) return FINE;
  parts_of(bytes, n, &parts);
  if ((*shown)++ > 0) putchar('\n');
  return show(stdout, name, &parts, &answer, command->rows);
}

static int play_all(const struct command *command) {
  int status = FINE, shown = 0;
  for (int i = 0; i < command->count; i++) status |= play(command, command->names[i], &shown);
  return status;
}

/* Makes the run file that a text describes. One that the library refuses is written too, and told. */
static int write_run(const char *out, const char *name) {
  static uint8_t bytes[MOST_WRITTEN];
  size_t n;
  if (load(name, &file) != FINE || read_text(name, file.bytes, file.n, bytes, &n) != FINE) return REFUSED;
  if (save(out, bytes, n) != FINE || ask_for(out, bytes, n) != FINE) return REFUSED;
  return answer.code == FERRULIQUE_RAN ? FINE : tell_refusal(out, answer.code, bytes, n);
}

/* Writes the text form of a run file, to a file or to standard output. */
static int write_form(const char *name, const char *out) {
  struct parts parts;
  if (load(name, &file) != FINE) return REFUSED;
  if (is_text(name, file.bytes, file.n)) {
    fprintf(stderr, "%s: is a text already\n", name);
    return REFUSED;
  }
  uint32_t code = parts_of(file.bytes, file.n, &parts);
  if (code != FERRULIQUE_RAN) {
    fprintf(stderr, "%s: has no text form: code %u, %s\n", name, (unsigned)code, code_words(code));
    return REFUSED;
  }
  FILE *to = out == NULL ? stdout : fopen(out, "w");
  if (to == NULL) {
    perror(out);
    return REFUSED;
  }
  write_text(to, &parts);
  if (to == stdout || fclose(to) == 0) return FINE;
  perror(out);
  return REFUSED;
}

static int obey(const struct command *command) {
  if (command->mode == WRITE) return write_run(command->names[0], command->names[1]);
  if (command->mode == TEXT) return write_form(command->names[0], command->count == 2 ? command->names[1] : NULL);
  return play_all(command);
}

int main(int argc, char **argv) {
  struct command command;
  if (read_command(&command, argc, argv) != FINE) return BAD_COMMAND_LINE;
  int status = obey(&command);
  if (fflush(stdout) == 0 && !ferror(stdout)) return status;
  perror("replay: standard output");
  return REFUSED;
}
