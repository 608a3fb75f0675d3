/* Reads a byte past a heap buffer, and overflows a signed number, each in a process of its own. Status 0 where sanitizers have ended both with their
 * status, 86. The processes are forked, and not started anew, since on some machines a program with sanitizers takes seconds to start. */
#define _POSIX_C_SOURCE 200809L
#include <limits.h>
#include <stdlib.h>
#include <sys/wait.h>
#include <unistd.h>

static int past(int n) {
  char *p = calloc((size_t)n, 1);
  int byte = p == NULL ? 0 : p[n];
  free(p);
  return byte;
}

static int overflow(int n) { return INT_MAX - 1 + n + n; }

/* Does a process that does this end with the sanitizers' status? */
static int is_ended(int (*wrong)(int), int n) {
  int status = 0;
  pid_t child = fork();
  if (child == 0) _exit(wrong(n) == 86);
  return child > 0 && waitpid(child, &status, 0) == child && WIFEXITED(status) && WEXITSTATUS(status) == 86;
}

int main(int argc, char **argv) {
  (void)argv;
  int seen = is_ended(past, argc);
  return is_ended(overflow, argc) && seen ? 0 : 1;
}
