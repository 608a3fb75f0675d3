/* Two threads write to one place, and nothing orders them: the thread sanitizer must tell it, and end the process with its status. */
#include <pthread.h>
#include <stddef.h>

static int place;

static void *write_to(void *unused) {
  place++;
  return unused;
}

int main(void) {
  pthread_t thread;
  if (pthread_create(&thread, NULL, write_to, NULL) != 0) return 1;
  write_to(NULL);
  pthread_join(thread, NULL);
  return 0;
}
