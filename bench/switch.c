// What a wake and a switch take: threads in a ring hand on a word, each of which sleeps until it has it. Prints the microseconds of a hop.
// Usage: switch THREADS HOPS
#define _GNU_SOURCE
#include <linux/futex.h>
#include <pthread.h>
#include <stdatomic.h>
#include <stdio.h>
#include <stdlib.h>
#include <sys/syscall.h>
#include <time.h>
#include <unistd.h>

enum { NONE, GIVEN, ENDED };

static struct { _Alignas(128) atomic_int word; } seats[256];
static int count;
static long left;

static void give(int to, int word) {
  atomic_store(&seats[to].word, word);
  syscall(SYS_futex, &seats[to].word, FUTEX_WAKE_PRIVATE, 1, NULL, NULL, 0);
}

static void *hand_on(void *argument) {
  int own = (int)(long)argument, next = (own + 1) % count;
  for (;;) {
    while (atomic_load(&seats[own].word) == NONE) syscall(SYS_futex, &seats[own].word, FUTEX_WAIT_PRIVATE, NONE, NULL, NULL, 0);
    int end = atomic_exchange(&seats[own].word, NONE) == ENDED || --left < 0;
    give(next, end ? ENDED : GIVEN);
    if (end) return NULL;
  }
}

int main(int words, char **word) {
  if (words != 3) return 2;
  count = atoi(word[1]);
  long hops = left = atol(word[2]);
  pthread_t threads[256];
  struct timespec start, end;
  for (long k = 0; k < count; k++) pthread_create(&threads[k], NULL, hand_on, (void *)k);
  clock_gettime(CLOCK_MONOTONIC, &start);
  give(0, GIVEN);
  for (int k = 0; k < count; k++) pthread_join(threads[k], NULL);
  clock_gettime(CLOCK_MONOTONIC, &end);
  printf("%.3f\n", ((end.tv_sec - start.tv_sec) * 1e6 + (end.tv_nsec - start.tv_nsec) / 1e3) / hops);
}
