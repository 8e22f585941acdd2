/* Loaded before the program, this refuses one request for memory, the one of number REFUSE_AT, counted from 1, or that and all behind it
   where REFUSE_ON is set; 0 is none. The start of a thread is a request too. Where REFUSE_COUNT names a file, how many requests there
   were is written into it at the end. */
#define _GNU_SOURCE
#include <dlfcn.h>
#include <errno.h>
#include <pthread.h>
#include <stdatomic.h>
#include <stdio.h>
#include <stdlib.h>
#include <sys/syscall.h>
#include <unistd.h>

void *__libc_malloc(size_t size);
void *__libc_calloc(size_t count, size_t size);
void *__libc_realloc(void *old, size_t size);
void *__libc_memalign(size_t alignment, size_t size);

static atomic_ulong requests;
static unsigned long at;
static int on, counts;

static int refused(void) {
  unsigned long request;
  if (!counts) return 0;
  request = atomic_fetch_add(&requests, 1) + 1;
  if (at == 0 || (on ? request < at : request != at)) return 0;
  errno = ENOMEM;
  return 1;
}

void *malloc(size_t size) { return refused() ? NULL : __libc_malloc(size); }
void *calloc(size_t count, size_t size) { return refused() ? NULL : __libc_calloc(count, size); }
void *realloc(void *old, size_t size) { return refused() ? NULL : __libc_realloc(old, size); }
void *memalign(size_t alignment, size_t size) { return refused() ? NULL : __libc_memalign(alignment, size); }
void *aligned_alloc(size_t alignment, size_t size) { return memalign(alignment, size); }

int posix_memalign(void **found, size_t alignment, size_t size) {
  void *made = memalign(alignment, size);
  if (made) *found = made;
  return made ? 0 : ENOMEM;
}

typedef int Create(pthread_t *, const pthread_attr_t *, void *(*)(void *), void *);

int pthread_create(pthread_t *thread, const pthread_attr_t *attributes, void *(*start)(void *), void *given) {
  Create *create = (Create *)dlsym(RTLD_NEXT, "pthread_create");
  return refused() ? EAGAIN : create(thread, attributes, start, given);
}

__attribute__((constructor)) static void begin(void) {
  const char *number = getenv("REFUSE_AT");
  at = number ? strtoul(number, NULL, 10) : 0;
  on = getenv("REFUSE_ON") != NULL;
  counts = 1;
}

static void tell(void) {
  const char *path = getenv("REFUSE_COUNT");
  unsigned long count = atomic_load(&requests);
  FILE *file;
  counts = 0;
  file = path ? fopen(path, "w") : NULL;
  if (!file) return;
  fprintf(file, "%lu\n", count);
  fclose(file);
}

__attribute__((destructor)) static void end(void) { tell(); }

/* A program with threads ends without destructors. */
void _exit(int status) {
  tell();
  syscall(SYS_exit_group, status);
  __builtin_unreachable();
}
