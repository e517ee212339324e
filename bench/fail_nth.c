/* Makes allocation number FAIL_NTH (from 1) of a program fail, and writes into the file FAIL_COUNT how many it asked for.
   gcc -shared -fPIC -O2 -o /tmp/fail_nth.so bench/fail_nth.c -ldl */
#define _GNU_SOURCE
#include <dlfcn.h>
#include <errno.h>
#include <stdio.h>
#include <stdlib.h>
#include <string.h>

static long asked;

static int fails(void) {
  static long nth = -1;
  if (nth < 0) {
    const char *text = getenv("FAIL_NTH");
    nth = text ? atol(text) : 0;
  }
  return ++asked == nth;
}

void *malloc(size_t size) {
  static void *(*next)(size_t);
  if (!next) next = dlsym(RTLD_NEXT, "malloc");
  if (fails()) { errno = ENOMEM; return NULL; }
  return next(size);
}

void *realloc(void *old, size_t size) {
  static void *(*next)(void *, size_t);
  if (!next) next = dlsym(RTLD_NEXT, "realloc");
  if (fails()) { errno = ENOMEM; return NULL; }
  return next(old, size);
}

int posix_memalign(void **out, size_t align, size_t size) {
  static int (*next)(void **, size_t, size_t);
  if (!next) next = dlsym(RTLD_NEXT, "posix_memalign");
  if (fails()) return ENOMEM;
  return next(out, align, size);
}

void *aligned_alloc(size_t align, size_t size) {
  static void *(*next)(size_t, size_t);
  if (!next) next = dlsym(RTLD_NEXT, "aligned_alloc");
  if (fails()) { errno = ENOMEM; return NULL; }
  return next(align, size);
}

__attribute__((destructor)) static void tell(void) {
  const char *name = getenv("FAIL_COUNT");
  if (!name) return;
  FILE *file = fopen(name, "w");
  if (!file) return;
  fprintf(file, "%ld\n", asked);
  fclose(file);
}
