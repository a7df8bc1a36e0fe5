/* Loaded before the C library, it refuses the growth of memory whose number stands in the variable
 * REFUSED, and says so on standard error by the line `refused`. tests/program/refusing.py compiles
 * it. */
#define _GNU_SOURCE
#include <dlfcn.h>
#include <stdlib.h>
#include <unistd.h>
static long asked, refused;
static int is_refused(void) {
  if (refused == 0) refused = atol(getenv("REFUSED"));
  if (++asked != refused) return 0;
  return write(2, "refused\n", 8) == 8;
}
void *malloc(size_t size) {
  static void *(*real)(size_t);
  if (!real) real = dlsym(RTLD_NEXT, "malloc");
  return is_refused() ? NULL : real(size);
}
void *realloc(void *old, size_t size) {
  static void *(*real)(void *, size_t);
  if (!real) real = dlsym(RTLD_NEXT, "realloc");
  return is_refused() ? NULL : real(old, size);
}
