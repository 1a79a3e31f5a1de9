/* Linked with --wrap=malloc,calloc,realloc: the program's allocation number REFUSE_AT (from 0) is refused, once, and that is said. */
#include <stdlib.h>
#include <unistd.h>

static int is_refused(void) {
  static long at = -2, seen;
  if (at == -2) {
    const char *text = getenv("REFUSE_AT");
    at = text ? atol(text) : -1;
  }
  if (at < 0 || seen++ != at) return 0;
  return write(2, "an allocation is refused\n", 25) == 25;
}

void *__real_malloc(size_t);
void *__real_calloc(size_t, size_t);
void *__real_realloc(void *, size_t);
void *__wrap_malloc(size_t size) { return is_refused() ? NULL : __real_malloc(size); }
void *__wrap_calloc(size_t count, size_t size) { return is_refused() ? NULL : __real_calloc(count, size); }
void *__wrap_realloc(void *old, size_t size) { return is_refused() ? NULL : __real_realloc(old, size); }
