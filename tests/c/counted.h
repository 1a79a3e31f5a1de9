/* The bytes that are allocated, and the most that ever were: for programs that are linked with --wrap for malloc, realloc and free. */
#include <malloc.h>
#include <stddef.h>

void *__real_malloc(size_t);
void *__real_realloc(void *, size_t);
void __real_free(void *);
void *__wrap_malloc(size_t);
void *__wrap_realloc(void *, size_t);
void __wrap_free(void *);

static size_t live, most_live;

static void *counted(void *block) {
  live += malloc_usable_size(block);
  if (live > most_live) most_live = live;
  return block;
}

void *__wrap_malloc(size_t size) { return counted(__real_malloc(size)); }

void *__wrap_realloc(void *block, size_t size) {
  size_t before = malloc_usable_size(block);
  void *moved = __real_realloc(block, size);
  if (moved) live -= before;
  return moved ? counted(moved) : NULL;
}

void __wrap_free(void *block) {
  live -= malloc_usable_size(block);
  __real_free(block);
}
