/* Which wrong body runs (scripts/gate/variants.py): that whose number WRONG is, the right ones where it is none. At the end the file that TOLD names has the numbers
   of those that were asked for, and last how often memory was asked for, how many bytes in all, and how many were held at most. WRAPPED, it counts these, and
   refuses the calls for memory that REFUSE=FIRST-LAST names, counted from 1. */
#include <malloc.h>
#include <stdio.h>
#include <stdlib.h>

#define MOST 4096
#ifndef PROGRAM
#define PROGRAM 0
#endif

long wrong_number, wrong_program = PROGRAM; /* a program of scripts/gate/variants.py */
char wrong_asked[MOST];
static long first, last, calls, bytes, most_held;

__attribute__((constructor)) static void begin(void) {
  const char *number = getenv("WRONG"), *refused = getenv("REFUSE");
  wrong_number = number ? atol(number) : 0;
  if (refused && sscanf(refused, "%ld-%ld", &first, &last) != 2) abort();
}

__attribute__((destructor)) static void end(void) {
  const char *path = getenv("TOLD");
  FILE *file = path ? fopen(path, "w") : NULL;
  if (!file) return;
  for (int number = 0; number < MOST; number++)
    if (wrong_asked[number]) fprintf(file, "%d ", number);
  fprintf(file, "\n%ld %ld %ld\n", calls, bytes, most_held);
  fclose(file);
}

#ifdef WRAPPED
void *__real_malloc(size_t size);
void *__real_realloc(void *old, size_t size);
void __real_free(void *block);

static long held;

static int is_refused(size_t size) {
  calls++;
  bytes += (long)size;
  return first <= calls && calls <= last;
}

static void *is_held(void *block) {
  held += (long)malloc_usable_size(block);
  if (held > most_held) most_held = held;
  return block;
}

void *__wrap_malloc(size_t size) { return is_refused(size) ? NULL : is_held(__real_malloc(size)); }

void *__wrap_realloc(void *old, size_t size) {
  if (is_refused(size)) return NULL;
  held -= (long)malloc_usable_size(old);
  return is_held(__real_realloc(old, size));
}

void __wrap_free(void *block) {
  held -= (long)malloc_usable_size(block);
  __real_free(block);
}
#endif
