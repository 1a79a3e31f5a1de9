/* memory.h: malloc, realloc and free as the library for C calls them (Makefile). */
#ifndef COMPAT_MEMORY_H
#define COMPAT_MEMORY_H
#include <stdbool.h>
#include <stddef.h>

void *memory_take(size_t size);
void *memory_resize(void *block, size_t size);
void memory_give(void *block);

#endif
