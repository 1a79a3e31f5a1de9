/* memory.c: the memory of the library for C. Small blocks that it frees are used again by its next calls in the same thread, whichever the
 * connection. A connection takes some hundred small blocks, and an exchange some more: so malloc is asked for few of them. */
#include <pthread.h>
#include <stdint.h>
#include <stdlib.h>
#include <string.h>
#include "memory.h"

/* What is seldom needed: so the code for the rest stays short. */
#define APART __attribute__((noinline))

enum {
  STEP = 32,                    /* of the sizes of small blocks, in bytes */
  CLASSES = 128,                /* of small blocks: those of 32, 64, .. 4,096 bytes */
  MOST_SPARE = (1 << 16) / STEP /* bytes that a thread keeps, in steps */
};

/* What stands in front of each block. It has 16 bytes, so that the block is aligned as malloc's are. */
typedef struct {
  size_t steps; /* how long a small block is; 0: a large one */
  size_t unused;
} block_head;

/* What stands in a small block that is not used. */
typedef struct unused_block {
  struct unused_block *next;
} unused_block;

/* The small blocks of a thread that are not used. */
typedef struct {
  unused_block *first[CLASSES + 1]; /* by their steps */
  size_t steps;                     /* of all of them */
} spare_blocks;

static _Thread_local spare_blocks *spare __attribute__((tls_model("initial-exec"))); /* NULL before the first is freed */
static pthread_once_t once = PTHREAD_ONCE_INIT;
static pthread_key_t key; /* its value in a thread is that thread's spare blocks, which are freed when it ends */
static bool has_key;

static block_head *head_of(void *block) { return (block_head *)block - 1; }

/* Of a size that is not 0: nobody asks for that (the library's calls ask for the alignment then). */
static size_t steps_of(size_t size) { return (size + STEP - 1) / STEP; }

static bool is_small(size_t size) { return size - 1 < STEP * CLASSES; }

/* ---- the end of a thread ---- */

static void free_all(void *of_thread) {
  spare_blocks *all = of_thread;
  for (size_t steps = 1; steps <= CLASSES; steps++)
    for (unused_block *block = all->first[steps], *next; block; block = next) {
      next = block->next;
      free(head_of(block));
    }
  free(all);
  spare = NULL;
}

static void make_key(void) { has_key = pthread_key_create(&key, free_all) == 0; }

/* Where the library is unloaded threads may go on, and no code of it is there at their end: no more blocks are kept. */
__attribute__((destructor)) static void unload(void) {
  if (spare) free_all(spare);
  if (has_key) pthread_key_delete(key);
  has_key = false;
}

/* Places for the spare blocks of this thread, if they are freed at its end; else NULL. */
static spare_blocks *spare_new(void) {
  pthread_once(&once, make_key);
  if (!has_key) return NULL;
  spare_blocks *all = calloc(1, sizeof *all);
  if (all && pthread_setspecific(key, all) != 0) free(all), all = NULL;
  return all;
}

/* ---- blocks ---- */

static APART void *block_new(size_t size) {
  size_t steps = is_small(size) ? steps_of(size) : 0, whole = steps ? steps * STEP : size;
  block_head *head = whole <= SIZE_MAX - sizeof *head ? malloc(sizeof *head + whole) : NULL;
  if (!head) return NULL;
  head->steps = steps;
  return head + 1;
}

/* A block that is not used, in its place among the others of its size. */
static inline void keep(void *block, size_t steps) {
  unused_block *unused = block;
  unused->next = spare->first[steps], spare->first[steps] = unused, spare->steps += steps;
}

/* A large one, or the first small one of a thread, or one too many. */
static APART void give_other(void *block, size_t steps) {
  if (steps && !spare && (spare = spare_new())) keep(block, steps);
  else free(head_of(block));
}

void *memory_take(size_t size) {
  size_t steps = steps_of(size);
  unused_block *block = is_small(size) && spare ? spare->first[steps] : NULL;
  if (!block) return block_new(size);
  spare->first[steps] = block->next, spare->steps -= steps;
  return block;
}

void memory_give(void *block) {
  if (!block) return;
  size_t steps = head_of(block)->steps;
  if (steps && spare && spare->steps < MOST_SPARE) keep(block, steps);
  else give_other(block, steps);
}

/* Moves a block to one of another size. */
static APART void *move(void *block, size_t steps, size_t size) {
  void *other = memory_take(size);
  if (!other) return NULL;
  size_t there = steps ? steps * STEP : size; /* a large one is longer than a small one */
  memcpy(other, block, there < size ? there : size);
  memory_give(block);
  return other;
}

static void *resize_large(void *block, size_t size) {
  block_head *head = size <= SIZE_MAX - sizeof *head ? realloc(head_of(block), sizeof *head + size) : NULL;
  return head ? head + 1 : NULL;
}

void *memory_resize(void *block, size_t size) {
  if (!block) return memory_take(size);
  size_t steps = head_of(block)->steps;
  if (is_small(size) && steps == steps_of(size)) return block;
  return steps || is_small(size) ? move(block, steps, size) : resize_large(block, size);
}
