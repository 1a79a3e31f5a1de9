/* What the programs beside it expect of calls: what does not hold is told in a line 'failed TEST: ..', and `bad` is set. TEST is the program's name, a
 * literal that it defines ahead. */
#include <stdint.h>
#include <stdio.h>

static int bad;

/* the call answers this number */
#define IS(call, wanted) \
  do { \
    uint32_t n_ = (call); \
    if (n_ != (wanted)) { \
      printf("failed " TEST ": line %d: %s answers %u\n", __LINE__, #call, n_); \
      bad = 1; \
    } \
  } while (0)

#define HOLDS(test) IS((test) ? 1u : 0u, 1u)
