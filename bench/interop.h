/* What the checks of `make interop` share. */
#ifndef INTEROP_H
#define INTEROP_H
#include "lists.h"
#include <stdint.h>

/* Prints the line of a check, and counts it. */
void check(int good, const char *what, const char *more);

/* Random numbers below 2^53, the same ones in every run. */
uint64_t next_random(void);

/* Sessions with a dynamic table, both ways. */
void session_checks(const field_lists *lists, size_t capacity, size_t limit);
#endif
