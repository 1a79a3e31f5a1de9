/* Lines on standard error, of which a hostile client can cause only so many. */
#ifndef EXAMPLES_REPORT_H
#define EXAMPLES_REPORT_H
#include <stdbool.h>

/* Writes a line, ended here, if fewer than 20 were written in this second; else counts it. */
void report(const char *form, ...) __attribute__((format(printf, 1, 2)));
/* Says how many lines of the last seconds were not written, if there were such. Call it each second. */
void report_sweep(void);
/* Writes how many bytes of memory are in use, and how many descriptors are open. */
void report_usage(void);
#endif
