#include "report.h"
#include <dirent.h>
#include <malloc.h>
#include <stdarg.h>
#include <stdio.h>
#include <time.h>

enum { MOST = 20 }; /* lines of a second */

static time_t second;
static unsigned long written, left_out;

void report_sweep(void) {
  time_t now = time(NULL);
  if (now == second) return;
  second = now;
  written = 0;
  if (left_out > 0) fprintf(stderr, "%lu more lines like these\n", left_out);
  left_out = 0;
}

void report(const char *form, ...) {
  va_list arguments;
  report_sweep();
  if (written >= MOST) {
    left_out++;
    return;
  }
  written++;
  va_start(arguments, form);
  vfprintf(stderr, form, arguments);
  va_end(arguments);
  fputc('\n', stderr);
}

void report_usage(void) {
  DIR *folder = opendir("/proc/self/fd");
  long count = -3; /* `.`, `..`, and the folder itself */
  while (folder && readdir(folder)) count++;
  if (folder) closedir(folder);
  fprintf(stderr, "memory %zu bytes in use; descriptors %ld open\n", mallinfo2().uordblks + mallinfo2().hblkhd, count);
}
