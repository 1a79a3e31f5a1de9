/* Dates as HTTP has them (RFC 9110, section 5.6.7). */
#ifndef EXAMPLES_DATE_H
#define EXAMPLES_DATE_H
#include <stdbool.h>
#include <time.h>

enum { DATE_TEXT = 32 };

void date_text(time_t, char text[DATE_TEXT]);
/* Reads one of the form that senders have to write. false: it is not of that form. */
bool date_read(const char *text, time_t *);
#endif
