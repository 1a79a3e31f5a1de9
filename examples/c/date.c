#include "date.h"

static const char FORM[] = "%a, %d %b %Y %H:%M:%S GMT"; /* the program keeps the locale "C" */

void date_text(time_t time, char text[DATE_TEXT]) {
  struct tm parts;
  strftime(text, DATE_TEXT, FORM, gmtime_r(&time, &parts));
}

bool date_read(const char *text, time_t *time) {
  struct tm parts = {0};
  const char *end = strptime(text, FORM, &parts);
  if (!end || *end) return false;
  *time = timegm(&parts);
  return true;
}
