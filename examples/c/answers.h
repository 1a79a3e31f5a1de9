/* What serve answers: files below a folder, and the count and SHA-256 of what is posted. */
#ifndef EXAMPLES_ANSWERS_H
#define EXAMPLES_ANSWERS_H
#include "http3.h"

/* Of an http3_setup, with its bytes of data for each request. */
extern const http3_events answers_events;
extern const size_t answers_data;
#endif
