/* What drives one end of a session of ours: the steps of h3_bench_session_encode and h3_bench_session_decode. */
#ifndef SESSION_STEPS_H
#define SESSION_STEPS_H
#include "lists.h"

typedef struct {
  size_t count;
  pack steps;
} session_steps;

/* An encoder encodes the list of that number. */
void add_list(session_steps *of, size_t stream, size_t list);
/* A decoder decodes a section. */
void add_section(session_steps *of, size_t stream, const uint8_t *section, size_t len);
/* Either reads what the other end wrote beside its sections. */
void add_heard(session_steps *of, const uint8_t *bytes, size_t len);
/* What is handed in: `head`, the count and the steps. */
pack pack_steps(const session_steps *of, const pack *head);
/* The numbers and strings of what is handed out, from `place` on. */
size_t take_number(const uint8_t **place);
const uint8_t *take_string(const uint8_t **place, size_t *len);
/* An integer below the flag of an instruction (RFC 9204, section 4.1.1). */
void put_integer(pack *to, uint8_t flag, unsigned bits, size_t n);
#endif
