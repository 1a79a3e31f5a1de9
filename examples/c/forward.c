#include "forward.h"
#include <stdio.h>
#include <stdlib.h>
#include <string.h>
#include <sys/random.h>

static char via[40]; /* the value that is added */

void forward_begin(void) {
  unsigned long long chance = 0;
  if (getrandom(&chance, sizeof chance, 0) != sizeof chance) chance = quic_time();
  snprintf(via, sizeof via, "3 h3-proxy-%016llx", chance);
}

/* Fields of one hop. HTTP/3 has but `te` of them: a strict endpoint takes no message with another one, and this is for one that is not. */
static bool is_of_one_hop(const http3_line *line) {
  static const char *const names[] = {"connection", "keep-alive", "proxy-connection", "te", "transfer-encoding", "upgrade"};
  for (size_t i = 0; i < sizeof names / sizeof *names; i++)
    if (http3_is(line, names[i])) return true;
  return false;
}

/* Fields that no sender puts in a trailer section (RFC 9110, section 6.5.1): a server that did is not imitated. */
static bool is_for_heads(const http3_line *line) {
  static const char *const names[] = {
      "authorization", "proxy-authorization", "www-authenticate", "proxy-authenticate", "cookie", "set-cookie",
      "cache-control", "expect", "max-forwards", "pragma", "range", "if-match", "if-none-match", "if-modified-since",
      "if-unmodified-since", "if-range", "age", "date", "expires", "location", "retry-after", "vary",
      "content-encoding", "content-type", "content-range", "trailer"};
  for (size_t i = 0; i < sizeof names / sizeof *names; i++)
    if (http3_is(line, names[i])) return true;
  return false;
}

/* A server sends no content-length with 204, also not 0 (RFC 9110, section 8.6). */
static bool is_length(const http3_line *line) { return http3_is(line, "content-length"); }

/* The fields of a list that go on, never indexed where they came so (RFC 9204, section 7.1.3), and `more` of others. `stays` tells those that do not. */
static http3_list *pass(const http3_list *list, const http3_field *more, size_t count, bool (*stays)(const http3_line *)) {
  http3_line *lines = malloc((http3_count(list) + count) * sizeof *lines);
  size_t found = 0;
  if (!lines) return NULL;
  for (http3_at at = {0}; http3_next(list, &at, &lines[found]);)
    if (!is_of_one_hop(&lines[found]) && !(stays && stays(&lines[found]))) found++;
  for (; count > 0; more++, count--) lines[found++] = http3_line_of(more);
  http3_list *passed = http3_list_of_lines(lines, found);
  free(lines);
  return passed;
}

http3_list *forward_request(const http3_list *list, const char *client) {
  char te[16], forwarded[QUIC_PLACE + 32];
  http3_wanted wanted = {.name = "te", .value = te, .room = sizeof te, .optional = true};
  http3_field more[] = {{"via", via}, {"forwarded", forwarded}, {"te", "trailers"}};
  http3_find(list, &wanted, 1);
  snprintf(forwarded, sizeof forwarded, "for=\"%s\";proto=https", client);
  return pass(list, more, wanted.found && strcmp(te, "trailers") == 0 ? 3 : 2, NULL);
}

http3_list *forward_response(const http3_list *list) {
  char status[8];
  http3_wanted wanted = {.name = ":status", .value = status, .room = sizeof status};
  const http3_field more = {"via", via};
  bool is_empty = http3_find(list, &wanted, 1) && strcmp(status, "204") == 0;
  return pass(list, &more, 1, is_empty ? is_length : NULL);
}

http3_list *forward_trailer(const http3_list *list) { return pass(list, NULL, 0, is_for_heads); }

bool forward_is_loop(const http3_list *list) {
  http3_line line;
  for (http3_at at = {0}; http3_next(list, &at, &line);)
    if (http3_is(&line, "via") && memmem(line.value, line.value_count, via, strlen(via))) return true;
  return false;
}

bool forward_is_idempotent(const http3_list *list) {
  static const char *const methods[] = {"GET", "HEAD", "OPTIONS", "TRACE", "PUT", "DELETE"};
  char method[16];
  http3_wanted wanted = {.name = ":method", .value = method, .room = sizeof method};
  if (!http3_find(list, &wanted, 1)) return false;
  for (size_t i = 0; i < sizeof methods / sizeof *methods; i++)
    if (strcmp(method, methods[i]) == 0) return true;
  return false;
}
