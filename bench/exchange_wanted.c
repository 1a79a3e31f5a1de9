/* What has to come out of exchanges, and the buffers of both contenders. */
#include "exchange.h"
#include <stdio.h>
#include <string.h>

uint8_t exchange_body[LONGEST_BODY], carried[MOST_CARRIED], copied[MOST_CARRIED];

static void count_sent(const field_lists *lists, size_t exchanges, size_t body, came_out *all) {
  *all = (came_out){.heads = exchanges, .ends = exchanges, .body = exchanges * body};
  for (size_t i = 0; i < exchanges; i++) {
    const field_list *list = &lists->lists[i % lists->count];
    all->fields += list->count;
    for (size_t j = 0; j < list->count; j++) all->field_bytes += list->fields[j].namelen + list->fields[j].valuelen;
  }
}

static void want(const char *who, const came_out *got, const came_out *sent) {
  if (memcmp(got, sent, sizeof *got)) {
    fprintf(stderr, "%s: %zu heads, %zu fields of %zu bytes, %zu of bodies, %zu ends; sent %zu, %zu, %zu, %zu, %zu\n", who, got->heads, got->fields,
            got->field_bytes, got->body, got->ends, sent->heads, sent->fields, sent->field_bytes, sent->body, sent->ends);
    stop("another thing came out than was sent", 0);
  }
}

void want_all(const char *who, const exchange_kind *kind, const came_out *at_server, const came_out *at_client) {
  came_out sent;
  count_sent(kind->requests, kind->exchanges, kind->request_body, &sent);
  want(who, at_server, &sent);
  count_sent(kind->responses, kind->exchanges, kind->response_body, &sent);
  want(who, at_client, &sent);
}
