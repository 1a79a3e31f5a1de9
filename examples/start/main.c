/* A first program: a client's request goes to a server in the same program, and the server prints the fields that it received. */
#include <h3.h>
#include <stdio.h>

/* Carries what waits on all streams to the other endpoint, in place of QUIC. Returns the first answer that is not H3_OK. */
static uint32_t carry(h3_endpoint *from, h3_endpoint *to) {
  uint8_t buffer[4096];
  size_t n = 0;
  uint32_t is_last = 0, answer = H3_OK;
  for (uint64_t id = 0; !answer && h3_next_to_send(from, id, &id) == H3_OK; id++) {
    do {
      answer = h3_outgoing(from, id, buffer, sizeof buffer, &n, NULL, &is_last);
      if (!answer) answer = h3_deliver(to, id, buffer, n, NULL);
      if (!answer) answer = h3_advance(from, id, n);
    } while (!answer && n == sizeof buffer && !is_last);
    if (!answer && is_last) answer = h3_deliver_end(to, id, NULL);
    if (!answer && is_last) answer = h3_end_taken(from, id);
  }
  return answer;
}

static uint32_t ask(h3_endpoint *client, uint64_t *id) {
  static const h3_field_size sizes[] = {{7, 3}, {7, 5}, {10, 9}, {5, 1}};
  static const char fields[] = ":methodGET:schemehttps:authoritylocalhost:path/";
  uint32_t answer = h3_open_request(client, id, NULL);
  if (!answer) answer = h3_send_head(client, *id, sizes, NULL, 4, fields, sizeof fields - 1, NULL);
  return answer ? answer : h3_finish(client, *id, NULL);
}

static uint32_t print_request(h3_endpoint *server, uint64_t id) {
  h3_item item;
  h3_field_size sizes[16];
  char bytes[1024];
  uint32_t answer = h3_pull(server, id, &item);
  if (!answer) answer = h3_item_fields(server, sizes, NULL, 16, bytes, sizeof bytes);
  if (answer) return answer;
  const char *at = bytes;
  for (size_t i = 0; i < item.fields; at += sizes[i].name + sizes[i].value, i++) {
    printf("%.*s = %.*s\n", (int)sizes[i].name, at, (int)sizes[i].value, at + sizes[i].name);
  }
  return H3_OK;
}

int main(void) {
  h3_endpoint client = H3_NONE_YET, server = H3_NONE_YET;
  h3_config config;
  uint64_t id;
  h3_config_default(&config);
  uint32_t answer = h3_new(&client, &config, NULL);
  config.server = 1;
  if (!answer) answer = h3_new(&server, &config, NULL);
  if (!answer) answer = ask(&client, &id);
  if (!answer) answer = carry(&client, &server);
  if (!answer) answer = print_request(&server, id);
  if (answer) fprintf(stderr, "refused: %s\n", h3_answer_text(answer));
  h3_free(&client);
  h3_free(&server);
  return answer ? 1 : 0;
}
