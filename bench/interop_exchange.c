/* An endpoint of build/c/libbeanwhile_h3.a beside one of nghttp3, in both roles: requests and responses with trailers, in random cuts, without a dynamic table and
 * with tables that fill. Each message has to come out as it was sent, with the fields that are never to be indexed marked so. */
#include "interop_exchange.h"
#include <stdio.h>
#include <stdlib.h>
#include <string.h>

enum { UNDER_WAY = 20, LONGEST_CUT = 3000 };

static uint64_t state = 88172645463325252u;

static size_t below(size_t most) {
  state ^= state << 13;
  state ^= state >> 7;
  state ^= state << 17;
  return (size_t)(state >> 11) % most;
}

/* Carries what waits at one end to the other, in random cuts, until nothing is left. Answers whether there was anything. */
static int carry_all(const conn_end *from, const conn_end *to) {
  static uint8_t bytes[LONGEST_CUT];
  uint64_t id;
  size_t len;
  int fin, any = 0;
  while (from->next(from->data, &id, bytes, 1 + below(sizeof bytes), &len, &fin)) {
    to->take(to->data, id, bytes, len, fin);
    any = 1;
  }
  return any;
}

static void settle(const conn_end *one, const conn_end *other) {
  while (carry_all(one, other) | carry_all(other, one)) continue;
}

/* In order of names, those of one name as they stood: h3.h lists all fields of one name behind the first of them. */
static int in_order(const void *one, const void *other) {
  const nghttp3_nv *a = *(const nghttp3_nv *const *)one, *b = *(const nghttp3_nv *const *)other;
  size_t len = a->namelen < b->namelen ? a->namelen : b->namelen;
  int found = memcmp(a->name, b->name, len);
  if (!found) found = (a->namelen > b->namelen) - (a->namelen < b->namelen);
  return found ? found : (a > b) - (a < b);
}

static pack sorted(const field_list *list) {
  const nghttp3_nv **fields = calloc(list->count + 1, sizeof *fields);
  for (size_t i = 0; i < list->count; i++) fields[i] = &list->fields[i];
  qsort(fields, list->count, sizeof *fields, in_order);
  pack all = {0};
  for (size_t i = 0; i < list->count; i++) {
    put_string(&all, fields[i]->name, fields[i]->namelen);
    put_string(&all, fields[i]->value, fields[i]->valuelen);
    put_bytes(&all, &fields[i]->flags, 1);
  }
  free(fields);
  return all;
}

static int same_list(const field_list *one, const field_list *other) {
  pack a = sorted(one), b = sorted(other);
  int same = a.len == b.len && (a.len == 0 || !memcmp(a.bytes, b.bytes, a.len));
  free_pack(&a);
  free_pack(&b);
  return same;
}

static int same_message(const message *sent, const message *got) {
  return got->is_whole && same_list(&sent->head, &got->head) && same_list(&sent->trailer, &got->trailer) &&
         sent->body.len == got->body.len && (sent->body.len == 0 || !memcmp(sent->body.bytes, got->body.bytes, sent->body.len));
}

/* a message with a body and a trailer of random lengths, of which some fields are never to be indexed */
static message message_of(const field_list *head) {
  static nghttp3_nv checksums[] = {{(uint8_t *)"checksum", (uint8_t *)"", 8, 0, NGHTTP3_NV_FLAG_NONE},
                                   {(uint8_t *)"checksum", (uint8_t *)"12345678", 8, 8, NGHTTP3_NV_FLAG_NONE},
                                   {(uint8_t *)"checksum", (uint8_t *)"9abcdef0", 8, 8, NGHTTP3_NV_FLAG_NEVER_INDEX}};
  message made = {.head = *head, .is_whole = 1};
  for (size_t i = 0; i < head->count; i++) head->fields[i].flags = below(8) ? NGHTTP3_NV_FLAG_NONE : NGHTTP3_NV_FLAG_NEVER_INDEX;
  size_t len = below(4) ? below(20000) : 0;
  for (size_t i = 0; i < len; i++) {
    uint8_t byte = (uint8_t)below(256);
    put_bytes(&made.body, &byte, 1);
  }
  if (len && below(2)) made.trailer = (field_list){&checksums[below(3)], 1};
  return made;
}

void keep_field(field_list *to, const uint8_t *name, size_t name_len, const uint8_t *value, size_t value_len, uint8_t flags) {
  pack kept = {0};
  put_bytes(&kept, name, name_len);
  put_bytes(&kept, value, value_len);
  to->fields = realloc(to->fields, (to->count + 1) * sizeof *to->fields);
  to->fields[to->count++] = (nghttp3_nv){kept.bytes, kept.bytes + name_len, name_len, value_len, flags};
}

static void free_list(field_list *list) {
  for (size_t i = 0; i < list->count; i++) free((void *)list->fields[i].name);
  free(list->fields);
}

void free_messages(message *all, size_t count) {
  for (size_t i = 0; i < count; i++) {
    free_list(&all[i].head);
    free_list(&all[i].trailer);
    free_pack(&all[i].body);
  }
  free(all);
}

static size_t run(const conn_end *client, const conn_end *server, const field_lists *requests, const field_lists *responses) {
  size_t right = 0;
  settle(client, server);
  for (size_t i = 0; i < requests->count; i += UNDER_WAY) {
    message sent[2][UNDER_WAY] = {{{{0}}}};
    size_t count = requests->count - i < UNDER_WAY ? requests->count - i : UNDER_WAY;
    for (size_t j = 0; j < count; j++) {
      sent[0][j] = message_of(&requests->lists[i + j]);
      client->send(client->data, 4 * (i + j), &sent[0][j]);
    }
    settle(client, server);
    for (size_t j = 0; j < count; j++) {
      sent[1][j] = message_of(&responses->lists[i + j]);
      server->send(server->data, 4 * (i + j), &sent[1][j]);
    }
    settle(client, server);
    for (size_t j = 0; j < count; j++) {
      right += same_message(&sent[0][j], server->got(server->data, 4 * (i + j)));
      right += same_message(&sent[1][j], client->got(client->data, 4 * (i + j)));
      free_pack(&sent[0][j].body);
      free_pack(&sent[1][j].body);
    }
  }
  return right;
}

static int check(int our_side, size_t table, size_t blocked, const field_lists *requests, const field_lists *responses) {
  conn_end ours = our_end(our_side, table, blocked, requests->count), peers = peer_end(!our_side, table, blocked, requests->count);
  size_t wanted = 2 * requests->count;
  size_t right = our_side ? run(&peers, &ours, requests, responses) : run(&ours, &peers, requests, responses);
  printf("%s exchanges: our %s and nghttp3's %s, table %zu/%zu: %zu of %zu messages as they were sent, with their flags\n", right == wanted ? "ok" : "failed",
         our_side ? "server" : "client", our_side ? "client" : "server", table, blocked, right, wanted);
  ours.free(ours.data);
  peers.free(peers.data);
  return right == wanted;
}

int main(int argc, char **argv) {
  const char *dir = argc > 1 ? argv[1] : "data";
  field_lists given = load_lists(dir, "requests"), answers = load_lists(dir, "responses");
  field_lists requests = with_value(&given, "requests", ":method", "POST"), responses = with_value(&answers, "responses", ":status", "200");
  static const size_t tables[][2] = {{0, 0}, {4096, 100}, {220, 2}};
  int good = 0, all = 0;
  for (size_t i = 0; i < sizeof tables / sizeof *tables; i++)
    for (int side = 0; side < 2; side++, all++) good += check(side, tables[i][0], tables[i][1], &requests, &responses);
  printf("%d passed, %d failed\n", good, all - good);
  return good < all;
}
