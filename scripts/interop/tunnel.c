/* tunnel TRUSTED PORT PROTOCOL PATH HOW COUNT: extended CONNECT (RFC 9220) of a protocol, through a proxy. COUNT capsules of 8 bytes, each a datagram
 * with its number (RFC 9297, section 3.5), go out and then the end; what comes back from /echo has to be the same.
 *
 *   turns    each goes when the one before has come back
 *   all      as fast as they can
 *   at once  as `all`, and before an answer came
 *   after    as `all`, when the server's end has come
 *   still    as `all`, but nothing is read until for a second nothing more went: the bytes that did are printed
 *   deaf     as `all`, and when the first bytes come, STOP_SENDING
 *   reset    as `all`, and when all came back, a reset with H3_CONNECT_ERROR instead of the end
 *   none     nothing goes, nor an end
 *   open     as `none`, and it stays after the server's end until STOP_SENDING comes, which is printed
 *
 * It prints the status, how many bytes came, and 'ended' for the server's end, 'sent' if the proxy has all, or why there is no more. */
#include "http3.h"
#include <stdio.h>
#include <stdlib.h>
#include <string.h>

enum { CAPSULE = 8, PIECE = 4000, STILL = 1000 }; /* of a piece whole capsules; milliseconds */

static const char *protocol, *path, *how;
static http3 *connection;
static http3_request *request;
static size_t total, sent, came;
static uint64_t still_until;
static bool is_open, is_over;

static bool is_how(const char *word) { return strcmp(how, word) == 0; }

/* DATAGRAM, its length, the context 0 of CONNECT-UDP, and a number. */
static uint8_t byte_at(size_t at) {
  size_t place = at % CAPSULE, number = at / CAPSULE;
  return place == 1 ? CAPSULE - 2 : place < 3 ? 0 : (uint8_t)(number >> 8 * (CAPSULE - 1 - place));
}

static void on_ready(http3 *h, void *user) {
  (void)user;
  connection = h;
}

/* How many bytes may have gone by now. */
static size_t due(void) {
  size_t turn = came / CAPSULE * CAPSULE + CAPSULE;
  return is_how("turns") && turn < total ? turn : total;
}

static void send_more(void) {
  uint8_t piece[PIECE];
  while (sent < due() && http3_room(request) > 0) {
    size_t count = due() - sent < PIECE ? due() - sent : PIECE;
    for (size_t i = 0; i < count; i++) piece[i] = byte_at(sent + i);
    if (!http3_body(request, piece, count)) abort();
    sent += count;
    if (still_until > 0) still_until = quic_time() + STILL;
    if (sent == total && !is_how("reset")) http3_finish(request);
  }
}

static void on_head(http3_request *of, const h3_item *item) {
  printf("%u", item->status);
  is_open = item->status / 100 == 2 && !is_how("after") && !is_how("none") && !is_how("open");
  if (item->status / 100 != 2 && of->sending) http3_finish(of);
  if (!is_how("still")) return;
  still_until = quic_time() + STILL;
  http3_pause(of);
}

static void on_room(http3_request *of) {
  (void)of;
  if (is_open) send_more();
}

static void on_body(http3_request *of, const uint8_t *bytes, size_t count) {
  for (size_t i = 0; strcmp(path, "/echo") == 0 && i < count; i++)
    if (bytes[i] != byte_at(came + i)) abort();
  came += count;
  if (is_how("deaf")) http3_ignore(of);
  if (!is_how("reset") || came < total) return;
  printf(" %zu\n", came);
  http3_give_up(of, H3_CODE_CONNECT_ERROR);
}

static void on_end(http3_request *of) {
  (void)of;
  printf(" %zu ended", came);
  is_open = is_how("after");
  is_over = !is_how("after") && !is_how("open");
}

static void on_failed(http3_request *of, const h3_item *item) {
  (void)of;
  printf(" %zu %s", came, http3_why(item));
  is_over = true;
}

static void on_stopped(http3_request *of) {
  (void)of;
  is_open = false;
  if (!is_how("open")) return;
  printf(" stopped");
  is_over = true;
}

/* Its stream is closed: QUIC has acknowledged all. */
static void on_freed(http3_request *of) {
  if (of->sent && !is_over) printf(" sent");
  is_over = true;
}

static void on_over(void *user, const quic_ending *ending) { (void)user, (void)ending; }

static void ask(void) {
  const http3_field fields[] = {{":method", "CONNECT"}, {":protocol", protocol}, {":scheme", "https"}, {":authority", "localhost"}, {":path", path},
                                {"capsule-protocol", "?1"}};
  bool is_going_away;
  request = http3_open(connection, &is_going_away);
  is_over = !request || !http3_head_of(request, fields, strcmp(protocol, "connect-udp") == 0 ? 6 : 5);
  if (is_over) printf("refused here");
  is_open = is_how("at once");
  if (is_open && !is_over) send_more();
}

/* What went while nothing was read; then all is read. */
static void go_on(void) {
  printf(" %zu", sent);
  still_until = 0;
  http3_resume(request);
}

int main(int words_count, char **words) {
  static const http3_events events = {.ready = on_ready, .head = on_head, .body = on_body, .end = on_end, .failed = on_failed,
                                      .stopped = on_stopped, .room = on_room, .freed = on_freed, .over = on_over};
  http3_setup setup = {.events = &events};
  if (words_count != 7) return 2;
  quic_identity identity = {.trusted = words[1]};
  protocol = words[3], path = words[4], how = words[5];
  total = CAPSULE * strtoul(words[6], NULL, 10);
  quic_socket *socket = quic_connect("127.0.0.1", words[2], "localhost", &identity, NULL, &http3_over_quic, &setup);
  if (!socket) return 1;
  for (uint64_t last = quic_time() + 20000; !is_over && quic_time() < last && quic_turn(socket, 100) > 0;) {
    if (!request && connection && http3_has_settings(connection)) ask();
    if (still_until > 0 && quic_time() >= still_until) go_on();
  }
  bool is_done = is_over;
  quic_free(socket);
  puts("");
  return is_done ? 0 : 1;
}
