/* settings_first PORT TRUSTED: asks a server for 90 bodies at once (/big.bin), and prints how many bytes of them came before the first byte of its
 * control stream, which has the settings (RFC 9114, section 7.2.4.2). */
#include "quic.h"
#include <stdio.h>
#include <stdlib.h>
#include <string.h>

enum { REQUESTS = 90, CONTROL = 3 };

static quic_connection *opened_connection;
static unsigned long long before;
static bool is_over;

static void *opened(quic_connection *connection, void *user) {
  static const uint8_t settings[] = {0, 4, 0};
  /* GET of /big.bin: fields of the static table (RFC 9204, appendix A), and literals with their names */
  static const uint8_t request[] = "\x01\x19\x00\x00\xd1\xd7\x50\x09localhost\x51\x08/big.bin";
  opened_connection = connection;
  quic_send(connection, quic_open(connection, true), settings, sizeof settings, false);
  for (int i = 0; i < REQUESTS; i++) quic_send(connection, quic_open(connection, false), request, sizeof request - 1, true);
  return user;
}

static void received(void *owner, int64_t stream, const uint8_t *bytes, size_t count, bool end) {
  (void)owner, (void)bytes, (void)end;
  if (stream == CONTROL) is_over = true;
  else if (stream % 4 == 0 && !is_over) before += count;
  quic_consumed(opened_connection, stream, count);
}

static void was_reset(void *owner, int64_t stream, uint64_t code) { (void)owner, (void)stream, (void)code; }
static void nothing(void *owner, int64_t stream) { (void)owner, (void)stream; }
static void fill(void *owner) { (void)owner; }
static void closed(void *owner, const quic_ending *ending) { (void)owner, (void)ending; }

int main(int count, char **words) {
  static const quic_events events = {opened, received, was_reset, nothing, nothing, fill, .closed = closed};
  quic_identity identity = {.trusted = count == 3 ? words[2] : NULL};
  quic_socket *socket = count == 3 ? quic_connect("127.0.0.1", words[1], "localhost", &identity, NULL, &events, &before) : NULL;
  if (!socket) return 1;
  for (uint64_t last = quic_time() + 10000; !is_over && quic_time() < last && quic_turn(socket, 100) > 0;) continue;
  quic_free(socket);
  printf("%llu\n", before);
  return is_over ? 0 : 1;
}
