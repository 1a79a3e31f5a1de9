#include "ending.h"
#include "http3.h"
#include <signal.h>

static volatile sig_atomic_t asked_to_end; /* how often */

static void on_signal(int signal) {
  (void)signal;
  if (asked_to_end < 2) asked_to_end++;
}

void ending_await(void) {
  struct sigaction action = {.sa_handler = on_signal};
  sigaction(SIGTERM, &action, NULL);
  sigaction(SIGINT, &action, NULL);
}

bool ending_begun(void) { return asked_to_end > 0; }

bool ending_at_once(void) { return asked_to_end > 1; }

void serve_until_ended(quic_socket *socket, uint64_t seconds, void (*tick)(quic_socket *)) {
  while (!ending_begun()) {
    quic_turn(socket, 1000);
    if (tick) tick(socket);
  }
  uint64_t last = quic_time() + 1000 * seconds;
  quic_refuse_more(socket);
  do {
    quic_each(socket, http3_leave); /* on and on, also for those whose handshake ended just now */
    if (tick) tick(socket);
  } while (quic_turn(socket, 100) > 0 && !ending_at_once() && quic_time() < last);
}
