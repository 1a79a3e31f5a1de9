#include "operated.h"
#include "access.h"
#include "ending.h"
#include "notify.h"
#include "report.h"
#include <signal.h>
#include <stdio.h>
#include <stdlib.h>
#include <string.h>
#include <unistd.h>

enum { SEGMENTS = 256, QLOG, IDLE };

operated chosen = {.count = 1, .drain = 60};
static volatile sig_atomic_t asked_to_reload, asked_for_counts;

/* ---- options ---- */

void operated_number(struct argp_state *state, const char *text, unsigned long long *number) {
  char *end;
  *number = *text >= '0' && *text <= '9' ? strtoull(text, &end, 10) : 0;
  if (*text < '0' || *text > '9' || *end) argp_error(state, "not a number: %s", text);
}

static void add_pair(struct argp_state *state, char *text) {
  char *key = strchr(text, ',');
  if (!key || chosen.count == OPERATED_PAIRS) argp_error(state, "not FILE,KEY, or more than %d: %s", OPERATED_PAIRS - 1, text);
  *key++ = 0;
  chosen.pairs[chosen.count++] = (quic_pair){text, key};
}

static error_t read_option(int key, char *text, struct argp_state *state) {
  unsigned long long number = 0;
  if (key == 'n' || key == 'h' || key == IDLE) operated_number(state, text, &number);
  switch (key) {
  case 'c': add_pair(state, text); return 0;
  case 'n': chosen.quic.connections = (size_t)number; return 0;
  case 'h': chosen.quic.handshakes = (size_t)number; return 0;
  case IDLE:
    if (number == 0 || number > 3600) argp_error(state, "not from 1 to 3600: %s", text);
    chosen.quic.idle = number;
    return 0;
  case 'd': operated_number(state, text, &chosen.drain); return 0;
  case 'l': chosen.log = text; return 0;
  case QLOG: chosen.qlog = text; return 0;
  case SEGMENTS: chosen.quic.one_by_one = true; return 0;
  default: return ARGP_ERR_UNKNOWN;
  }
}

static const struct argp_option known[] = {
    {"certificate", 'c', "FILE,KEY", 0, "one more certificate and its key, for clients that ask for its name", 0},
    {"connections", 'n', "N", 0, "at most so many of clients at once: a further one is refused (10000)", 0},
    {"handshakes", 'h', "N", 0, "while so many have not ended, a client has to show its address by Retry (100)", 0},
    {"idle", IDLE, "SECONDS", 0, "a connection ends after so long a silence (30)", 0},
    {"drain", 'd', "SECONDS", 0, "what was begun has so long at the end (60)", 0},
    {"log", 'l', "FILE", 0, "a line for each request; - is standard output", 0},
    {"qlog", QLOG, "FOLDER", 0, "a file of the events of HTTP/3 there for each connection of a client, for debugging", 0},
    {"no-segments", SEGMENTS, NULL, 0, "a system call for each packet, as a capture at the socket needs", 0},
    {0}};

const struct argp operated_options = {known, read_option, NULL, NULL, NULL, NULL, NULL};

error_t operated_words(int key, char *text, struct argp_state *state, const char **words, unsigned count) {
  if (key == ARGP_KEY_ARG && state->arg_num < count) words[state->arg_num] = text;
  else if (key == ARGP_KEY_ARG || (key == ARGP_KEY_END && state->arg_num < count)) argp_usage(state);
  else if (key != ARGP_KEY_END) return ARGP_ERR_UNKNOWN;
  return 0;
}

void operated_read(const struct argp *parser, int count, char **arguments) {
  quic_limits_default(&chosen.quic);
  argp_err_exit_status = 2;
  argp_parse(parser, count, arguments, 0, NULL, NULL);
}

/* ---- the server ---- */

static void on_signal(int signal) {
  if (signal == SIGHUP) asked_to_reload = 1;
  else asked_for_counts = 1;
}

bool operated_begin(const char *certificate, const char *key) {
  const struct sigaction action = {.sa_handler = on_signal};
  chosen.pairs[0] = (quic_pair){certificate, key};
  const char *missing = !access_open(chosen.log)                               ? chosen.log
                        : chosen.qlog && access(chosen.qlog, W_OK | X_OK) != 0 ? chosen.qlog
                                                                               : NULL;
  if (missing) perror(missing);
  sigaction(SIGHUP, &action, NULL);
  sigaction(SIGUSR1, &action, NULL);
  ending_await();
  return !missing;
}

static quic_identity identity(void) { return (quic_identity){.pairs = chosen.pairs, .count = chosen.count}; }

quic_socket *operated_listen(const char *address, const char *port, const quic_events *events, void *user) {
  const quic_identity shown = identity();
  return quic_listen(address, port, &shown, &chosen.quic, events, user);
}

static void reload(quic_socket *socket) {
  const quic_identity shown = identity();
  asked_to_reload = 0;
  notify("RELOADING=1");
  if (!access_open(chosen.log)) perror(chosen.log);
  if (quic_show(socket, &shown)) fprintf(stderr, "the certificates were read again\n");
  notify("READY=1");
}

void operated_tick(quic_socket *socket, void (*show)(void)) {
  static bool is_ready, is_ending;
  if (!is_ready) notify("READY=1");
  is_ready = true;
  if (ending_begun() && !is_ending) notify("STOPPING=1");
  is_ending = ending_begun();
  if (asked_to_reload) reload(socket);
  if (asked_for_counts) {
    asked_for_counts = 0;
    access_show(socket);
    if (show) show();
    report_usage();
  }
  access_flush();
  report_sweep();
}

void operated_end(void) { access_close(); }
