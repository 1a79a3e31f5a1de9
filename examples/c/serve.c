/* serve [OPTION..] ADDRESS PORT CERTIFICATE KEY FOLDER: the files below a folder, over HTTP/3. GET and HEAD give a file (of a folder
 * its index.html), or a range of it; POST is answered with the count and the SHA-256 of its body, which is stored nowhere. --help has the options.
 *
 * SIGTERM and SIGINT: GOAWAY on each connection; what was begun goes on until it is over, or --drain. The second signal ends it.
 * SIGHUP: reads the certificates again, for new connections, and opens the log again. SIGUSR1: counts, to standard error. */
#include "answers.h"
#include "ending.h"
#include "files.h"
#include "operated.h"
#include "types.h"
#include <stdio.h>

enum { WORDS = 5 };

static const char *words[WORDS]; /* address, port, certificate, key, folder */
static unsigned long long requests = 100000;

static const struct argp_option known[] = {
    {"requests", 'r', "N", 0, "at most so many on a connection: GOAWAY goes out when 100 are left (100000; 0: no limit)", 0}, {0}};

static error_t read_option(int key, char *text, struct argp_state *state) {
  if (key != 'r') return operated_words(key, text, state, words, WORDS);
  operated_number(state, text, &requests);
  return 0;
}

static void tick(quic_socket *socket) {
  operated_tick(socket, NULL);
  files_sweep();
}

static int serve(void) {
  http3_setup setup = {.server = true, .requests = requests, .data = answers_data, .qlog = chosen.qlog, .events = &answers_events};
  quic_socket *socket = operated_listen(words[0], words[1], &http3_over_quic, &setup);
  if (!socket) return 1;
  printf("serving %s at %s port %u\n", words[4], words[0], quic_port(socket));
  fflush(stdout);
  tick(socket);
  serve_until_ended(socket, chosen.drain, tick);
  quic_free(socket);
  return 0;
}

const char *argp_program_version = "serve of Beanwhile " H3_VERSION_TEXT;

int main(int count, char **arguments) {
  static const struct argp_child children[] = {{&operated_options, 0, NULL, 0}, {0}};
  static const struct argp parser = {known, read_option, "ADDRESS PORT CERTIFICATE KEY FOLDER",
                                     "Serves the files below FOLDER over HTTP/3.\vSIGTERM ends it when what was begun is over, a second one at "
                                     "once. SIGHUP reads the certificates and opens the log again. SIGUSR1 writes counts.",
                                     children, NULL, NULL};
  operated_read(&parser, count, arguments);
  bool is_there = files_begin(words[4]);
  if (!is_there) perror(words[4]);
  types_begin();
  int status = is_there && operated_begin(words[2], words[3]) ? serve() : 1;
  operated_end();
  types_end();
  files_end();
  return status;
}
