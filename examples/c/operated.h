/* What an operator asks of a server, of serve and proxy alike: options, certificates, a log, signals, and what the service manager learns. */
#ifndef EXAMPLES_OPERATED_H
#define EXAMPLES_OPERATED_H
#include "quic.h"
#include <argp.h>

enum { OPERATED_PAIRS = 16 };

typedef struct {
  quic_pair pairs[OPERATED_PAIRS]; /* the first one stands among the words */
  size_t count;
  quic_limits quic;
  const char *log, *qlog;   /* NULL: none */
  unsigned long long drain; /* seconds */
} operated;

extern operated chosen;
/* The options: a child of the program's own. */
extern const struct argp operated_options;

/* The number that an option has, which ends the program if it is none. */
void operated_number(struct argp_state *, const char *text, unsigned long long *number);
/* Reads the options and words into `chosen` and what the program's parser sets; what is not known ends the program with 2. */
void operated_read(const struct argp *, int count, char **arguments);
/* For that parser: takes so many words, of what is no option of the program's. */
error_t operated_words(int key, char *text, struct argp_state *, const char **words, unsigned count);
/* Takes the first certificate, opens the log, and awaits the signals. false: standard error says why. */
bool operated_begin(const char *certificate, const char *key);
/* The server's socket, which shows the certificates. NULL: standard error says why. */
quic_socket *operated_listen(const char *address, const char *port, const quic_events *, void *user);
/* What is to be done again and again. `show` writes further counts, and may be NULL. */
void operated_tick(quic_socket *, void (*show)(void));
void operated_end(void);
#endif
