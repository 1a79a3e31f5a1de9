/* The end of a server at SIGTERM and SIGINT: the first of them begins it, the second ends all at once. */
#ifndef ENDING_H
#define ENDING_H
#include "quic.h"

/* From here on the two signals no longer end the program. */
void ending_await(void);
/* Whether the first, and the second, have come. */
bool ending_begun(void);
bool ending_at_once(void);

/* Serves until a signal comes, then sends GOAWAY on each connection and refuses new ones, and what was begun goes on until it is over, so many
 * seconds have passed, or the next signal comes. `tick` is called every second, and more often; NULL: nothing is. */
void serve_until_ended(quic_socket *socket, uint64_t seconds, void (*tick)(quic_socket *));
#endif
