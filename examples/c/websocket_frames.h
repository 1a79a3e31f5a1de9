/* The frames of a WebSocket whose messages go back to their sender (RFC 6455, section 5), by the library wslay: a server's side. No
 * message is kept: each piece of one goes back, as a frame, when it came. */
#ifndef EXAMPLES_WEBSOCKET_FRAMES_H
#define EXAMPLES_WEBSOCKET_FRAMES_H
#include <stdbool.h>
#include <stddef.h>
#include <stdint.h>

typedef struct websocket_frames websocket_frames;

/* Where frames go, as bytes. false: they cannot be sent. */
typedef bool websocket_writer(void *owner, const uint8_t *bytes, size_t count);

/* NULL: out of memory. */
websocket_frames *websocket_new(websocket_writer *, void *owner);
/* Reads bytes that came. Messages go back, pings are answered by pongs and a close by a close. If the client breaks a rule, a close goes
 * out that says so, as 1002. false: out of memory, or the writer failed. */
bool websocket_read(websocket_frames *, const uint8_t *bytes, size_t count);
/* Sends a close with a code of RFC 6455, section 7.4.1. After it nothing goes back, and only the client's close is
 * expected. false: as before. */
bool websocket_close(websocket_frames *, uint16_t code);
/* A close went out, and the client's came or is not waited for: nothing more is read or sent. */
bool websocket_is_over(const websocket_frames *);
void websocket_free(websocket_frames *);
#endif
