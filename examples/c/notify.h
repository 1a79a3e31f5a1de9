/* Tells the service manager how far a server is, as sd_notify(3) of systemd does. */
#ifndef EXAMPLES_NOTIFY_H
#define EXAMPLES_NOTIFY_H

/* "READY=1" and so on goes to the socket that NOTIFY_SOCKET names; nothing happens if there is none. */
void notify(const char *state);
#endif
