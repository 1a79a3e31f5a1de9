/* h3.h: one endpoint of an HTTP/3 connection (RFC 9114, with QPACK, RFC 9204), for programs that
 * have a QUIC library.
 *
 * IN SHORT
 *
 *   h3_endpoint e = H3_NONE_YET;
 *   h3_config c;
 *   h3_config_default(&c);                      // a client; c.server = 1 for a server
 *   if (h3_new(&e, &c, NULL)) return 1;         // its settings now wait on its control stream
 *
 *   uint64_t id;                                // a request: a header section, a body, the end
 *   h3_open_request(&e, &id, NULL);             // then QUIC opens the stream of this id
 *   h3_field_size f[4] = {{7,3},{7,5},{10,9},{5,1}};
 *   h3_send_head(&e, id, f, NULL, 4, ":methodGET:schemehttps:authoritylocalhost:path/", 47, NULL);
 *   h3_send_body_of(&e, id, body_len, NULL);    // its length: the bytes stay with you
 *   h3_finish(&e, id, NULL);
 *
 *   for (uint64_t s = 0; !h3_next_to_send(&e, s, &s); s++)   // what is to be sent: n bytes in the
 *     h3_outgoing(&e, s, buffer, room, &n, &past, &fin);     // buffer, then `past` of your body
 *                                               // QUIC took k of them: h3_advance(&e, s, k), and
 *                                               // with the FIN h3_end_taken(&e, s)
 *   do {                                        // QUIC received len bytes on stream s, and fin
 *     h3_read(&e, s, bytes, len, fin, &used, &item, NULL);   // the next item of the message:
 *     ..                                        // a section: h3_item_fields(&e, sizes, NULL, ..);
 *                                               // H3_BODY_GIVEN: item.len bytes of a body, from
 *     bytes += used, len -= used;               // bytes + item.number on
 *   } while (..);                               // until a pause, H3_END or a fault
 *   h3_free(&e);
 *
 * docs/QUICKSTART.md has this as a program.
 *
 * THE LIBRARY
 *
 * It opens no socket, starts no thread, keeps no clock, blocks nowhere, ends no process and prints
 * nothing. It asks malloc and realloc for memory, and each call says if these return NULL. Link
 * with libbeanwhile_h3.a and libbeanwhile_h3_shim.a (beanwhile-h3.pc names both).
 *
 * OWNERSHIP
 *
 * h3_endpoint is one pointer, owned by the caller. H3_NONE_YET (all bytes zero) holds no endpoint.
 * h3_new, h3_new_with and h3_new_resumed make an endpoint, and h3_free frees it: each that was made
 * needs one h3_free. A copy of the struct is the same endpoint: keep one, and move it as you like.
 * No call keeps a pointer of yours: you may free or change what you pass in as soon as it returns.
 * The library never returns pointers to its memory: bytes that you get are copied into your buffer,
 * but for a body in bytes that you gave to h3_read, which says where it lies. What does not fit
 * into a buffer is not lost: outgoing bytes wait until h3_advance, and an item stays until the next
 * h3_read or h3_pull.
 * Buffers and results of one call must not overlap each other, nor the h3_endpoint.
 *
 * POINTERS
 *
 * NULL may stand for `detail`, for `fin`, for a buffer that is to be filled (it has no room then),
 * and for bytes and sizes whose length or count is 0. NULL for an endpoint is the same as one that
 * holds none. Every other NULL is H3_ARGUMENT, and nothing is done: bytes, sizes or settings whose
 * length or count is not 0, a configuration, any other result.
 *
 * THREADS
 *
 * One call at a time on one endpoint (by a lock of yours). Different endpoints share nothing, so
 * they may be used on different threads at once. An endpoint may move from thread to thread between
 * calls. Never call from a signal handler, nor from the forked child of a process with threads.
 *
 * ANSWERS
 *
 * A call returns an h3_answer: H3_OK (0), or why it was refused. h3_version, h3_config_default,
 * h3_free, the ids and the texts return none. A refused call changed nothing, with these
 * exceptions: H3_CONNECTION of a delivery (the connection has its fault now), H3_KEPT (the bytes
 * were taken), and H3_MEMORY of the calls that send fields (some QPACK instructions may wait on the
 * local encoder stream; the request stream is as it was, and you can repeat the call) and of
 * h3_open_request_at (requests with lower ids may be open).
 * If there are several reasons, the first in the order of the call's comment is returned, but
 * H3_MEMORY may come before others. Many calls have a last argument `detail`, which may be NULL: it
 * gets the number that the reason names (below), else 0.
 * H3_NO_ENDPOINT, and H3_ARGUMENT because of a NULL or of more than 8 further settings, write
 * nothing. Any other refusal writes `detail`, and no other result unless the call's comment says
 * so.
 *
 * OUT OF MEMORY
 *
 * H3_MEMORY: malloc or realloc returned NULL. Nothing is lost and nothing leaks; you can repeat the
 * call. A sum of bytes past 2^56 counts as out of memory too. After H3_KEPT the next delivery reads
 * what was taken, or the next pull of a stream that may still deliver something: not of one whose
 * pull returns H3_END or a fault of the stream again. If there is no such stream, pull
 * h3_control_id, which delivers nothing. h3_close_stream and h3_cancel of a session's stream read
 * it too, if they need that. h3_finish, h3_reset, h3_advance, h3_end_taken, h3_outgoing,
 * h3_next_to_send, h3_priority, h3_next_request_id, h3_next_unblocked, h3_next_event,
 * h3_first_unseen, h3_is_drained, the calls for datagrams and capsules, the states and h3_free take
 * no memory.
 *
 * WHAT TO CALL FROM QUIC'S CALLBACKS
 *
 *   the handshake is done    h3_new (h3_new_resumed before it, if 0-RTT data is sent); open three
 *                            unidirectional streams before any other, so that QUIC gives them the
 *                            ids of the control, encoder and decoder stream: 2, 6, 10 of a client,
 *                            3, 7, 11 of a server (h3_control_id and so on). Let the peer open at
 *                            least three unidirectional streams (RFC 9114, section 6.2), and
 *                            request streams as others close.
 *   a request is to be sent  h3_open_request, and then a bidirectional stream of QUIC: both give 0,
 *                            4, 8, .. in turn (A REQUEST'S STREAM)
 *   stream data came, or     h3_read(id, bytes, len, fin), in order of the stream's bytes, and
 *   the stream's FIN         again with those that are left until a pause (H3_PENDING, H3_WAITING,
 *                            H3_NO_MESSAGES), H3_END or a fault. After data on a unidirectional
 *                            stream of the peer (id % 4 is 2 or 3) also pull (h3_pull) each stream
 *                            that h3_next_unblocked names, until a pause, H3_END or a fault, and
 *                            call h3_next_event until it returns H3_NONE.
 *   RESET_STREAM came        h3_deliver_reset(id, code), then pull; drop later data of that stream
 *   STOP_SENDING came        h3_reset(id), and send RESET_STREAM (RFC 9000, section 3.5)
 *   a DATAGRAM frame came    h3_read_datagram, if HTTP datagrams are announced
 *   data can be sent         h3_outgoing(id, buffer, ..): pass these bytes to QUIC, and after them
 *                            `past` bytes of the body that you hold (h3_send_body_of), if there
 *                            are such. Call h3_advance(id, n) with the n bytes that QUIC took of
 *                            both. If `fin` came as 1 and all bytes were taken, send FIN with them,
 *                            and call h3_end_taken(id) if you find streams by h3_next_to_send.
 *   credit (MAX_STREAM_DATA) below: for what is no longer held, not for what came
 *   data is acknowledged     nothing to call. The library forgets bytes at h3_advance. A QUIC
 *                            library that keeps no copy of what it sends (ngtcp2, msquic) needs the
 *                            bytes until they are acknowledged: keep the buffer that h3_outgoing
 *                            filled until then. One that copies (quic-go) needs nothing.
 *   the stream is closed     h3_close_stream(id) of a stream of a WebTransport session, and at a
 *                            client of each bidirectional stream that its server opened (id % 4 is
 *                            1); of a request nothing to call
 *   the connection closes    h3_free
 *
 * Read in the same way at a client and at a server. A server learns of a request by data on a new
 * stream with id % 4 == 0.
 *
 * A REQUEST'S STREAM
 *
 * QUIC and the library count request streams separately. If you allocate an id on one side only,
 * the ids never match again. If QUIC may have no room for a further stream, call h3_open_request
 * first. If it is refused, nothing was opened: open no stream of QUIC. If it gives an id and QUIC
 * has no room, keep the id for the next stream that QUIC opens, and do not call h3_open_request
 * until then. If QUIC says beforehand whether it has room, ask it, call h3_open_request, and open
 * the stream: then nothing is ever kept. Never open the stream of QUIC first: if h3_open_request is
 * then refused, QUIC has a stream without a request. h3_next_request_id shows the id or the
 * refusal, and opens nothing.
 *
 * HOW TO GRANT CREDIT (RFC 9000, section 4.1)
 *
 * What was delivered is kept until it is pulled or read, an unfinished frame or instruction whole,
 * up to unfinished_limit. h3_read keeps nothing of a body that lies in your bytes. Bytes of a
 * decoder stream before its side's settings are kept too, and count as unread: the stream's credit
 * bounds them.
 * Of a frame of an unknown type (RFC 9114, section 9) nothing is kept while it comes.
 * For each stream of the peer add up `owed`: the bytes that came and for which no credit was
 * granted. After h3_read reached a pause, or after a delivery and its pulls:
 *   h3_stream_state s; h3_stream(&e, id, &s);
 *   if (owed > s.unread) { grant(id, owed - s.unread); owed = s.unread; }
 * in QUIC, for the stream and for the connection. Do it for every stream with some owed after data
 * on a unidirectional stream, and after H3_KEPT. Then no stream keeps more than its window. A frame
 * that is larger than the window never becomes whole: reset its stream.
 *
 * WHICH CALL CAN FILL WHICH STREAM (so that you know which to look at; h3_next_to_send finds all)
 *
 *   h3_new, h3_new_with, h3_new_resumed     the local control, encoder and decoder stream
 *   h3_send_head, h3_send_trailer           that stream, and the local encoder stream
 *   h3_send_body, h3_send_body_of,          that stream
 *   h3_send_raw, h3_open_session_stream
 *   h3_finish                               no bytes; the end of that stream (h3_outgoing then says
 *                                           fin, with 0 bytes if none wait)
 *   h3_goaway, h3_shutdown_notice,          the local control stream
 *   h3_shutdown, h3_send_priority
 *   h3_read, h3_deliver, h3_deliver_end,    the local encoder stream (the peer's settings came),
 *   h3_deliver_reset, h3_pull               the local decoder stream (the peer's encoder stream was
 *                                           read, a section was decoded, a stream was canceled)
 *   h3_cancel, h3_close_stream              the local decoder stream; of a session's as above
 *   all others                              none
 *
 * If QUIC has no room for all, send the local control, encoder and decoder stream before request
 * streams: the peer's header sections may wait for them.
 *
 * WHAT IS CHECKED, AND WHAT YOU MUST CHECK
 *
 * Each endpoint checks names and values, that a header section is of the right side, that a trailer
 * section has no pseudo-header field, and the order of frames. With `strict` of h3_config, which
 * h3_config_default sets, it also checks:
 *   Each header and trailer section that it receives or is to send, by the rules that
 *     h3_malformation names (RFC 9114, sections 4.2 to 4.5). One that breaks a rule is not sent:
 *     H3_MALFORMED. docs/RFC.md lists the rules that are not checked.
 *   Received content is as long as content-length says (section 4.1.2). If DATA is longer than what
 *     is left, none of it is delivered; no H3_END and no H3_TRAILER comes before all of it:
 *     H3_BAD_CONTENT_LENGTH. At a client a response to HEAD, or with status 204 or 304, has no
 *     content, whatever content-length says; it goes by the request that it sent.
 *   In a tunnel only DATA comes (section 4.4): at a client after a 2xx response to CONNECT, at a
 *     server after the one that it sent, if its pull returned the request's header section before.
 *   Content that you send is as long as your content-length says: a body that passes it, and an end
 *     or a trailer section before it is reached, is H3_MALFORMED with H3_BAD_CONTENT_LENGTH. So is
 *     a body in a response to HEAD or with status 204, 205 or 304, and in a TRACE request, and a
 *     content-length in a 2xx response to CONNECT. A server checks this only if its pull returned
 *     the request's header section before it answers: so pull before you answer.
 *   A trailer section in a tunnel is not sent: H3_MALFORMED with H3_BAD_CONNECT. So is a trailer
 *     section after a 2xx response that a server sends before it pulled the request's header
 *     section: the request may be CONNECT, and the trailer would close the client's connection.
 * Send no empty trailer section: finish the stream. An empty one is correct, but some QPACK
 * decoders refuse it and close the connection.
 * You must check: that content is as long as was said in a message whose header section is too
 * large, and at a server that answers before it pulls; and without `strict` the whole list above.
 * What was delivered of a body stays delivered if the message turns out to be malformed later: if a
 * request must be whole before you act on it, wait for its H3_END.
 *
 * HOW A FAULT ENDS A STREAM OR THE CONNECTION
 *
 *   H3_CONNECTION of a delivery, or an item of kind H3_FAULT_CONNECTION: close the QUIC connection
 *     with the application error code in `detail` or `number`. Each later send, delivery and pull
 *     returns H3_CLOSED, H3_CONNECTION or H3_FAULT_CONNECTION with that code. The calls on what
 *     waits to be sent, on the last item and on states go on.
 *   H3_FAULT_MALFORMED: the message on this stream is malformed (RFC 9114, section 4.1.2). Send
 *     STOP_SENDING with 0x10e (H3_MESSAGE_ERROR), or at a server, if `number` is H3_NO_HEAD, with
 *     0x10d (H3_REQUEST_INCOMPLETE), or if it is H3_TOO_LONG with 0x107 (H3_EXCESSIVE_LOAD); and
 *     reset your half with that code (h3_reset, RESET_STREAM) or send a response with status 400
 *     (for H3_TOO_LONG 431). The connection goes on.
 *   H3_FAULT_RESET: the peer reset its half with the code in `number`. Your half goes on, or ends
 *     by h3_reset.
 *   H3_FAULT_CANCELED: you ended the stream by h3_cancel.
 *   H3_FAULT_MEMORY: nothing is lost: pull again later.
 *   H3_TOO_LARGE_HEAD: a header or trailer section above the local max_field_section_size, whose
 *     size is `number`, was skipped. A server may answer 431, a client may cancel.
 *     One whose frame is above unfinished_limit is H3_FAULT_MALFORMED with H3_TOO_LONG instead.
 *
 * SHUT DOWN (RFC 9114, section 5.2)
 *
 * A server:
 *   h3_shutdown_notice(&e, NULL);               // the client opens no request once this came
 *   .. go on for a round trip: each request that comes is processed ..
 *   h3_shutdown(&e, NULL);                      // GOAWAY: no request from h3_first_unseen on
 *   .. go on. A delivery of a later request is H3_REJECTED: deliver no more of that stream, and
 *      send RESET_STREAM and STOP_SENDING with H3_CODE_REQUEST_REJECTED ..
 *   if (!h3_is_drained(&e, &drained) && drained) .. close the connection with H3_CODE_NO_ERROR
 * A client that received a GOAWAY (h3_next_event) opens no request any more. Requests from its id
 * on, and those that were reset with H3_CODE_REQUEST_REJECTED, were not processed: send them again
 * on another connection. Of the others send again only idempotent ones (section 4.1.1).
 * To leave, it finishes its requests, and closes the connection when h3_is_drained says 1 or, if
 * its server sent no GOAWAY, when its requests have ended.
 *
 * WEBTRANSPORT (draft-ietf-webtrans-http3-02), with `sessions` of h3_config
 *
 * A session is a request of the client with :method CONNECT and :protocol webtransport, and a
 * response with status 200; its id is that of the request's stream. Both sides send and read
 * capsules on it (h3_read_capsule), and datagrams for it (h3_datagram_head). The session ends with
 * that stream, or by a capsule of type 0x2843.
 *   h3_open_session_stream(&e, session, both_ways, &id, NULL);   // then QUIC opens stream `id`
 *   h3_send_raw(&e, id, bytes, len, NULL);                       // and h3_finish, h3_reset
 * On such a stream every call is as on a request's, but header sections, bodies and trailer
 * sections. h3_read and h3_pull return H3_SESSION first, if the peer opened it, and then H3_RAW and
 * H3_END. A stream of the peer both ways is answered with h3_send_raw after its H3_SESSION. Before,
 * a server takes it for a request: a response that waits there is dropped then, but for its FIN,
 * and h3_hold no longer counts. It may come before the request of its session: keep it, or end it
 * with H3_CODE_WEBTRANSPORT_BUFFERED_STREAM_REJECTED.
 * When QUIC has closed a stream of a session call h3_close_stream: what came on it and was not
 * pulled is dropped, and nothing more of it may be delivered. Nothing is kept of it, but some 400
 * bytes of a peer's stream that goes one way, until the connection closes. A client also
 * calls it for each other stream both ways that its server opened (id % 4 is 1), which ended before
 * its H3_SESSION: it is H3_NOT_OPEN if nothing came of it. A session is over once one side ends or
 * resets its request's stream. Then end all its streams:
 *   for (uint64_t s = 0; !h3_next_of_session(&e, session, s, &s); s++)
 *     if (!h3_close_stream(&e, s, &stop_sending, &reset_stream, NULL)) .. send these frames with
 *       H3_CODE_WEBTRANSPORT_SESSION_GONE ..
 * An application resets a stream with a number of its own, which h3_webtransport_code makes a code.
 * End sessions before h3_shutdown: after it a server rejects each stream both ways that its client
 * opens, also of a session that goes on.
 *
 * WHAT IS PROVED, TESTED, TRUSTED: see crates/h3_c/README.md. You are trusted: pointers and lengths
 * are right, a handle is used as said above, malloc and realloc align to 16 bytes and belong to one
 * free. */
#ifndef H3_H
#define H3_H
#include <stddef.h>
#include <stdint.h>
#ifdef __cplusplus
extern "C" {
#endif

/* The version of this header: 0x00MMmmpp, major, minor and patch. Within a major version calls,
 * numbers and structs stay as they are, and new ones are added: a call, an answer, or a number at
 * the end of h3_config. */
#define H3_VERSION 0x010000
#define H3_VERSION_TEXT "1.0.0"

/* What h3_version adds if the library was built without its proofs (`make lib-unproved`). */
#define H3_UNPROVED UINT32_C(0x80000000)

/* The version of the library, in the format of H3_VERSION, with H3_UNPROVED added if it was not
 * proved. It supports everything in this header if the major versions match and
 *   (h3_version() & ~H3_UNPROVED) >= H3_VERSION */
static inline uint32_t h3_version(void);

/* Holds an endpoint, or none. Only the calls below read or write `at`. */
typedef struct {
  void *at;
} h3_endpoint;

#define H3_NONE_YET {0}

/* What a call returns: H3_OK, or why it was refused. */
enum h3_answer {
  H3_OK = 0,
  H3_CLOSED = 1,             /* the connection had a fault before; detail: its code */
  H3_CONNECTION = 2,         /* what was delivered is a fault of the connection, or there was one
                                before; detail: its code */
  H3_NOT_RECEIVING = 3,      /* the peer sends nothing on this stream */
  H3_AFTER_END = 4,          /* the stream's end or reset came before */
  H3_KEPT = 5,               /* the bytes (end, reset) were taken: do not deliver them again. An
                                allocation failed while they were read; the next delivery or pull
                                reads on */
  H3_NOT_CLIENT = 6,         /* only a client opens request streams */
  H3_GOING_AWAY = 7,         /* the peer's GOAWAY: it processes no request from this id on; detail:
                                the id */
  H3_IDS_USED_UP = 8,        /* there are no further ids below 2^62 */
  H3_NOT_OPEN = 9,           /* the stream is not open at this side */
  H3_OUT_OF_ORDER = 10,      /* not at this place of the message: first the header section, then
                                bodies, then a trailer section, then the end; or the request's id
                                is below the next one */
  H3_WRONG_SIDE = 11,        /* a client sends requests (:method), a server responses (:status) */
  H3_PSEUDO_IN_TRAILER = 12, /* a trailer section has no pseudo-header field */
  H3_TOO_LARGE = 13,         /* the field section is larger than the peer accepts; detail: its size
                                (RFC 9114, section 4.2.2) */
  H3_CRITICAL = 14,          /* the connection needs this stream */
  H3_ENDED = 15,             /* the stream has ended */
  H3_NOT_REQUEST_ID = 16,    /* a server's GOAWAY, a datagram, a priority that is sent, a session
                                and h3_open_request_at name a request stream: a multiple of 4 */
  H3_RAISED = 17,            /* an earlier GOAWAY had a lower id; detail: that id */
  H3_MEMORY = 18,            /* out of memory: nothing is lost */
  /* of h3_new */
  H3_TABLE_LIMIT = 19,       /* `table` is above 2^30 - 1 */
  H3_BLOCKED_LIMIT = 20,     /* `blocked` is above 65535 */
  H3_SETTING = 21,           /* a setting cannot be announced, as one of 2^62 or more; detail: the
                                setting's id */
  H3_UNFINISHED_LIMIT = 28,  /* `unfinished_limit` is not 0, and below 256 or four times
                              * max_field_section_size or `table` */
  /* of a list of fields: the first field that is refused decides */
  H3_FIELD_NAME = 22,        /* a name is empty, not in lower case, or an unknown one with ':';
                                detail: the field's index in the list, from 0 */
  H3_FIELD_VALUE = 23,       /* a value is not in the grammar of its name, or has white space around
                                it at a strict endpoint; detail: the field's index, from 0 */
  H3_FIELD_COUNT = 24,       /* there are more different names than fit (24,576) */
  /* of what is read */
  H3_NONE = 25,              /* there is no such stream, field or setting */
  H3_ROOM = 26,              /* the buffer is too small: nothing was written. The call's comment
                                says how much room is enough */
  /* of a strict endpoint */
  H3_MALFORMED = 27,         /* a strict peer would call the message malformed; detail: the
                                h3_malformation */
  /* of datagrams */
  H3_NO_DATAGRAMS = 29,      /* this side or the peer announced no HTTP datagrams, or the peer's
                                settings have not come and none are remembered (h3_new_resumed) */
  /* of a server that shuts down */
  H3_REJECTED = 30,          /* the request is rejected: nothing was delivered; detail:
                                H3_CODE_REQUEST_REJECTED */
  /* of WebTransport */
  H3_NO_SESSIONS = 31,       /* `sessions` of h3_config is 0; or the peer's settings have not come,
                              * or do not have what sessions need */
  /* programming errors */
  H3_ARGUMENT = 32,          /* an argument is out of the range that the call's comment gives, or a
                                NULL that may not be; nothing was done */
  H3_NO_ENDPOINT = 33        /* the h3_endpoint holds none */
};

/* The name of an answer, for a log: "H3_OK" for 0 and so on, or "an unknown answer". */
static inline const char *h3_answer_text(uint32_t answer) {
  switch (answer) {
    case H3_OK: return "H3_OK"; case H3_CLOSED: return "H3_CLOSED";
    case H3_CONNECTION: return "H3_CONNECTION"; case H3_NOT_RECEIVING: return "H3_NOT_RECEIVING";
    case H3_AFTER_END: return "H3_AFTER_END"; case H3_KEPT: return "H3_KEPT";
    case H3_NOT_CLIENT: return "H3_NOT_CLIENT"; case H3_GOING_AWAY: return "H3_GOING_AWAY";
    case H3_IDS_USED_UP: return "H3_IDS_USED_UP"; case H3_NOT_OPEN: return "H3_NOT_OPEN";
    case H3_OUT_OF_ORDER: return "H3_OUT_OF_ORDER"; case H3_WRONG_SIDE: return "H3_WRONG_SIDE";
    case H3_PSEUDO_IN_TRAILER: return "H3_PSEUDO_IN_TRAILER";
    case H3_TOO_LARGE: return "H3_TOO_LARGE";
    case H3_CRITICAL: return "H3_CRITICAL"; case H3_ENDED: return "H3_ENDED";
    case H3_NOT_REQUEST_ID: return "H3_NOT_REQUEST_ID"; case H3_RAISED: return "H3_RAISED";
    case H3_MEMORY: return "H3_MEMORY"; case H3_TABLE_LIMIT: return "H3_TABLE_LIMIT";
    case H3_BLOCKED_LIMIT: return "H3_BLOCKED_LIMIT"; case H3_SETTING: return "H3_SETTING";
    case H3_FIELD_NAME: return "H3_FIELD_NAME"; case H3_FIELD_VALUE: return "H3_FIELD_VALUE";
    case H3_FIELD_COUNT: return "H3_FIELD_COUNT"; case H3_NONE: return "H3_NONE";
    case H3_ROOM: return "H3_ROOM"; case H3_MALFORMED: return "H3_MALFORMED";
    case H3_UNFINISHED_LIMIT: return "H3_UNFINISHED_LIMIT";
    case H3_NO_DATAGRAMS: return "H3_NO_DATAGRAMS"; case H3_REJECTED: return "H3_REJECTED";
    case H3_NO_SESSIONS: return "H3_NO_SESSIONS";
    case H3_ARGUMENT: return "H3_ARGUMENT"; case H3_NO_ENDPOINT: return "H3_NO_ENDPOINT";
    default: return "an unknown answer";
  }
}

/* Error codes: RFC 9114, section 8.1; of QPACK RFC 9204, section 6; of datagrams and capsules RFC
 * 9297, section 5.2. */
#define H3_CODE_DATAGRAM_ERROR UINT64_C(0x33)
#define H3_CODE_NO_ERROR UINT64_C(0x100)
#define H3_CODE_GENERAL_PROTOCOL_ERROR UINT64_C(0x101)
#define H3_CODE_INTERNAL_ERROR UINT64_C(0x102)
#define H3_CODE_STREAM_CREATION_ERROR UINT64_C(0x103)
#define H3_CODE_CLOSED_CRITICAL_STREAM UINT64_C(0x104)
#define H3_CODE_FRAME_UNEXPECTED UINT64_C(0x105)
#define H3_CODE_FRAME_ERROR UINT64_C(0x106)
#define H3_CODE_EXCESSIVE_LOAD UINT64_C(0x107)
#define H3_CODE_ID_ERROR UINT64_C(0x108)
#define H3_CODE_SETTINGS_ERROR UINT64_C(0x109)
#define H3_CODE_MISSING_SETTINGS UINT64_C(0x10a)
#define H3_CODE_REQUEST_REJECTED UINT64_C(0x10b)
#define H3_CODE_REQUEST_CANCELLED UINT64_C(0x10c)
#define H3_CODE_REQUEST_INCOMPLETE UINT64_C(0x10d)
#define H3_CODE_MESSAGE_ERROR UINT64_C(0x10e)
#define H3_CODE_CONNECT_ERROR UINT64_C(0x10f)
#define H3_CODE_VERSION_FALLBACK UINT64_C(0x110)
#define H3_CODE_QPACK_DECOMPRESSION_FAILED UINT64_C(0x200)
#define H3_CODE_QPACK_ENCODER_STREAM_ERROR UINT64_C(0x201)
#define H3_CODE_QPACK_DECODER_STREAM_ERROR UINT64_C(0x202)

/* Of WebTransport (draft-ietf-webtrans-http3-02, section 8.5): a stream whose session is not there
 * yet, and one whose session has ended. */
#define H3_CODE_WEBTRANSPORT_BUFFERED_STREAM_REJECTED UINT64_C(0x3994bd84)
#define H3_CODE_WEBTRANSPORT_SESSION_GONE UINT64_C(0x170d7b68)

/* The name of a code, for a log, or "an unknown code". */
static inline const char *h3_code_text(uint64_t code) {
  switch (code) {
    case H3_CODE_DATAGRAM_ERROR: return "H3_DATAGRAM_ERROR";
    case H3_CODE_NO_ERROR: return "H3_NO_ERROR";
    case H3_CODE_GENERAL_PROTOCOL_ERROR: return "H3_GENERAL_PROTOCOL_ERROR";
    case H3_CODE_INTERNAL_ERROR: return "H3_INTERNAL_ERROR";
    case H3_CODE_STREAM_CREATION_ERROR: return "H3_STREAM_CREATION_ERROR";
    case H3_CODE_CLOSED_CRITICAL_STREAM: return "H3_CLOSED_CRITICAL_STREAM";
    case H3_CODE_FRAME_UNEXPECTED: return "H3_FRAME_UNEXPECTED";
    case H3_CODE_FRAME_ERROR: return "H3_FRAME_ERROR";
    case H3_CODE_EXCESSIVE_LOAD: return "H3_EXCESSIVE_LOAD";
    case H3_CODE_ID_ERROR: return "H3_ID_ERROR";
    case H3_CODE_SETTINGS_ERROR: return "H3_SETTINGS_ERROR";
    case H3_CODE_MISSING_SETTINGS: return "H3_MISSING_SETTINGS";
    case H3_CODE_REQUEST_REJECTED: return "H3_REQUEST_REJECTED";
    case H3_CODE_REQUEST_CANCELLED: return "H3_REQUEST_CANCELLED";
    case H3_CODE_REQUEST_INCOMPLETE: return "H3_REQUEST_INCOMPLETE";
    case H3_CODE_MESSAGE_ERROR: return "H3_MESSAGE_ERROR";
    case H3_CODE_CONNECT_ERROR: return "H3_CONNECT_ERROR";
    case H3_CODE_VERSION_FALLBACK: return "H3_VERSION_FALLBACK";
    case H3_CODE_QPACK_DECOMPRESSION_FAILED: return "QPACK_DECOMPRESSION_FAILED";
    case H3_CODE_QPACK_ENCODER_STREAM_ERROR: return "QPACK_ENCODER_STREAM_ERROR";
    case H3_CODE_QPACK_DECODER_STREAM_ERROR: return "QPACK_DECODER_STREAM_ERROR";
    case H3_CODE_WEBTRANSPORT_BUFFERED_STREAM_REJECTED:
      return "WEBTRANSPORT_BUFFERED_STREAM_REJECTED";
    case H3_CODE_WEBTRANSPORT_SESSION_GONE: return "WEBTRANSPORT_SESSION_GONE";
    default: return "an unknown code";
  }
}

/* ---- making and freeing ---- */

/* What an endpoint is and announces, in numbers of 64 bits; a later version may add some at the
 * end. A number that says whether is yes if it is not 0. Begin with h3_config_default: it writes
 * the size, and a value for every number. */
typedef struct {
  uint64_t size;                      /* of this struct in bytes, as the program was compiled. Leave
                                       * it as h3_config_default writes it */
  uint64_t max_field_section_size;    /* the largest field section that is accepted, below 2^62 (RFC
                                       * 9114, section 4.2.2: name, value and 32 for each field) */
  uint64_t max_webtransport_sessions; /* announced; below 2^62 */
  uint64_t table;                     /* capacity of the local decoder's dynamic table in bytes, at
                                       * most 2^30 - 1; 0: no table */
  uint64_t blocked;                   /* how many streams may wait for insertions into it, at most
                                       * 65535 */
  uint64_t grease;                    /* which reserved setting is sent, below 0x210842108421083;
                                       * any random number */
  uint64_t server;                    /* whether this side accepted the connection */
  uint64_t send_grease;               /* whether a reserved setting is sent (RFC 9114, section
                                       * 7.2.4.1) */
  uint64_t webtransport;              /* whether WebTransport is announced */
  uint64_t extended_connect;          /* whether extended CONNECT is announced (RFC 9220), as
                                       * WebSockets need it. any_protocol says which values
                                       * :protocol may have */
  uint64_t datagram;                  /* whether HTTP datagrams are announced (RFC 9297), as
                                       * h3_datagram_head asks for. QUIC has to announce its
                                       * max_datagram_frame_size too (RFC 9221, section 3) */
  uint64_t strict;                    /* whether header sections, trailer sections and content are
                                       * checked (RFC 9114, sections 4.1.2 and 4.2 to 4.5): see
                                       * h3_malformation and WHAT IS CHECKED */
  uint64_t count_acknowledgments;     /* whether a section acknowledgment tells the local encoder
                                       * that insertions arrived (RFC 9204, section 2.1.4). Many
                                       * decoders report most of them in no other way: without this
                                       * the encoder soon inserts no more. An increment that is 0 or
                                       * past what was inserted (section 4.4.3) then closes the
                                       * connection, with code 0x202 */
  uint64_t encoder_table;             /* the most bytes of the local encoder's dynamic table,
                                       * however many the peer announces: the lesser of both is set
                                       * and used (RFC 9204, section 3.2.3). 0: it uses no table,
                                       * and writes nothing on its stream. 2^30 - 1 and more: all
                                       * that the peer announces */
  uint64_t economical_table;          /* whether the local encoder avoids inserting fields that are
                                       * not repeated, and does not name entries that are soon
                                       * evicted (RFC 9204, section 2.1.1.1). If the peer lets no
                                       * stream wait (its `blocked` is 0), it inserts what it writes
                                       * as a literal, and names the entry once the peer reported
                                       * its arrival (section 2.1.2); without this the table stays
                                       * empty there */
  uint64_t unfinished_limit;          /* the longest frame, in bytes, that is kept until it is
                                       * whole: any known one but DATA. As soon as its type and
                                       * length came, a longer HEADERS frame makes its message
                                       * malformed (H3_TOO_LONG), and any other longer frame closes
                                       * the connection with 0x107 (H3_EXCESSIVE_LOAD): on a request
                                       * stream at the pull, on the control stream at the delivery.
                                       * A longer instruction of the peer's encoder or decoder
                                       * stream (RFC 9204, sections 4.3 and 4.4) closes it too.
                                       * 0: the least limit, at least 256 and four times the greater
                                       * of max_field_section_size and `table`. A peer that keeps to
                                       * these never exceeds it: the Huffman code writes a byte in
                                       * at most 30 bits. A lower limit is refused. 2^62 - 1 and
                                       * more, also as the least limit: there is no limit */
  uint64_t kept_ids;                  /* how many ids of streams that the peer canceled the local
                                       * encoder keeps (RFC 9204, section 4.4.2). If there is one
                                       * too many, it drops the lowest: from then on sections on
                                       * streams up to that id name no entry of the table, unless
                                       * one there is not yet acknowledged. So no cancellation is a
                                       * fault. Of the peer's GOAWAY frames the last id alone is
                                       * kept. 2^62 - 1 and more: all ids of both are kept */
  uint64_t reject_requests;           /* whether a server rejects requests from the id of its
                                       * last GOAWAY on: H3_REJECTED (1) */
  uint64_t any_protocol;              /* whether :protocol of a request may be any token of at most
                                       * 31 bytes, as websocket (RFC 8441, section 4; RFC 9220),
                                       * both ways. Without this it is connect-udp or webtransport,
                                       * and any other value is malformed (H3_BAD_VALUE). A server
                                       * answers 501 to a protocol that it does not know (RFC 9220,
                                       * section 3): that is left to you */
  uint64_t guard_secrets;             /* whether the local encoder sends each field that is known
                                       * to be a secret as if it had H3_NEVER_INDEX: authorization,
                                       * proxy-authorization, and cookie and set-cookie with a value
                                       * below 20 bytes (RFC 9204, section 7.1.3). Without this the
                                       * flags that you give are sent as they are */
  uint64_t shortest_strings;          /* whether the local encoder writes a name or value as it
                                       * stands if its Huffman code is not shorter (RFC 9204,
                                       * section 4.1.2). Without this each is Huffman coded, and one
                                       * of rare bytes takes up to four times its length */
  uint64_t strict_connection;         /* whether these rules are enforced. 0x109 closes the
                                       * connection if setting 0x33 (RFC 9297, section 2.1.1) or, at
                                       * a client, setting 8 (RFC 8441, section 3) is neither 0 nor
                                       * 1. If `webtransport` is set, so does 0x2b603742 with
                                       * another value than 0 and 1, and 0x2b603742 without 0x33.
                                       * 0x10a closes it if the first frame of the control stream is
                                       * not SETTINGS; a frame of unknown type is not allowed there
                                       * either (RFC 9114, section 6.2.1). 0x201 or 0x202 closes it,
                                       * in place of 0x107, if an instruction is too long (RFC 9204,
                                       * section 7.4). 0x108 closes it if the id of a WebTransport
                                       * session is that of no request stream. 0x200 closes it if a
                                       * field section names an entry of the dynamic table from its
                                       * required insert count on (RFC 9204, section 2.2.3), or if
                                       * `table` is 0 and its encoded count or sign is not (4.5.1.1
                                       * and 4.5.1.2). If `webtransport` is not set, frames of type
                                       * 0x41 and streams of type 0x54 are of unknown type: they are
                                       * ignored (RFC 9114, section 9), and no H3_SESSION is
                                       * returned. After the peer's GOAWAY a client sends no header
                                       * section on a stream on which nothing was sent:
                                       * H3_GOING_AWAY (RFC 9114, section 5.2). `webtransport`
                                       * without `datagram` is refused: H3_SETTING */
  uint64_t priority_updates;          /* of how many streams a server keeps what PRIORITY_UPDATE
                                       * frames said (RFC 9218, section 7.2), until
                                       * h3_next_by_priority uses it: at most 128, and a greater
                                       * number is the same. While so many wait, what comes of a
                                       * further stream is dropped. With 0 such a frame is one of an
                                       * unknown type. Else these close the connection: 0x105 on a
                                       * request stream or at a client, 0x106 without an id, 0x108
                                       * for a push or for an id of no request stream, 0x101 with a
                                       * value that h3_priority_read refuses */
  uint64_t other_settings;            /* how many of the peer's settings are kept whose ids are not
                                       * known here, for h3_peer_setting: the first ones of its
                                       * SETTINGS frame, at most 64, and a greater number is the
                                       * same. A reserved id (RFC 9114, section 7.2.4.1) is never
                                       * kept. With 0 all of them are ignored (section 7.2.4) */
  uint64_t other_streams;             /* whether unidirectional streams of the peer are delivered
                                       * whose types are not known here (1): h3_stream_kind returns
                                       * H3_STREAM_OTHER for such a stream, h3_other_type its type,
                                       * and h3_read and h3_pull H3_RAW, H3_END and H3_FAULT_RESET.
                                       * Grant credit for them by `unread` as for all streams. One
                                       * of a reserved type (RFC 9114, section 6.2.3) or of
                                       * WebTransport's (0x54) is never an H3_STREAM_OTHER. With 0
                                       * what comes on them is dropped */
  uint64_t sessions;                  /* whether streams of WebTransport sessions can be opened and
                                       * answered (1): see WEBTRANSPORT. It needs `webtransport`,
                                       * `extended_connect` and `datagram`: else H3_SETTING, with
                                       * 0x2b603742, before any other refusal but H3_ARGUMENT. Then
                                       * also without `strict_connection` 0x108 closes the
                                       * connection if a session's id is that of no request stream.
                                       * A client takes streams both ways of its server (RFC 9114,
                                       * section 6.1), if they are of a session: any other closes it
                                       * with 0x103. With 0 the bytes of sessions are only read */
} h3_config;

/* A client with limits for an untrusted peer: it takes field sections of at most 65,536 bytes, and
 * has a dynamic table of 4,096 bytes, for which 16 streams may wait. It counts acknowledgments, and
 * the table of its encoder has at most 4,096 bytes and is used economically. It is strict, keeps
 * 1,000 ids of canceled streams and priority updates of 100 streams, and has reject_requests,
 * any_protocol, guard_secrets, shortest_strings and strict_connection set. All else is 0, so a
 * frame or instruction that it keeps until it is whole has at most 262,144 bytes: four times
 * 65,536. SECURITY.md says what each limit bounds. */
static inline void h3_config_default(h3_config *config);

/* Makes an endpoint in *endpoint, which is overwritten: what it held before is not freed. Its
 * control stream begins with the settings. A config that is shorter than the library's, because the
 * program was compiled with an older header, gets the values of h3_config_default for the rest.
 * Refused, in this order: H3_ARGUMENT (the size is not as h3_config_default writes it, from this
 * header or an older one of the same major version; grease out of range), H3_TABLE_LIMIT,
 * H3_BLOCKED_LIMIT, H3_SETTING, H3_UNFINISHED_LIMIT, H3_MEMORY. H3_ARGUMENT does nothing: *endpoint
 * is as it was. After any other refusal *endpoint holds none. */
static inline uint32_t h3_new(h3_endpoint *endpoint, const h3_config *config, uint64_t *detail);

/* A setting: its id, and its value. */
typedef struct {
  uint64_t id, value;
} h3_setting;

/* The same of an endpoint that announces further settings (RFC 9114, section 7.2.4), for an
 * extension that you speak: `count` of them, at most 8. They stand after the others, in the same
 * SETTINGS frame. Refused, in this order: H3_ARGUMENT (also more than 8), H3_TABLE_LIMIT,
 * H3_BLOCKED_LIMIT, H3_SETTING, H3_UNFINISHED_LIMIT, H3_SETTING of a further one (detail: the first
 * id that is 0, 2, 3, 4, 5 or 2^62 and more, that h3_config announces, that came before, or whose
 * value is 2^62 and more), H3_MEMORY. *endpoint is written as by h3_new. */
static inline uint32_t h3_new_with(h3_endpoint *endpoint, const h3_config *config,
                                   const h3_setting *further, size_t count, uint64_t *detail);

/* A client for a connection that sends 0-RTT data: it remembers settings of its server, which
 * h3_remember_settings of an earlier connection copied (RFC 9114, section 7.2.4.2). Until the
 * server's settings come it keeps to their limit of field sections (H3_TOO_LARGE) and, with
 * `strict`, sends :protocol if they allow it; datagrams go by them too. It uses no dynamic table
 * until then. With `len` 0 the defaults count, as of a connection whose settings were not kept.
 * Once they came ask h3_settings_kept. If the server rejected the 0-RTT data, free the endpoint and
 * make one by h3_new. Refused, in this order: H3_ARGUMENT (also if `server` is set, or
 * the bytes are no such settings), H3_TABLE_LIMIT, H3_BLOCKED_LIMIT, H3_SETTING,
 * H3_UNFINISHED_LIMIT, H3_SETTING as of h3_new_with, H3_MEMORY. */
static inline uint32_t h3_new_resumed(h3_endpoint *endpoint, const h3_config *config,
                                      const h3_setting *further, size_t count,
                                      const void *remembered, size_t len, uint64_t *detail);

/* Frees an endpoint and all that it keeps; *endpoint then holds none. If it held none, nothing is
 * done. */
static inline void h3_free(h3_endpoint *endpoint);

/* ---- sending ---- */

/* Opens the next request stream of a client: 0, 4, 8, .. Refused, in this order: H3_CLOSED,
 * H3_NOT_CLIENT, H3_GOING_AWAY, H3_IDS_USED_UP, H3_MEMORY. */
static inline uint32_t h3_open_request(h3_endpoint *endpoint, uint64_t *id, uint64_t *detail);

/* The id that h3_open_request gives next. It opens nothing, and takes no memory. Refused as
 * h3_open_request, except H3_MEMORY; *id is not written then. */
static inline uint32_t h3_next_request_id(h3_endpoint *endpoint, uint64_t *id, uint64_t *detail);

/* Opens the request whose id QUIC gave, and all with lower ids that are not open yet: for a program
 * whose QUIC library names the stream. Each that it opens takes memory, so pass no id far ahead.
 * Refused, in this order: H3_ARGUMENT (id not below 2^62), H3_CLOSED, H3_NOT_CLIENT, H3_GOING_AWAY,
 * H3_IDS_USED_UP, H3_NOT_REQUEST_ID, H3_OUT_OF_ORDER (the id is below the next one), H3_MEMORY
 * (requests with lower ids may be open now: call again). */
static inline uint32_t h3_open_request_at(h3_endpoint *endpoint, uint64_t id, uint64_t *detail);

/* How long a name and a value are, in bytes. */
typedef struct {
  uint32_t name, value;
} h3_field_size;

/* A flag of a field that is never indexed: its line has the bit N (RFC 9204, sections 4.5.4 to
 * 4.5.6). It is written as a literal, no table keeps it, and nothing of its value stays with the
 * encoder. Give it to fields with secrets (RFC 9204, section 7.1.3). A field that came with it has
 * to be sent on with it: pass the flags on with the fields. */
#define H3_NEVER_INDEX 1

/* Sends a header section: `count` fields, each of them and in their order. `bytes` has all names
 * and values (name, value, name, value, ..), and `len` is the sum of all sizes. `flags` is NULL, or
 * has a byte for each field: 0 or H3_NEVER_INDEX. Names are in lower case. Put pseudo-header fields
 * in front, each once: a peer may refuse another order (RFC 9114, section 4.3), and a strict
 * endpoint does not send it. A response with a status from 100 to 199 is an interim one: send a
 * further header section after it.
 * Refused, in this order: H3_ARGUMENT (id not below 2^62; len is not the sum; another flag),
 * H3_CLOSED, H3_NOT_OPEN, H3_OUT_OF_ORDER, H3_GOING_AWAY (with `strict_connection`, by a client
 * after the peer's GOAWAY), H3_FIELD_NAME, H3_FIELD_VALUE and H3_FIELD_COUNT (the first field that
 * is refused decides), H3_WRONG_SIDE, H3_MALFORMED (for white space around a value H3_FIELD_VALUE),
 * H3_TOO_LARGE, H3_MEMORY. (If memory is needed to check or to send the list, H3_MEMORY may come
 * before the refusals after H3_GOING_AWAY.) */
static inline uint32_t h3_send_head(h3_endpoint *endpoint, uint64_t id, const h3_field_size *sizes,
                                    const uint8_t *flags, size_t count, const void *bytes,
                                    size_t len, uint64_t *detail);

/* Sends a trailer section, after which only the end comes. Send no empty one: it is allowed, but
 * some peers close the connection over it. Refused as h3_send_head except H3_GOING_AWAY, but after
 * the refusals of the list: H3_PSEUDO_IN_TRAILER, H3_MALFORMED (or H3_FIELD_VALUE), H3_TOO_LARGE,
 * H3_MEMORY. */
static inline uint32_t h3_send_trailer(h3_endpoint *endpoint, uint64_t id,
                                       const h3_field_size *sizes, const uint8_t *flags,
                                       size_t count, const void *bytes, size_t len,
                                       uint64_t *detail);

/* Sends a piece of a body, as one DATA frame; no bytes write nothing. Refused, in this order:
 * H3_ARGUMENT (id not below 2^62), H3_CLOSED, H3_NOT_OPEN, H3_OUT_OF_ORDER, H3_MALFORMED (with
 * `strict`: more than content-length says), H3_MEMORY. */
static inline uint32_t h3_send_body(h3_endpoint *endpoint, uint64_t id, const void *bytes,
                                    size_t len, uint64_t *detail);

/* Sends a piece of a body of `len` bytes that stay with you: the library announces one DATA frame
 * of this length, and never reads the bytes. When they are to go out, h3_outgoing says so by
 * `past`. So a body is not copied, and nothing of it has to be in memory yet. Keep the bytes, or
 * the file, until QUIC needs them no more. 0 bytes write nothing. Refused, in this order:
 * H3_ARGUMENT (id not below 2^62), H3_CLOSED, H3_NOT_OPEN, H3_OUT_OF_ORDER, H3_MALFORMED (with
 * `strict`: more than content-length says), H3_MEMORY. */
static inline uint32_t h3_send_body_of(h3_endpoint *endpoint, uint64_t id, size_t len,
                                       uint64_t *detail);

/* The message is whole: FIN follows what waits (h3_outgoing says when). Takes no memory. Refused,
 * in this order: H3_ARGUMENT, H3_CLOSED, H3_NOT_OPEN, H3_OUT_OF_ORDER, H3_MALFORMED (with `strict`:
 * less was sent than content-length says). */
static inline uint32_t h3_finish(h3_endpoint *endpoint, uint64_t id, uint64_t *detail);

/* Sending on a stream ends here, and what waits is dropped: send RESET_STREAM with a code of your
 * choice. Takes no memory. Refused, in this order: H3_ARGUMENT, H3_CLOSED, H3_CRITICAL,
 * H3_NOT_OPEN, H3_ENDED (nothing is left to be sent: normal if both ends reset). */
static inline uint32_t h3_reset(h3_endpoint *endpoint, uint64_t id, uint64_t *detail);

/* You need nothing more of a request stream, or of the peer's half of a stream of a session: what
 * came on it is dropped, and so is what still comes; send STOP_SENDING. Every later pull of it
 * returns H3_FAULT_CANCELED. Refused, in this order: H3_ARGUMENT, H3_CLOSED, H3_CRITICAL,
 * H3_NOT_OPEN (also a stream of a session on which only this side sends, or one of the peer that
 * goes one way before its H3_SESSION), H3_ENDED (its end was pulled, its reset was delivered, its
 * message was malformed, or it was canceled), H3_MEMORY. */
static inline uint32_t h3_cancel(h3_endpoint *endpoint, uint64_t id, uint64_t *detail);

/* Ends a request stream both ways, as h3_cancel and then h3_reset do. A half that has ended stays
 * as it is, and is no refusal. *stop_sending is 1 if QUIC is to send STOP_SENDING, else 0, and
 * *reset_stream is 1 if it is to send RESET_STREAM, else 0: both with a code of your choice. Of a
 * stream of a session *reset_stream is 1 also if only its FIN waits, which it does until
 * h3_end_taken, and at a client if its server opened it and no session of it is known. Refused, and
 * neither is written, in this order: H3_ARGUMENT (id not below 2^62), H3_CLOSED, H3_CRITICAL,
 * H3_NOT_OPEN, H3_MEMORY: the stream is as it was, and the call again writes what it would have
 * written. */
static inline uint32_t h3_close_stream(h3_endpoint *endpoint, uint64_t id, uint32_t *stop_sending,
                                       uint32_t *reset_stream, uint64_t *detail);

/* Sends GOAWAY: a server announces that it processes no request from this id on (a multiple of 4),
 * a client no push (RFC 9114, section 5.2). With reject_requests, which h3_config_default sets, a
 * delivery on a request stream from this id on of which nothing came before is H3_REJECTED (SHUT
 * DOWN). Without it the call only announces: such a request is delivered like others; end it with
 * h3_cancel, h3_reset and H3_CODE_REQUEST_REJECTED. Refused, in this order: H3_ARGUMENT (id not
 * below 2^62), H3_CLOSED, H3_NOT_REQUEST_ID, H3_RAISED, H3_MEMORY. */
static inline uint32_t h3_goaway(h3_endpoint *endpoint, uint64_t id, uint64_t *detail);

/* The first step of SHUT DOWN: a GOAWAY with the greatest id, 2^62 - 4 of a server, 2^62 - 1 of a
 * client. The peer opens no further request once it came, and all that it sent until then is
 * processed. If a GOAWAY was sent before, H3_OK, and nothing is written. Refused, in this order:
 * H3_CLOSED, H3_MEMORY. */
static inline uint32_t h3_shutdown_notice(h3_endpoint *endpoint, uint64_t *detail);

/* The second step: a GOAWAY with h3_first_unseen of a server, with 0 of a client (it accepts no
 * push). If an earlier GOAWAY had that id or a lower one, H3_OK, and nothing is written. Refused,
 * in this order: H3_CLOSED, H3_IDS_USED_UP (every id was seen, and no GOAWAY was sent),
 * H3_MEMORY. */
static inline uint32_t h3_shutdown(h3_endpoint *endpoint, uint64_t *detail);

/* The first id of a request stream above all of which anything came (at a client: above all that
 * were opened): no request from there on was processed. 0 if there was none. Takes no memory, and
 * reads the streams that are not over. */
static inline uint32_t h3_first_unseen(h3_endpoint *endpoint, uint64_t *id);

/* *drained is 1 if nothing is left to be done, so that the connection can be closed without losing
 * a request, else 0. Then all of this is true: no request is to come (a server saw each one below
 * the id of its last GOAWAY; at a client a GOAWAY came from its server); each request stream was
 * pulled to H3_END or a fault of the stream, was canceled, or its reset was delivered; each was
 * finished or reset; all that waited on it was taken, and h3_end_taken was called for its FIN;
 * nothing waits on the local control stream, nor on a stream of a session. A server that names an
 * id above a request that never comes stays at 0: so give shutting down a deadline.
 * If you never call h3_end_taken, it stays 0 once a message was finished. After a fault of the
 * connection it says nothing: close the connection. Takes no memory, and reads the streams that are
 * not over. */
static inline uint32_t h3_is_drained(h3_endpoint *endpoint, uint32_t *drained);

/* ---- what waits to be sent ---- */

/* The lowest stream id, from `from` on, on which bytes or an end wait; local unidirectional streams
 * count too. H3_NONE if there is none (*id is not written then). An end waits from h3_finish until
 * h3_end_taken (or h3_reset), so no FIN is lost or sent twice. Call h3_end_taken for each FIN that
 * QUIC took, or the stream is named again. To send all:
 *   for (uint64_t id = 0; h3_next_to_send(&e, id, &id) == H3_OK; id++) ..
 * with h3_outgoing, h3_advance, and h3_end_taken if fin came and all bytes were taken. */
static inline uint32_t h3_next_to_send(h3_endpoint *endpoint, uint64_t from, uint64_t *id);

/* The stream that sends next by what counts of priorities (RFC 9218, section 10), to *id. H3_NONE,
 * with *id not written, if none does. The local control, encoder and decoder stream come first, in
 * this order. Of the request streams that h3_next_to_send names one of the least urgency is next.
 * Within an urgency the incremental streams and the first of the others take turns. A turn is over
 * when h3_advance takes bytes, so send as much at a time as you like. A stream that is held
 * (h3_hold) is skipped. If no priority was said, the lowest id is next. A stream of a session has
 * no priority: it takes turns with requests, and with others of sessions from the greatest id down.
 * What PRIORITY_UPDATE frames said (`priority_updates`) counts as soon as their stream is open. If
 * there is no memory for that, the next call tries once more. To send while QUIC takes bytes:
 *   while (h3_next_by_priority(&e, &id) == H3_OK) ..
 * with h3_outgoing, h3_advance and h3_end_taken, and h3_hold(&e, id, 1, NULL) if QUIC takes nothing
 * of this stream. */
static inline uint32_t h3_next_by_priority(h3_endpoint *endpoint, uint64_t *id);

/* A request stream has this priority from now on, whatever its client says: what a server knows
 * better (RFC 9218, section 8). `urgency` is from 0, the most urgent, to 7, and `incremental` 1 or
 * 0. Refused, in this order: H3_ARGUMENT (id not below 2^62, urgency above 7, incremental above 1),
 * H3_CLOSED, H3_NOT_REQUEST_ID, H3_NOT_OPEN, H3_MEMORY. */
static inline uint32_t h3_set_priority(h3_endpoint *endpoint, uint64_t id, uint32_t urgency,
                                       uint32_t incremental, uint64_t *detail);

/* The request of a stream asks for this priority: a server passes what h3_priority_read read of its
 * `priority` field. It counts unless a PRIORITY_UPDATE frame said another one, before the request
 * came or after, or you set one (h3_set_priority). Refused as h3_set_priority is. */
static inline uint32_t h3_set_initial_priority(h3_endpoint *endpoint, uint64_t id,
                                               uint32_t urgency, uint32_t incremental,
                                               uint64_t *detail);

/* The priority that counts of a request stream: the one that you set (h3_set_priority), else that
 * of the last PRIORITY_UPDATE frame, else that of its request (h3_set_initial_priority), else 3 and
 * 0. Refused, and nothing is written: H3_ARGUMENT (id not below 2^62), H3_NOT_OPEN. */
static inline uint32_t h3_priority(h3_endpoint *endpoint, uint64_t id, uint32_t *urgency,
                                   uint32_t *incremental);

/* Tells the server the priority of a response from now on, by a PRIORITY_UPDATE frame on the local
 * control stream (RFC 9218, section 7.2). A client alone does. Refused, in this order: H3_ARGUMENT
 * (id not below 2^62, urgency above 7, incremental above 1), H3_CLOSED, H3_NOT_CLIENT,
 * H3_NOT_REQUEST_ID, H3_NOT_OPEN, H3_ENDED (the response has come, or is not wanted), H3_MEMORY. */
static inline uint32_t h3_send_priority(h3_endpoint *endpoint, uint64_t id, uint32_t urgency,
                                        uint32_t incremental, uint64_t *detail);

/* QUIC has no credit for a stream (`held` 1), so that h3_next_by_priority skips it, or it has
 * credit again (`held` 0). A request stream that is open, one of a session on which this side
 * sends, or the local control, encoder or decoder stream. h3_next_to_send names a stream that is
 * held as any. Refused, in this order: H3_ARGUMENT (id not below 2^62, held above 1), H3_CLOSED,
 * H3_NOT_OPEN, H3_MEMORY. */
static inline uint32_t h3_hold(h3_endpoint *endpoint, uint64_t id, uint32_t held, uint64_t *detail);

/* Copies the first bytes that wait on a stream, as many as fit; *n says how many. If the next ones
 * are of a body that you hold (h3_send_body_of), *past says how many of them: pass QUIC the n bytes
 * and after them the next `past` bytes of your body, or as many of these as you like. Else *past is
 * 0. All go on waiting until h3_advance, which counts both. *fin is 1 if the stream is finished and
 * these n + past bytes are its last ones (0 bytes if none wait), else 0. On a stream that is not
 * open nothing waits. `past` may be NULL in a program that does not call h3_send_body_of. Refused:
 * H3_ARGUMENT (id not below 2^62, or `past` is NULL and bytes that you hold follow). */
static inline uint32_t h3_outgoing(h3_endpoint *endpoint, uint64_t id, void *buffer, size_t room,
                                   size_t *n, size_t *past, uint32_t *fin);

/* Removes the first n bytes that wait on a stream, also of a body that you hold: QUIC has them.
 * Refused: H3_ARGUMENT (id not below 2^62, or n is more than wait). */
static inline uint32_t h3_advance(h3_endpoint *endpoint, uint64_t id, size_t n);

/* QUIC took the FIN of a stream: h3_next_to_send names it no longer. H3_NONE, with nothing changed,
 * if no end was next: the stream is not finished or was reset, bytes still wait on it, or this call
 * was made before. Takes no memory. It changes nothing else: h3_outgoing says fin as before.
 * Refused: H3_ARGUMENT (id not below 2^62). */
static inline uint32_t h3_end_taken(h3_endpoint *endpoint, uint64_t id);

/* ---- what came ---- */

/* What h3_read and h3_pull return. Kinds below H3_PENDING, and H3_BODY_GIVEN, are items;
 * H3_PENDING, H3_WAITING and H3_NO_MESSAGES are pauses; the others are faults. */
enum h3_kind {
  H3_INTERIM = 1,           /* an interim response, of status 100 to 199: `fields`, `status` */
  H3_HEAD = 2,              /* the header section: `fields`, and of a response `status` */
  H3_BODY = 3,              /* a piece of the body: `len` bytes */
  H3_TRAILER = 4,           /* the trailer section: `fields` */
  H3_TOO_LARGE_HEAD = 5,    /* in place of a header or trailer section above the local limit;
                               number: its size */
  H3_SESSION = 6,           /* a WebTransport session begins; number: its id */
  H3_RAW = 7,               /* `len` bytes of a session, or of an H3_STREAM_OTHER */
  H3_END = 8,               /* the stream has ended, and all of it was delivered */
  H3_PENDING = 9,           /* the next item has not come yet */
  H3_WAITING = 10,          /* the next header or trailer section needs insertions from the peer's
                               encoder stream; number: how many in all */
  H3_NO_MESSAGES = 11,      /* the stream has no messages for this side */
  H3_FAULT_CONNECTION = 12, /* number: the code to close the connection with */
  H3_FAULT_MALFORMED = 13,  /* number: an h3_malformation */
  H3_FAULT_RESET = 14,      /* number: the peer's code */
  H3_FAULT_CANCELED = 15,
  H3_FAULT_MEMORY = 16,     /* nothing is lost: pull again */
  H3_BODY_GIVEN = 17        /* of h3_read alone, an item: a piece of the body that lies in the bytes
                               you gave: `len` bytes from byte `number` on */
};

/* The name of a kind, for a log, or "an unknown kind". */
static inline const char *h3_kind_text(uint32_t kind) {
  switch (kind) {
    case H3_INTERIM: return "H3_INTERIM"; case H3_HEAD: return "H3_HEAD";
    case H3_BODY: return "H3_BODY"; case H3_TRAILER: return "H3_TRAILER";
    case H3_TOO_LARGE_HEAD: return "H3_TOO_LARGE_HEAD"; case H3_SESSION: return "H3_SESSION";
    case H3_RAW: return "H3_RAW"; case H3_END: return "H3_END";
    case H3_PENDING: return "H3_PENDING"; case H3_WAITING: return "H3_WAITING";
    case H3_NO_MESSAGES: return "H3_NO_MESSAGES";
    case H3_FAULT_CONNECTION: return "H3_FAULT_CONNECTION";
    case H3_FAULT_MALFORMED: return "H3_FAULT_MALFORMED";
    case H3_FAULT_RESET: return "H3_FAULT_RESET";
    case H3_FAULT_CANCELED: return "H3_FAULT_CANCELED";
    case H3_FAULT_MEMORY: return "H3_FAULT_MEMORY";
    case H3_BODY_GIVEN: return "H3_BODY_GIVEN";
    default: return "an unknown kind";
  }
}

/* Why a message is malformed. Each endpoint checks the first six, in this order; those from 6 to 18
 * only if `strict` is set, and H3_TOO_LONG if there is an unfinished_limit. */
enum h3_malformation {
  H3_BAD_NAME = 0,
  H3_BAD_VALUE = 1, /* where `strict` is set also: white space stands around a value */
  H3_TOO_MANY = 2,
  H3_HEAD_OF_WRONG_SIDE = 3,
  H3_PSEUDO_FIELD_IN_TRAILER = 4,
  H3_NO_HEAD = 5,
  H3_LATE_PSEUDO_FIELD = 6,     /* a pseudo-header field stands behind a regular field (RFC 9114,
                                 * section 4.3) */
  H3_WRONG_PSEUDO_FIELD = 7,    /* a pseudo-header field is not of this side (4.3) */
  H3_REPEATED_PSEUDO_FIELD = 8, /* a pseudo-header field comes twice (4.3) */
  H3_CONNECTION_FIELD = 9,      /* a connection-specific field, or a te that is not "trailers" in a
                                 * request (4.2) */
  H3_BAD_CONTENT_LENGTH = 10,   /* no number, twice, or not with this status (RFC 9110, section
                                 * 8.6); at a server also: not as long as what came (4.1.2). In
                                 * sending also: with 204, with a 2xx response to CONNECT, and more
                                 * than 0 with 205 or TRACE */
  H3_BAD_PROTOCOL = 11,         /* :protocol without CONNECT, or where who receives it has not
                                 * announced it (RFC 8441, section 4; RFC 9220, section 3) */
  H3_BAD_CONNECT = 12,          /* plain CONNECT without a port in :authority (RFC 9110, section
                                 * 9.3.6), or with :scheme or :path (4.4); a trailer section that is
                                 * sent in a tunnel, or after a 2xx response to a request that was
                                 * not pulled yet */
  H3_MISSING_PSEUDO_FIELD = 13, /* a request without :method, :scheme or :path, a response without
                                 * :status (4.3.1, 4.3.2) */
  H3_BAD_SCHEME = 14,           /* no letter, and then letters, digits, '+', '-' and '.' (RFC 3986,
                                 * section 3.1) */
  H3_BAD_AUTHORITY = 15,        /* missing, empty, with userinfo; host twice, no authority, or
                                 * unlike :authority (4.3.1; RFC 9110, section 7.2) */
  H3_BAD_PATH = 16,             /* does not begin with '/' and is not "*" for OPTIONS, or has a
                                 * fragment (4.3.1) */
  H3_BAD_STATUS = 17,           /* 101 (4.5) */
  H3_NO_TRAILER_FIELD = 18,     /* content-length or host in a trailer (RFC 9110, section 6.5.1); in
                                 * sending also fields of authentication, cookies, request
                                 * modifiers, response control and content format */
  H3_TOO_LONG = 19              /* HEADERS longer than unfinished_limit (RFC 9114, section 10.5) */
};

/* The name of a malformation, for a log, or "an unknown malformation". */
static inline const char *h3_malformation_text(uint64_t malformation) {
  switch (malformation) {
    case H3_BAD_NAME: return "H3_BAD_NAME"; case H3_BAD_VALUE: return "H3_BAD_VALUE";
    case H3_TOO_MANY: return "H3_TOO_MANY";
    case H3_HEAD_OF_WRONG_SIDE: return "H3_HEAD_OF_WRONG_SIDE";
    case H3_PSEUDO_FIELD_IN_TRAILER: return "H3_PSEUDO_FIELD_IN_TRAILER";
    case H3_NO_HEAD: return "H3_NO_HEAD";
    case H3_LATE_PSEUDO_FIELD: return "H3_LATE_PSEUDO_FIELD";
    case H3_WRONG_PSEUDO_FIELD: return "H3_WRONG_PSEUDO_FIELD";
    case H3_REPEATED_PSEUDO_FIELD: return "H3_REPEATED_PSEUDO_FIELD";
    case H3_CONNECTION_FIELD: return "H3_CONNECTION_FIELD";
    case H3_BAD_CONTENT_LENGTH: return "H3_BAD_CONTENT_LENGTH";
    case H3_BAD_PROTOCOL: return "H3_BAD_PROTOCOL";
    case H3_BAD_CONNECT: return "H3_BAD_CONNECT";
    case H3_MISSING_PSEUDO_FIELD: return "H3_MISSING_PSEUDO_FIELD";
    case H3_BAD_SCHEME: return "H3_BAD_SCHEME"; case H3_BAD_AUTHORITY: return "H3_BAD_AUTHORITY";
    case H3_BAD_PATH: return "H3_BAD_PATH"; case H3_BAD_STATUS: return "H3_BAD_STATUS";
    case H3_NO_TRAILER_FIELD: return "H3_NO_TRAILER_FIELD"; case H3_TOO_LONG: return "H3_TOO_LONG";
    default: return "an unknown malformation";
  }
}

/* The error code for an item that is a fault, by its kind and number. It closes the connection
 * after H3_FAULT_CONNECTION, and ends the stream after any other fault (STOP_SENDING and
 * RESET_STREAM).
 * `server` is 1 at a server. For an item that is no fault: H3_NO_ERROR. */
static inline uint64_t h3_error_code(uint32_t kind, uint64_t number, int server) {
  switch (kind) {
    case H3_FAULT_CONNECTION: return number;
    case H3_FAULT_MALFORMED:
      if (number == H3_TOO_LONG) return H3_CODE_EXCESSIVE_LOAD;
      return server && number == H3_NO_HEAD ? H3_CODE_REQUEST_INCOMPLETE : H3_CODE_MESSAGE_ERROR;
    case H3_FAULT_RESET: case H3_FAULT_CANCELED: return H3_CODE_REQUEST_CANCELLED;
    case H3_FAULT_MEMORY: return H3_CODE_INTERNAL_ERROR;
    default: return H3_CODE_NO_ERROR;
  }
}

typedef struct {
  uint32_t kind;   /* an h3_kind */
  uint32_t status; /* of a header section with :status: its number, else 0 */
  uint64_t number; /* what the kind says, else 0 */
  size_t fields;   /* of a header or trailer section: how many fields, else 0 */
  size_t len;      /* of a body or raw bytes: how many; of a header or trailer section: how
                      many bytes its names and values have; else 0 */
} h3_item;

/* Bytes came on a stream, after those that came before, and with fin = 1 its end after them: the
 * next item, and in *used how many of the bytes it took. Call it again with the bytes that are left
 * (and the same `fin`) until a pause, H3_END or a fault: after a pause all bytes were used. It does
 * what h3_deliver of these bytes, h3_deliver_end and h3_pull do, but copies no body: it says
 * at which byte of yours a piece of the body lies (H3_BODY_GIVEN), and keeps nothing of it. Other
 * bytes are copied, and a piece of a body that comes out of those is an H3_BODY, for
 * h3_item_bytes. You may change or free your bytes as soon as it returns. If fin is 1 and len is 0,
 * the end may have come before. If an H3_BODY_GIVEN took the last byte and fin is 0, the next item
 * is H3_PENDING: you need not call again. You may mix it with the other calls.
 * Refused as h3_deliver, with *item not written: H3_ARGUMENT and the refusals of bytes with *used
 * as far as the bytes went that were taken before; H3_MEMORY and H3_KEPT: nothing is lost, go on
 * with the bytes that are left. H3_FAULT_MEMORY: the same. */
static inline uint32_t h3_read(h3_endpoint *endpoint, uint64_t id, const void *bytes, size_t len,
                               int fin, size_t *used, h3_item *item, uint64_t *detail);

/* Bytes came on a stream, after those that came before: they are copied, and h3_pull tells what
 * they say. Refused, in this order: H3_ARGUMENT (id not below 2^62), H3_CONNECTION (of an earlier
 * fault), H3_REJECTED, H3_NOT_RECEIVING, H3_NOT_OPEN, H3_AFTER_END, H3_MEMORY (nothing was taken:
 * deliver again), H3_KEPT (all was taken), H3_CONNECTION (what came is a fault). */
static inline uint32_t h3_deliver(h3_endpoint *endpoint, uint64_t id, const void *bytes, size_t len,
                                  uint64_t *detail);

/* The end of a stream came (FIN). Refused as bytes are. */
static inline uint32_t h3_deliver_end(h3_endpoint *endpoint, uint64_t id, uint64_t *detail);

/* RESET_STREAM came with this application error code. Refused as bytes are; H3_AFTER_END is normal
 * if the reset came late. What came on the stream and was not pulled is dropped. */
static inline uint32_t h3_deliver_reset(h3_endpoint *endpoint, uint64_t id, uint64_t code,
                                        uint64_t *detail);

/* The next item of what was delivered on a stream, or of what h3_read kept. It stays in the
 * endpoint until the next h3_pull or h3_read: get it by h3_item_fields and h3_item_bytes. A fault
 * of the connection closes the endpoint.
 * Refused: H3_ARGUMENT (id not below 2^62); *item is not written, and the item before stays. */
static inline uint32_t h3_pull(h3_endpoint *endpoint, uint64_t id, h3_item *item);

/* The lowest stream id, `from` or above, that can be pulled on: its last item was H3_WAITING, and
 * its insertions have arrived. Returns H3_NONE if there is none; *id is not written then. Call it
 * after data on a unidirectional stream of the peer:
 *   for (uint64_t id = 0; h3_next_unblocked(&e, id, &id) == H3_OK; id++) ..
 * It takes no memory. If no stream is unblocked it returns at once; else it looks at each stream
 * that is not over. */
static inline uint32_t h3_next_unblocked(h3_endpoint *endpoint, uint64_t from, uint64_t *id);

/* All fields of the header or trailer section that was pulled last, as they came and in their
 * order: the sizes of each at `sizes`, and all names and values at `bytes` (name, value, name,
 * value, ..), as h3_send_head takes them. `most` sizes and `room` bytes fit there: `fields` and
 * `len` of the item are enough. `flags` is NULL, or has room for `most` bytes: each field's is
 * H3_NEVER_INDEX if its line had the bit N, else 0. Any other item has no fields. Takes no memory.
 * Refused, with nothing written: H3_ROOM. */
static inline uint32_t h3_item_fields(h3_endpoint *endpoint, h3_field_size *sizes, uint8_t *flags,
                                      size_t most, void *bytes, size_t room);

/* The bytes of the body or of the session that were pulled last, from `from` on, as many as fit; *n
 * says how many were copied. H3_NONE if `from` is past their end or the item has no bytes. */
static inline uint32_t h3_item_bytes(h3_endpoint *endpoint, size_t from, void *buffer, size_t room,
                                     size_t *n);

/* ---- datagrams and capsules (RFC 9297) ---- */

/* What stands in front of the payload of an HTTP datagram for the request on stream `id`, 1 to 8
 * bytes: they are written to `buffer`, which has room for `room` bytes, and *n says how many. Send
 * them, and the payload after them, in one QUIC DATAGRAM frame. Refused, with *n and the buffer not
 * written, in this order: H3_ARGUMENT (id not below 2^62), H3_CLOSED, H3_NOT_REQUEST_ID,
 * H3_NO_DATAGRAMS, H3_NOT_OPEN, H3_ENDED (sending on the stream was finished or reset), H3_ROOM. */
static inline uint32_t h3_datagram_head(h3_endpoint *endpoint, uint64_t id, void *buffer,
                                        size_t room, size_t *n, uint64_t *detail);

/* An HTTP datagram came, as the payload of a QUIC DATAGRAM frame: *id is the stream of its request,
 * any that is open here, and its own payload is what follows the first *from bytes. Nothing is kept
 * of it. Refused, in this order: H3_CONNECTION (of an earlier fault), H3_NO_DATAGRAMS (a side
 * announced none: drop it), H3_CONNECTION (it is malformed: close the connection with `detail`),
 * H3_AFTER_END (nothing more is received on its stream: drop it), H3_NOT_OPEN (its stream is not
 * there yet, or the peer's settings have not come: drop it, or keep it for about a round trip and
 * call again; *id is written). */
static inline uint32_t h3_read_datagram(h3_endpoint *endpoint, const void *bytes, size_t len,
                                        uint64_t *id, size_t *from, uint64_t *detail);

/* A reader of capsules: its place in the data of one stream. Begin with all numbers 0, keep one
 * for each stream that has capsules, and copy it as you like. Only h3_read_capsule writes it. */
typedef struct {
  uint64_t head_low, head_high, head_len; /* of a type and a length that are not whole */
  uint64_t left;                          /* bytes of a value that are to come */
  uint64_t is_at_end;                     /* whether H3_CAPSULE_END comes next */
} h3_capsule_reader;

/* What bytes of capsules tell. */
enum h3_capsule_part {
  H3_CAPSULE_PENDING = 0, /* nothing more: all bytes were used */
  H3_CAPSULE_HEAD = 1,    /* a capsule begins: `capsule_type`, and `length` of its value */
  H3_CAPSULE_VALUE = 2,   /* `length` bytes that were used are the next of its value */
  H3_CAPSULE_END = 3      /* the capsule is whole: no byte was used */
};

typedef struct {
  uint64_t part;         /* an h3_capsule_part */
  uint64_t capsule_type; /* of H3_CAPSULE_HEAD, else 0 */
  uint64_t length;       /* of H3_CAPSULE_HEAD and H3_CAPSULE_VALUE, else 0 */
} h3_capsule;

/* Reads on in the body of a stream that uses the capsule protocol (RFC 9297, section 3): what comes
 * next, and in *used how many of the bytes it took. Call it again with the bytes that are left
 * until it tells H3_CAPSULE_PENDING. A body may come in any pieces. Skip the values of capsules
 * whose type you do not know (section 3.2). It needs no endpoint. Refused: H3_ARGUMENT. */
static inline uint32_t h3_read_capsule(h3_capsule_reader *reader, const void *bytes, size_t len,
                                       size_t *used, h3_capsule *capsule);

/* *ends is 1 if the body may end here, else 0: a capsule is not whole, and the message is malformed
 * (section 3.3): H3_CODE_MESSAGE_ERROR. Ask it at H3_END, after H3_CAPSULE_PENDING. Refused:
 * H3_ARGUMENT. */
static inline uint32_t h3_capsule_ends(const h3_capsule_reader *reader, uint32_t *ends);

/* What stands in front of the value of a capsule, 2 to 16 bytes: they are written to `buffer`, and
 * *n says how many. Send them and `length` bytes of a value as a body. Refused, with *n and the
 * buffer not written, in this order: H3_ARGUMENT (a type or length not below 2^62), H3_ROOM. */
static inline uint32_t h3_capsule_head(uint64_t capsule_type, uint64_t length, void *buffer,
                                       size_t room, size_t *n);

/* ---- priorities ---- */

/* Reads the value of a `priority` field (RFC 9218, section 4): *urgency from 0, the most urgent, to
 * 7, and *incremental, 1 or 0. What the value leaves out has its default, 3 and 0. If the message
 * has several such fields, join their values by ", ". Refused, and nothing is written: H3_ARGUMENT,
 * or H3_FIELD_VALUE if the value is no dictionary (RFC 8941, section 3.2); the field is then to be
 * ignored. It needs no endpoint, and takes no memory. */
static inline uint32_t h3_priority_read(const void *value, size_t len, uint32_t *urgency,
                                        uint32_t *incremental);

/* ---- WebTransport ---- */

/* Opens a stream of the session whose request has this id: both ways (both_ways 1), or from this
 * side alone (0). Its id goes to *id: of a client's stream both ways the one that h3_open_request
 * would give next, of a server's 1, 5, ..; of one that goes one way 14, 18, .. of a client, 15,
 * 19, .. of a server. QUIC opens the stream of this id. What it begins with waits on it.
 * Refused, in this order: H3_ARGUMENT (session not below 2^62; both_ways above 1), H3_CLOSED,
 * H3_NO_SESSIONS, H3_NOT_REQUEST_ID (session is no multiple of 4), H3_NOT_OPEN (on the session's
 * request no final header section was sent; or the session is over: sending on it has ended, or the
 * peer's end or reset of it was delivered), H3_GOING_AWAY (both ways, by a client), H3_IDS_USED_UP,
 * H3_MEMORY. */
static inline uint32_t h3_open_session_stream(h3_endpoint *endpoint, uint64_t session,
                                              uint32_t both_ways, uint64_t *id, uint64_t *detail);

/* Sends bytes on a stream of a session, as they are. Refused, in this order: H3_ARGUMENT (id not
 * below 2^62), H3_CLOSED, H3_NOT_OPEN (no stream of a session, or only the peer sends on it),
 * H3_OUT_OF_ORDER (it was finished or reset), H3_MEMORY. */
static inline uint32_t h3_send_raw(h3_endpoint *endpoint, uint64_t id, const void *bytes,
                                   size_t len, uint64_t *detail);

/* The lowest id, `from` or above, of a stream of this session: each that was opened here, and each
 * of the peer's of which H3_SESSION was returned (at a client a stream both ways of its server once
 * its type and session came), until h3_close_stream. Refused, in this order: H3_ARGUMENT (session
 * not below 2^62), H3_NONE. Takes no memory. */
static inline uint32_t h3_next_of_session(h3_endpoint *endpoint, uint64_t session, uint64_t from,
                                          uint64_t *id);

/* The code with which a stream of a session is reset for this number of an application
 * (draft-ietf-webtrans-http3-02, section 4.3): 0x52e4a40fa8db for 0. */
static inline uint64_t h3_webtransport_code(uint32_t number);

/* The number of an application for such a code, in *number. H3_NONE: it is no such code. */
static inline uint32_t h3_webtransport_number(uint64_t code, uint32_t *number);

/* ---- what can be read ---- */

typedef struct {
  uint64_t waiting;      /* bytes that wait to be sent */
  uint64_t unread;       /* bytes that were delivered and are still held: not yet pulled or read. On
                            a canceled or reset stream only what H3_KEPT took counts, until it is
                            read, and a type that is not whole. 0 once the connection has a fault.
                            It is 0 while a frame of an unknown type comes that is next on the
                            stream; with its last byte the frame counts whole, until the next pull
                            skips it */
  uint32_t has_outgoing; /* 1 if something can be sent: a local unidirectional stream, or a request
                            stream that was opened */
  uint32_t is_finished;  /* 1 if its message was finished */
  uint32_t is_reset;     /* 1 if sending was reset */
  uint32_t tries;        /* how often the field section that is next was tried, else the last one:
                            at most 2 */
} h3_stream_state;

/* The state of a stream. Refused: H3_ARGUMENT (id not below 2^62). */
static inline uint32_t h3_stream(h3_endpoint *endpoint, uint64_t id, h3_stream_state *state);

/* *left: how many bytes are still to come of the payload of a frame (RFC 9114, section 7.1). On a
 * request stream it is the DATA frame that is under way, or else the frame that is next to be
 * pulled, and on the peer's control stream the frame that is under way. 0 before the type and
 * length of that frame came, once all of it came, of every other stream, and once the connection
 * has a fault. What H3_KEPT took counts as to come until it is read. Refused: H3_ARGUMENT (id not
 * below 2^62). */
static inline uint32_t h3_frame_left(h3_endpoint *endpoint, uint64_t id, uint64_t *left);

/* The types of unidirectional streams (RFC 9114, section 6.2; RFC 9204, section 4.2). */
enum h3_stream_type {
  H3_STREAM_UNTOLD = 0,  /* too few bytes came: its type, or the id after it, is not whole */
  H3_STREAM_CONTROL = 1,
  H3_STREAM_ENCODER = 2,
  H3_STREAM_DECODER = 3,
  H3_STREAM_PUSH = 4,    /* the connection has a fault by it: no push was allowed */
  H3_STREAM_SESSION = 5, /* of a WebTransport session */
  H3_STREAM_UNKNOWN = 6, /* what comes on it is dropped. QUIC may send STOP_SENDING, with
                            H3_CODE_STREAM_CREATION_ERROR */
  H3_STREAM_OTHER = 7    /* of another type, and delivered: with `other_streams` of h3_config */
};

/* The h3_stream_type of a unidirectional stream of the peer, by what came on it. Ask after data on
 * such a stream. H3_NONE for any other stream (*type is not written then).
 * Refused: H3_ARGUMENT (id not below 2^62). */
static inline uint32_t h3_stream_kind(h3_endpoint *endpoint, uint64_t id, uint32_t *type);

/* The type of an H3_STREAM_OTHER, by the number that its stream begins with (RFC 9114, section
 * 6.2). H3_NONE for any other stream (*type is not written then).
 * Refused: H3_ARGUMENT (id not below 2^62). */
static inline uint32_t h3_other_type(h3_endpoint *endpoint, uint64_t id, uint64_t *type);

typedef struct {
  uint64_t sending_table;    /* size of the dynamic table that this side writes, in bytes (RFC 9204,
                                section 3.2.1) */
  uint64_t receiving_table;  /* of the one that the peer writes */
  uint64_t waiting_heads;    /* how many streams wait for insertions */
  uint64_t sent;             /* bytes of names, values and bodies that were sent, and 64 for each
                                field and each call */
  uint64_t goaway;           /* the id of the peer's last GOAWAY, if has_goaway is 1 */
  uint64_t peer_table;       /* what the peer's settings allow, if has_settings is 1: the capacity
                                of its table, */
  uint64_t peer_blocked;     /* how many of its streams may wait, */
  uint64_t peer_section;     /* and the greatest size of a field section */
  uint32_t has_goaway;
  uint32_t has_settings;
} h3_state;

/* The state of the connection. h3_next_event says when has_settings or the GOAWAY changed. */
static inline uint32_t h3_connection(h3_endpoint *endpoint, h3_state *state);

/* Events of the connection. */
enum h3_event {
  H3_EVENT_SETTINGS = 1, /* the peer's settings came: h3_connection and h3_peer_setting show them;
                            `number` is 0 */
  H3_EVENT_GOAWAY = 2    /* the peer's last GOAWAY has the id `number`: a server processes no
                            request from there on. A later one may have a lower id (RFC 9114,
                            section 5.2) */
};

/* The next event of the connection, each once: *kind is an h3_event. Returns H3_NONE if there is
 * none; neither is written then. Call it after data on a unidirectional stream of the peer:
 *   while (h3_next_event(&e, &kind, &number) == H3_OK) ..
 * The settings are returned once, before a GOAWAY. Of several GOAWAY frames only the last one is
 * returned, and none if its id was returned before. It takes no memory. */
static inline uint32_t h3_next_event(h3_endpoint *endpoint, uint32_t *kind, uint64_t *number);

/* The value of a setting that the peer announced (RFC 9114, section 7.2.4). H3_NONE before its
 * settings came, or if it is not among them. One whose id is not known here is returned if
 * `other_settings` of h3_config had it kept; if its id came twice, this is the first value. */
static inline uint32_t h3_peer_setting(h3_endpoint *endpoint, uint64_t setting, uint64_t *value);

/* Copies the settings of the server, to be kept with its session ticket for h3_new_resumed: those
 * with a known id (1, 6, 7, 8, 0x33, 0x2b603742, 0x2b603743), as the payload of a SETTINGS frame,
 * of 128 bytes at most. H3_NONE before they came. Refused: H3_ROOM (they do not fit), H3_MEMORY. *n
 * is written on H3_OK alone. */
static inline uint32_t h3_remember_settings(h3_endpoint *endpoint, void *buffer, size_t room,
                                            size_t *n);

/* Whether the settings that came keep to those that were remembered (1), after H3_EVENT_SETTINGS:
 * no known one is gone that was not its default, and none allows less; the capacity of the table is
 * the same, unless it was 0 (RFC 9204, section 3.2.3). If not, and the server accepted the 0-RTT
 * data, close the connection with H3_CODE_SETTINGS_ERROR (RFC 9114, section 7.2.4.2; if the
 * capacity differs, RFC 9204, section 3.2.3, names H3_CODE_QPACK_DECODER_STREAM_ERROR). H3_NONE
 * before they came (*kept is not written then). Refused: H3_ARGUMENT: the bytes are no settings. */
static inline uint32_t h3_settings_kept(h3_endpoint *endpoint, const void *remembered, size_t len,
                                        uint32_t *kept);

/* The ids of the local unidirectional streams. */
static inline uint64_t h3_control_id(int server) { return server ? 3 : 2; }
static inline uint64_t h3_encoder_id(int server) { return server ? 7 : 6; }
static inline uint64_t h3_decoder_id(int server) { return server ? 11 : 10; }

/* ---- the exports of libbeanwhile_h3.a ----  Programs in C call the functions above, which pass
 * the endpoint on and test pointers (POINTERS). A program in another language may call these: each
 * takes the handle by value and writes the handle for the next call through its last argument,
 * whatever it returns. The handle must hold an endpoint. No pointer may be NULL, even with a length
 * of 0: these do not test for it. A configuration is its numbers and how many they are; the first
 * is their size in bytes. Further settings are an id and a value in turn. h3_raw_new,
 * h3_raw_new_with and h3_raw_new_resumed write *out on H3_OK only. */
uint32_t h3_raw_version(void);
uint32_t h3_raw_priority_read(const uint8_t *value, size_t len, uint32_t *urgency,
                              uint32_t *incremental);
uint32_t h3_raw_read_capsule(h3_capsule_reader *reader, const uint8_t *bytes, size_t len,
                             size_t *used, h3_capsule *capsule);
uint32_t h3_raw_capsule_ends(const h3_capsule_reader *reader, uint32_t *ends);
uint32_t h3_raw_capsule_head(uint64_t capsule_type, uint64_t length, uint8_t *buffer, size_t room,
                             size_t *n);
void h3_raw_config_default(uint64_t *numbers, size_t count);
uint32_t h3_raw_new(const uint64_t *numbers, size_t count, uint64_t *detail, h3_endpoint *out);
uint32_t h3_raw_new_with(const uint64_t *numbers, size_t count, const uint64_t *further,
                         size_t further_count, uint64_t *detail, h3_endpoint *out);
uint32_t h3_raw_new_resumed(const uint64_t *numbers, size_t count, const uint64_t *further,
                            size_t further_count, const uint8_t *remembered, size_t len,
                            uint64_t *detail, h3_endpoint *out);
void h3_raw_free(h3_endpoint endpoint);
uint32_t h3_raw_open_request(h3_endpoint endpoint, uint64_t *id, uint64_t *detail,
                             h3_endpoint *out);
uint32_t h3_raw_next_request_id(h3_endpoint endpoint, uint64_t *id, uint64_t *detail,
                                h3_endpoint *out);
uint32_t h3_raw_open_request_at(h3_endpoint endpoint, uint64_t id, uint64_t *detail,
                                h3_endpoint *out);
uint32_t h3_raw_send_head(h3_endpoint endpoint, uint64_t id, const h3_field_size *sizes,
                          size_t count, const uint8_t *flags, size_t flags_count,
                          const uint8_t *bytes, size_t len, uint64_t *detail, h3_endpoint *out);
uint32_t h3_raw_send_trailer(h3_endpoint endpoint, uint64_t id, const h3_field_size *sizes,
                             size_t count, const uint8_t *flags, size_t flags_count,
                             const uint8_t *bytes, size_t len, uint64_t *detail, h3_endpoint *out);
uint32_t h3_raw_send_body(h3_endpoint endpoint, uint64_t id, const uint8_t *bytes, size_t len,
                          uint64_t *detail, h3_endpoint *out);
uint32_t h3_raw_send_body_of(h3_endpoint endpoint, uint64_t id, size_t len, uint64_t *detail,
                             h3_endpoint *out);
uint32_t h3_raw_finish(h3_endpoint endpoint, uint64_t id, uint64_t *detail, h3_endpoint *out);
uint32_t h3_raw_reset(h3_endpoint endpoint, uint64_t id, uint64_t *detail, h3_endpoint *out);
uint32_t h3_raw_cancel(h3_endpoint endpoint, uint64_t id, uint64_t *detail, h3_endpoint *out);
uint32_t h3_raw_close_stream(h3_endpoint endpoint, uint64_t id, uint32_t *stop_sending,
                             uint32_t *reset_stream, uint64_t *detail, h3_endpoint *out);
uint32_t h3_raw_open_session_stream(h3_endpoint endpoint, uint64_t session, uint32_t both_ways,
                                    uint64_t *id, uint64_t *detail, h3_endpoint *out);
uint32_t h3_raw_send_raw(h3_endpoint endpoint, uint64_t id, const uint8_t *bytes, size_t len,
                         uint64_t *detail, h3_endpoint *out);
uint32_t h3_raw_next_of_session(h3_endpoint endpoint, uint64_t session, uint64_t from,
                                uint64_t *id, h3_endpoint *out);
uint64_t h3_raw_webtransport_code(uint32_t number);
uint32_t h3_raw_webtransport_number(uint64_t code, uint32_t *number);
uint32_t h3_raw_goaway(h3_endpoint endpoint, uint64_t id, uint64_t *detail, h3_endpoint *out);
uint32_t h3_raw_shutdown_notice(h3_endpoint endpoint, uint64_t *detail, h3_endpoint *out);
uint32_t h3_raw_shutdown(h3_endpoint endpoint, uint64_t *detail, h3_endpoint *out);
uint32_t h3_raw_first_unseen(h3_endpoint endpoint, uint64_t *id, h3_endpoint *out);
uint32_t h3_raw_is_drained(h3_endpoint endpoint, uint32_t *drained, h3_endpoint *out);
uint32_t h3_raw_next_to_send(h3_endpoint endpoint, uint64_t from, uint64_t *id, h3_endpoint *out);
uint32_t h3_raw_next_by_priority(h3_endpoint endpoint, uint64_t *id, h3_endpoint *out);
uint32_t h3_raw_set_priority(h3_endpoint endpoint, uint64_t id, uint32_t urgency,
                             uint32_t incremental, uint64_t *detail, h3_endpoint *out);
uint32_t h3_raw_set_initial_priority(h3_endpoint endpoint, uint64_t id, uint32_t urgency,
                                     uint32_t incremental, uint64_t *detail, h3_endpoint *out);
uint32_t h3_raw_send_priority(h3_endpoint endpoint, uint64_t id, uint32_t urgency,
                              uint32_t incremental, uint64_t *detail, h3_endpoint *out);
uint32_t h3_raw_priority(h3_endpoint endpoint, uint64_t id, uint32_t *urgency,
                         uint32_t *incremental, h3_endpoint *out);
uint32_t h3_raw_hold(h3_endpoint endpoint, uint64_t id, uint32_t held, uint64_t *detail,
                     h3_endpoint *out);
uint32_t h3_raw_outgoing(h3_endpoint endpoint, uint64_t id, uint8_t *buffer, size_t room, size_t *n,
                         size_t *past, uint32_t *fin, h3_endpoint *out);
uint32_t h3_raw_advance(h3_endpoint endpoint, uint64_t id, size_t n, h3_endpoint *out);
uint32_t h3_raw_end_taken(h3_endpoint endpoint, uint64_t id, h3_endpoint *out);
uint32_t h3_raw_deliver(h3_endpoint endpoint, uint64_t id, const uint8_t *bytes, size_t len,
                        uint64_t *detail, h3_endpoint *out);
uint32_t h3_raw_deliver_end(h3_endpoint endpoint, uint64_t id, uint64_t *detail, h3_endpoint *out);
uint32_t h3_raw_deliver_reset(h3_endpoint endpoint, uint64_t id, uint64_t code, uint64_t *detail,
                              h3_endpoint *out);
uint32_t h3_raw_pull(h3_endpoint endpoint, uint64_t id, h3_item *item, h3_endpoint *out);
uint32_t h3_raw_read(h3_endpoint endpoint, uint64_t id, const uint8_t *bytes, size_t len,
                     uint32_t fin, size_t *used, h3_item *item, uint64_t *detail, h3_endpoint *out);
uint32_t h3_raw_next_unblocked(h3_endpoint endpoint, uint64_t from, uint64_t *id, h3_endpoint *out);
uint32_t h3_raw_item_fields(h3_endpoint endpoint, h3_field_size *sizes, size_t most, uint8_t *flags,
                            size_t flags_most, uint8_t *bytes, size_t room, h3_endpoint *out);
uint32_t h3_raw_item_bytes(h3_endpoint endpoint, size_t from, uint8_t *buffer, size_t room,
                           size_t *n, h3_endpoint *out);
uint32_t h3_raw_datagram_head(h3_endpoint endpoint, uint64_t id, uint8_t *buffer, size_t room,
                              size_t *n, uint64_t *detail, h3_endpoint *out);
uint32_t h3_raw_read_datagram(h3_endpoint endpoint, const uint8_t *bytes, size_t len, uint64_t *id,
                              size_t *from, uint64_t *detail, h3_endpoint *out);
uint32_t h3_raw_stream(h3_endpoint endpoint, uint64_t id, h3_stream_state *state, h3_endpoint *out);
uint32_t h3_raw_frame_left(h3_endpoint endpoint, uint64_t id, uint64_t *left, h3_endpoint *out);
uint32_t h3_raw_stream_kind(h3_endpoint endpoint, uint64_t id, uint32_t *type, h3_endpoint *out);
uint32_t h3_raw_other_type(h3_endpoint endpoint, uint64_t id, uint64_t *type, h3_endpoint *out);
uint32_t h3_raw_connection(h3_endpoint endpoint, h3_state *state, h3_endpoint *out);
uint32_t h3_raw_next_event(h3_endpoint endpoint, uint32_t *kind, uint64_t *number, h3_endpoint *out);
uint32_t h3_raw_peer_setting(h3_endpoint endpoint, uint64_t setting, uint64_t *value,
                             h3_endpoint *out);
uint32_t h3_raw_remember_settings(h3_endpoint endpoint, uint8_t *buffer, size_t room, size_t *n,
                                  h3_endpoint *out);
uint32_t h3_raw_settings_kept(h3_endpoint endpoint, const uint8_t *remembered, size_t len,
                              uint32_t *kept, h3_endpoint *out);

/* ---- the functions above, over the exports ---- */

static inline const uint8_t *h3_in_(const void *bytes) {
  return bytes ? (const uint8_t *)bytes : (const uint8_t *)"";
}

static inline uint32_t h3_version(void) { return h3_raw_version(); }
static inline uint32_t h3_priority_read(const void *value, size_t len, uint32_t *urgency,
                                        uint32_t *incremental) {
  if (!urgency || !incremental || (!value && len)) return H3_ARGUMENT;
  return h3_raw_priority_read(h3_in_(value), len, urgency, incremental);
}

static inline uint32_t h3_read_capsule(h3_capsule_reader *reader, const void *bytes, size_t len,
                                       size_t *used, h3_capsule *capsule) {
  if (!reader || !used || !capsule || (!bytes && len)) return H3_ARGUMENT;
  return h3_raw_read_capsule(reader, h3_in_(bytes), len, used, capsule);
}
static inline uint32_t h3_capsule_ends(const h3_capsule_reader *reader, uint32_t *ends) {
  if (!reader || !ends) return H3_ARGUMENT;
  return h3_raw_capsule_ends(reader, ends);
}
static inline uint32_t h3_capsule_head(uint64_t capsule_type, uint64_t length, void *buffer,
                                       size_t room, size_t *n) {
  uint8_t nothing;
  if (!n) return H3_ARGUMENT;
  return h3_raw_capsule_head(capsule_type, length, buffer ? (uint8_t *)buffer : &nothing,
                             buffer ? room : 0, n);
}

static inline void h3_config_default(h3_config *config) {
  if (config) h3_raw_config_default((uint64_t *)config, sizeof *config / sizeof(uint64_t));
}
static inline uint32_t h3_new(h3_endpoint *endpoint, const h3_config *config, uint64_t *detail) {
  uint64_t none;
  if (!endpoint || !config) return H3_ARGUMENT;
  size_t count = config->size > sizeof *config || config->size % sizeof(uint64_t)
                     ? 0
                     : (size_t)config->size / sizeof(uint64_t);
  uint32_t answer = h3_raw_new((const uint64_t *)config, count, detail ? detail : &none, endpoint);
  if (answer && answer != H3_ARGUMENT) endpoint->at = NULL;
  return answer;
}
static inline uint32_t h3_new_with(h3_endpoint *endpoint, const h3_config *config,
                                   const h3_setting *further, size_t count, uint64_t *detail) {
  uint64_t none = 0;
  if (!endpoint || !config || (!further && count) || count > 8) return H3_ARGUMENT;
  size_t numbers = config->size > sizeof *config || config->size % sizeof(uint64_t)
                       ? 0
                       : (size_t)config->size / sizeof(uint64_t);
  uint32_t answer = h3_raw_new_with((const uint64_t *)config, numbers,
                                    count ? (const uint64_t *)further : &none, 2 * count,
                                    detail ? detail : &none, endpoint);
  if (answer && answer != H3_ARGUMENT) endpoint->at = NULL;
  return answer;
}
static inline uint32_t h3_new_resumed(h3_endpoint *endpoint, const h3_config *config,
                                      const h3_setting *further, size_t count,
                                      const void *remembered, size_t len, uint64_t *detail) {
  uint64_t none = 0;
  uint8_t nothing = 0;
  if (!endpoint || !config || (!further && count) || count > 8 || (!remembered && len))
    return H3_ARGUMENT;
  size_t numbers = config->size > sizeof *config || config->size % sizeof(uint64_t)
                       ? 0
                       : (size_t)config->size / sizeof(uint64_t);
  uint32_t answer = h3_raw_new_resumed((const uint64_t *)config, numbers,
                                       count ? (const uint64_t *)further : &none, 2 * count,
                                       len ? (const uint8_t *)remembered : &nothing, len,
                                       detail ? detail : &none, endpoint);
  if (answer && answer != H3_ARGUMENT) endpoint->at = NULL;
  return answer;
}
static inline void h3_free(h3_endpoint *endpoint) {
  if (!endpoint) return;
  if (endpoint->at) h3_raw_free(*endpoint);
  endpoint->at = NULL;
}
static inline uint32_t h3_open_request(h3_endpoint *endpoint, uint64_t *id, uint64_t *detail) {
  uint64_t none;
  if (!endpoint || !endpoint->at) return H3_NO_ENDPOINT;
  if (!id) return H3_ARGUMENT;
  return h3_raw_open_request(*endpoint, id, detail ? detail : &none, endpoint);
}
static inline uint32_t h3_next_request_id(h3_endpoint *endpoint, uint64_t *id, uint64_t *detail) {
  uint64_t none;
  if (!endpoint || !endpoint->at) return H3_NO_ENDPOINT;
  if (!id) return H3_ARGUMENT;
  return h3_raw_next_request_id(*endpoint, id, detail ? detail : &none, endpoint);
}
static inline uint32_t h3_open_request_at(h3_endpoint *endpoint, uint64_t id, uint64_t *detail) {
  uint64_t none;
  if (!endpoint || !endpoint->at) return H3_NO_ENDPOINT;
  return h3_raw_open_request_at(*endpoint, id, detail ? detail : &none, endpoint);
}
static inline uint32_t h3_send_head(h3_endpoint *endpoint, uint64_t id, const h3_field_size *sizes,
                                    const uint8_t *flags, size_t count, const void *bytes,
                                    size_t len, uint64_t *detail) {
  uint64_t none; h3_field_size no_size = {0, 0};
  if (!endpoint || !endpoint->at) return H3_NO_ENDPOINT;
  if ((!sizes && count) || (!bytes && len)) return H3_ARGUMENT;
  return h3_raw_send_head(*endpoint, id, sizes ? sizes : &no_size, count, h3_in_(flags),
                          flags ? count : 0, h3_in_(bytes), len, detail ? detail : &none, endpoint);
}
static inline uint32_t h3_send_trailer(h3_endpoint *endpoint, uint64_t id,
                                       const h3_field_size *sizes, const uint8_t *flags,
                                       size_t count, const void *bytes, size_t len,
                                       uint64_t *detail) {
  uint64_t none; h3_field_size no_size = {0, 0};
  if (!endpoint || !endpoint->at) return H3_NO_ENDPOINT;
  if ((!sizes && count) || (!bytes && len)) return H3_ARGUMENT;
  return h3_raw_send_trailer(*endpoint, id, sizes ? sizes : &no_size, count, h3_in_(flags),
                             flags ? count : 0, h3_in_(bytes), len, detail ? detail : &none,
                             endpoint);
}
static inline uint32_t h3_send_body(h3_endpoint *endpoint, uint64_t id, const void *bytes,
                                    size_t len, uint64_t *detail) {
  uint64_t none;
  if (!endpoint || !endpoint->at) return H3_NO_ENDPOINT;
  if (!bytes && len) return H3_ARGUMENT;
  return h3_raw_send_body(*endpoint, id, h3_in_(bytes), len, detail ? detail : &none, endpoint);
}
static inline uint32_t h3_send_body_of(h3_endpoint *endpoint, uint64_t id, size_t len,
                                       uint64_t *detail) {
  uint64_t none;
  if (!endpoint || !endpoint->at) return H3_NO_ENDPOINT;
  return h3_raw_send_body_of(*endpoint, id, len, detail ? detail : &none, endpoint);
}
static inline uint32_t h3_finish(h3_endpoint *endpoint, uint64_t id, uint64_t *detail) {
  uint64_t none;
  if (!endpoint || !endpoint->at) return H3_NO_ENDPOINT;
  return h3_raw_finish(*endpoint, id, detail ? detail : &none, endpoint);
}
static inline uint32_t h3_reset(h3_endpoint *endpoint, uint64_t id, uint64_t *detail) {
  uint64_t none;
  if (!endpoint || !endpoint->at) return H3_NO_ENDPOINT;
  return h3_raw_reset(*endpoint, id, detail ? detail : &none, endpoint);
}
static inline uint32_t h3_cancel(h3_endpoint *endpoint, uint64_t id, uint64_t *detail) {
  uint64_t none;
  if (!endpoint || !endpoint->at) return H3_NO_ENDPOINT;
  return h3_raw_cancel(*endpoint, id, detail ? detail : &none, endpoint);
}
static inline uint32_t h3_open_session_stream(h3_endpoint *endpoint, uint64_t session,
                                              uint32_t both_ways, uint64_t *id, uint64_t *detail) {
  uint64_t none;
  if (!endpoint || !endpoint->at) return H3_NO_ENDPOINT;
  if (!id) return H3_ARGUMENT;
  return h3_raw_open_session_stream(*endpoint, session, both_ways, id, detail ? detail : &none,
                                    endpoint);
}
static inline uint32_t h3_send_raw(h3_endpoint *endpoint, uint64_t id, const void *bytes,
                                   size_t len, uint64_t *detail) {
  uint64_t none;
  if (!endpoint || !endpoint->at) return H3_NO_ENDPOINT;
  if (!bytes && len) return H3_ARGUMENT;
  return h3_raw_send_raw(*endpoint, id, h3_in_(bytes), len, detail ? detail : &none, endpoint);
}
static inline uint32_t h3_next_of_session(h3_endpoint *endpoint, uint64_t session, uint64_t from,
                                          uint64_t *id) {
  if (!endpoint || !endpoint->at) return H3_NO_ENDPOINT;
  if (!id) return H3_ARGUMENT;
  return h3_raw_next_of_session(*endpoint, session, from, id, endpoint);
}
static inline uint64_t h3_webtransport_code(uint32_t number) {
  return h3_raw_webtransport_code(number);
}
static inline uint32_t h3_webtransport_number(uint64_t code, uint32_t *number) {
  if (!number) return H3_ARGUMENT;
  return h3_raw_webtransport_number(code, number);
}
static inline uint32_t h3_close_stream(h3_endpoint *endpoint, uint64_t id, uint32_t *stop_sending,
                                       uint32_t *reset_stream, uint64_t *detail) {
  uint64_t none;
  if (!endpoint || !endpoint->at) return H3_NO_ENDPOINT;
  if (!stop_sending || !reset_stream) return H3_ARGUMENT;
  return h3_raw_close_stream(*endpoint, id, stop_sending, reset_stream, detail ? detail : &none,
                             endpoint);
}
static inline uint32_t h3_goaway(h3_endpoint *endpoint, uint64_t id, uint64_t *detail) {
  uint64_t none;
  if (!endpoint || !endpoint->at) return H3_NO_ENDPOINT;
  return h3_raw_goaway(*endpoint, id, detail ? detail : &none, endpoint);
}
static inline uint32_t h3_shutdown_notice(h3_endpoint *endpoint, uint64_t *detail) {
  uint64_t none;
  if (!endpoint || !endpoint->at) return H3_NO_ENDPOINT;
  return h3_raw_shutdown_notice(*endpoint, detail ? detail : &none, endpoint);
}
static inline uint32_t h3_shutdown(h3_endpoint *endpoint, uint64_t *detail) {
  uint64_t none;
  if (!endpoint || !endpoint->at) return H3_NO_ENDPOINT;
  return h3_raw_shutdown(*endpoint, detail ? detail : &none, endpoint);
}
static inline uint32_t h3_first_unseen(h3_endpoint *endpoint, uint64_t *id) {
  if (!endpoint || !endpoint->at) return H3_NO_ENDPOINT;
  if (!id) return H3_ARGUMENT;
  return h3_raw_first_unseen(*endpoint, id, endpoint);
}
static inline uint32_t h3_is_drained(h3_endpoint *endpoint, uint32_t *drained) {
  if (!endpoint || !endpoint->at) return H3_NO_ENDPOINT;
  if (!drained) return H3_ARGUMENT;
  return h3_raw_is_drained(*endpoint, drained, endpoint);
}
static inline uint32_t h3_next_by_priority(h3_endpoint *endpoint, uint64_t *id) {
  if (!endpoint || !endpoint->at) return H3_NO_ENDPOINT;
  if (!id) return H3_ARGUMENT;
  return h3_raw_next_by_priority(*endpoint, id, endpoint);
}
static inline uint32_t h3_set_priority(h3_endpoint *endpoint, uint64_t id, uint32_t urgency,
                                       uint32_t incremental, uint64_t *detail) {
  uint64_t none;
  if (!endpoint || !endpoint->at) return H3_NO_ENDPOINT;
  return h3_raw_set_priority(*endpoint, id, urgency, incremental, detail ? detail : &none, endpoint);
}
static inline uint32_t h3_set_initial_priority(h3_endpoint *endpoint, uint64_t id,
                                               uint32_t urgency, uint32_t incremental,
                                               uint64_t *detail) {
  uint64_t none;
  if (!endpoint || !endpoint->at) return H3_NO_ENDPOINT;
  return h3_raw_set_initial_priority(*endpoint, id, urgency, incremental, detail ? detail : &none,
                                     endpoint);
}
static inline uint32_t h3_send_priority(h3_endpoint *endpoint, uint64_t id, uint32_t urgency,
                                        uint32_t incremental, uint64_t *detail) {
  uint64_t none;
  if (!endpoint || !endpoint->at) return H3_NO_ENDPOINT;
  return h3_raw_send_priority(*endpoint, id, urgency, incremental, detail ? detail : &none,
                              endpoint);
}
static inline uint32_t h3_priority(h3_endpoint *endpoint, uint64_t id, uint32_t *urgency,
                                   uint32_t *incremental) {
  if (!endpoint || !endpoint->at) return H3_NO_ENDPOINT;
  if (!urgency || !incremental) return H3_ARGUMENT;
  return h3_raw_priority(*endpoint, id, urgency, incremental, endpoint);
}
static inline uint32_t h3_hold(h3_endpoint *endpoint, uint64_t id, uint32_t held,
                               uint64_t *detail) {
  uint64_t none;
  if (!endpoint || !endpoint->at) return H3_NO_ENDPOINT;
  return h3_raw_hold(*endpoint, id, held, detail ? detail : &none, endpoint);
}
static inline uint32_t h3_next_to_send(h3_endpoint *endpoint, uint64_t from, uint64_t *id) {
  if (!endpoint || !endpoint->at) return H3_NO_ENDPOINT;
  if (!id) return H3_ARGUMENT;
  return h3_raw_next_to_send(*endpoint, from, id, endpoint);
}
static inline uint32_t h3_outgoing(h3_endpoint *endpoint, uint64_t id, void *buffer, size_t room,
                                   size_t *n, size_t *past, uint32_t *fin) {
  uint8_t nothing;
  size_t follow = 0;
  uint32_t none, answer;
  if (!endpoint || !endpoint->at) return H3_NO_ENDPOINT;
  if (!n) return H3_ARGUMENT;
  answer = h3_raw_outgoing(*endpoint, id, buffer ? (uint8_t *)buffer : &nothing, buffer ? room : 0,
                           n, past ? past : &follow, fin ? fin : &none, endpoint);
  return answer == H3_OK && follow ? (uint32_t)H3_ARGUMENT : answer;
}
static inline uint32_t h3_advance(h3_endpoint *endpoint, uint64_t id, size_t n) {
  if (!endpoint || !endpoint->at) return H3_NO_ENDPOINT;
  return h3_raw_advance(*endpoint, id, n, endpoint);
}
static inline uint32_t h3_end_taken(h3_endpoint *endpoint, uint64_t id) {
  if (!endpoint || !endpoint->at) return H3_NO_ENDPOINT;
  return h3_raw_end_taken(*endpoint, id, endpoint);
}
static inline uint32_t h3_deliver(h3_endpoint *endpoint, uint64_t id, const void *bytes, size_t len,
                                  uint64_t *detail) {
  uint64_t none;
  if (!endpoint || !endpoint->at) return H3_NO_ENDPOINT;
  if (!bytes && len) return H3_ARGUMENT;
  return h3_raw_deliver(*endpoint, id, h3_in_(bytes), len, detail ? detail : &none, endpoint);
}
static inline uint32_t h3_deliver_end(h3_endpoint *endpoint, uint64_t id, uint64_t *detail) {
  uint64_t none;
  if (!endpoint || !endpoint->at) return H3_NO_ENDPOINT;
  return h3_raw_deliver_end(*endpoint, id, detail ? detail : &none, endpoint);
}
static inline uint32_t h3_deliver_reset(h3_endpoint *endpoint, uint64_t id, uint64_t code,
                                        uint64_t *detail) {
  uint64_t none;
  if (!endpoint || !endpoint->at) return H3_NO_ENDPOINT;
  return h3_raw_deliver_reset(*endpoint, id, code, detail ? detail : &none, endpoint);
}
static inline uint32_t h3_pull(h3_endpoint *endpoint, uint64_t id, h3_item *item) {
  if (!endpoint || !endpoint->at) return H3_NO_ENDPOINT;
  if (!item) return H3_ARGUMENT;
  return h3_raw_pull(*endpoint, id, item, endpoint);
}
static inline uint32_t h3_read(h3_endpoint *endpoint, uint64_t id, const void *bytes, size_t len,
                               int fin, size_t *used, h3_item *item, uint64_t *detail) {
  uint64_t none; uint32_t told; size_t n, at = 0;
  if (!endpoint || !endpoint->at) return H3_NO_ENDPOINT;
  if (!used || !item || (!bytes && len)) return H3_ARGUMENT;
  do {
    n = 0;
    told = h3_raw_read(*endpoint, id, h3_in_(bytes) + at, len - at, fin != 0, &n, item,
                       detail ? detail : &none, endpoint);
    if (told == H3_OK && item->kind == H3_BODY_GIVEN) item->number += at;
    at += n;
  } while (told == H3_OK && at < len &&
           (item->kind == H3_PENDING || item->kind == H3_WAITING || item->kind == H3_NO_MESSAGES));
  *used = at;
  return told;
}
static inline uint32_t h3_next_unblocked(h3_endpoint *endpoint, uint64_t from, uint64_t *id) {
  if (!endpoint || !endpoint->at) return H3_NO_ENDPOINT;
  if (!id) return H3_ARGUMENT;
  return h3_raw_next_unblocked(*endpoint, from, id, endpoint);
}
static inline uint32_t h3_item_fields(h3_endpoint *endpoint, h3_field_size *sizes, uint8_t *flags,
                                      size_t most, void *bytes, size_t room) {
  h3_field_size no_size; uint8_t nothing, no_flag;
  if (!endpoint || !endpoint->at) return H3_NO_ENDPOINT;
  return h3_raw_item_fields(*endpoint, sizes ? sizes : &no_size, sizes ? most : 0,
                            flags ? flags : &no_flag, flags ? most : 0,
                            bytes ? (uint8_t *)bytes : &nothing, bytes ? room : 0, endpoint);
}
static inline uint32_t h3_item_bytes(h3_endpoint *endpoint, size_t from, void *buffer, size_t room,
                                     size_t *n) {
  uint8_t nothing;
  if (!endpoint || !endpoint->at) return H3_NO_ENDPOINT;
  if (!n) return H3_ARGUMENT;
  return h3_raw_item_bytes(*endpoint, from, buffer ? (uint8_t *)buffer : &nothing,
                           buffer ? room : 0, n, endpoint);
}
static inline uint32_t h3_datagram_head(h3_endpoint *endpoint, uint64_t id, void *buffer,
                                        size_t room, size_t *n, uint64_t *detail) {
  uint64_t none; uint8_t nothing;
  if (!endpoint || !endpoint->at) return H3_NO_ENDPOINT;
  if (!n) return H3_ARGUMENT;
  return h3_raw_datagram_head(*endpoint, id, buffer ? (uint8_t *)buffer : &nothing,
                              buffer ? room : 0, n, detail ? detail : &none, endpoint);
}
static inline uint32_t h3_read_datagram(h3_endpoint *endpoint, const void *bytes, size_t len,
                                        uint64_t *id, size_t *from, uint64_t *detail) {
  uint64_t none;
  if (!endpoint || !endpoint->at) return H3_NO_ENDPOINT;
  if (!id || !from || (!bytes && len)) return H3_ARGUMENT;
  return h3_raw_read_datagram(*endpoint, h3_in_(bytes), len, id, from, detail ? detail : &none,
                              endpoint);
}
static inline uint32_t h3_stream(h3_endpoint *endpoint, uint64_t id, h3_stream_state *state) {
  if (!endpoint || !endpoint->at) return H3_NO_ENDPOINT;
  if (!state) return H3_ARGUMENT;
  return h3_raw_stream(*endpoint, id, state, endpoint);
}
static inline uint32_t h3_frame_left(h3_endpoint *endpoint, uint64_t id, uint64_t *left) {
  if (!endpoint || !endpoint->at) return H3_NO_ENDPOINT;
  if (!left) return H3_ARGUMENT;
  return h3_raw_frame_left(*endpoint, id, left, endpoint);
}
static inline uint32_t h3_stream_kind(h3_endpoint *endpoint, uint64_t id, uint32_t *type) {
  if (!endpoint || !endpoint->at) return H3_NO_ENDPOINT;
  if (!type) return H3_ARGUMENT;
  return h3_raw_stream_kind(*endpoint, id, type, endpoint);
}
static inline uint32_t h3_other_type(h3_endpoint *endpoint, uint64_t id, uint64_t *type) {
  if (!endpoint || !endpoint->at) return H3_NO_ENDPOINT;
  if (!type) return H3_ARGUMENT;
  return h3_raw_other_type(*endpoint, id, type, endpoint);
}
static inline uint32_t h3_connection(h3_endpoint *endpoint, h3_state *state) {
  if (!endpoint || !endpoint->at) return H3_NO_ENDPOINT;
  if (!state) return H3_ARGUMENT;
  return h3_raw_connection(*endpoint, state, endpoint);
}
static inline uint32_t h3_next_event(h3_endpoint *endpoint, uint32_t *kind, uint64_t *number) {
  if (!endpoint || !endpoint->at) return H3_NO_ENDPOINT;
  if (!kind || !number) return H3_ARGUMENT;
  return h3_raw_next_event(*endpoint, kind, number, endpoint);
}
static inline uint32_t h3_peer_setting(h3_endpoint *endpoint, uint64_t setting, uint64_t *value) {
  if (!endpoint || !endpoint->at) return H3_NO_ENDPOINT;
  if (!value) return H3_ARGUMENT;
  return h3_raw_peer_setting(*endpoint, setting, value, endpoint);
}
static inline uint32_t h3_remember_settings(h3_endpoint *endpoint, void *buffer, size_t room,
                                            size_t *n) {
  uint8_t nothing;
  if (!endpoint || !endpoint->at) return H3_NO_ENDPOINT;
  if (!n) return H3_ARGUMENT;
  return h3_raw_remember_settings(*endpoint, buffer ? (uint8_t *)buffer : &nothing,
                                  buffer ? room : 0, n, endpoint);
}
static inline uint32_t h3_settings_kept(h3_endpoint *endpoint, const void *remembered, size_t len,
                                        uint32_t *kept) {
  uint8_t nothing = 0;
  if (!endpoint || !endpoint->at) return H3_NO_ENDPOINT;
  if (!kept || (!remembered && len)) return H3_ARGUMENT;
  return h3_raw_settings_kept(*endpoint, len ? (const uint8_t *)remembered : &nothing, len, kept,
                              endpoint);
}
#ifdef __cplusplus
}
#endif
#endif
