/* The exports of the static library h3_bench (crates/h3_bench). Numbers in what is handed in and out as bytes have
 * four bytes, the low one first. Each export does its work `rounds` times, and once more where it hands bytes out;
 * it answers 0, or why it gave up. */
#ifndef H3_BENCH_H
#define H3_BENCH_H
#include <stddef.h>
#include <stdint.h>

typedef struct {
  uint64_t items;    /* values, strings or fields of one round */
  uint64_t bytes;    /* bytes that one round wrote, or that stand in what it read */
  uint64_t checksum; /* a sum over what one round read */
} h3_report;

enum { H3_DONE = 0, H3_BAD_INPUT = 1, H3_NO_ROOM = 2, H3_NO_MEMORY = 3, H3_REFUSED = 4 };

uint32_t h3_bench_varint_encode(uint64_t rounds, const uint64_t *numbers, size_t count, uint8_t *out, size_t room,
                                h3_report *report);
uint32_t h3_bench_varint_decode(uint64_t rounds, size_t count, const uint8_t *bytes, size_t len, h3_report *report);

/* `bytes` are strings: a count, and each string behind its length. `out` gets what they become, one after another. */
uint32_t h3_bench_huffman_encode(uint64_t rounds, const uint8_t *bytes, size_t len, uint8_t *out, size_t room,
                                 h3_report *report);
uint32_t h3_bench_huffman_decode(uint64_t rounds, const uint8_t *bytes, size_t len, uint8_t *out, size_t room,
                                 h3_report *report);

/* `bytes` are lists: a count, and for each list the count of its fields, and each name and value behind its length.
 * `out` gets their encoded field sections, as strings. No entry of a dynamic table is named. */
uint32_t h3_bench_section_encode(uint64_t rounds, const uint8_t *bytes, size_t len, uint8_t *out, size_t room,
                                 h3_report *report);
/* `bytes` are encoded field sections, as strings; `out` gets their lists. */
uint32_t h3_bench_section_decode(uint64_t rounds, const uint8_t *bytes, size_t len, uint8_t *out, size_t room,
                                 h3_report *report);

/* `bytes` are encoded field sections, as strings. Their headers are made; their fields alone are decoded; the fields of
 * their headers are listed. The report counts the fields. */
uint32_t h3_bench_header_read(uint64_t rounds, const uint8_t *bytes, size_t len, h3_report *report);
uint32_t h3_bench_header_decode(uint64_t rounds, const uint8_t *bytes, size_t len, h3_report *report);
uint32_t h3_bench_header_fields(uint64_t rounds, const uint8_t *bytes, size_t len, h3_report *report);
/* The fields of the sections are judged as heads of requests, by the rules that a strict endpoint asks. The report counts the fields of
 * those that break none. */
uint32_t h3_bench_request_judge(uint64_t rounds, const uint8_t *bytes, size_t len, h3_report *report);

/* `count` DATA frames are sent, each with a front of this payload: head and payload are lent, one after the other, and
 * passed over. */
uint32_t h3_bench_data_send(uint64_t rounds, size_t count, const uint8_t *body, size_t len, h3_report *report);
/* The same in the small form that an endpoint keeps. */
uint32_t h3_bench_message_send(uint64_t rounds, size_t count, const uint8_t *body, size_t len, h3_report *report);

/* `bytes` are a stream of HEADERS and DATA frames, which comes in pieces of `size` bytes, one more each time that what was there is read. The pieces
 * are made once. The report: the frames, and the bytes of their payloads. */
uint32_t h3_bench_frames_read(uint64_t rounds, size_t size, const uint8_t *bytes, size_t len, h3_report *report);

/* A decoder that announced this capacity reads `instructions` once, and then the section in each round: its fields are kept as long as they sum to at
 * most `max`. The report: the fields that were kept at the end, 0 where the sum passes it, and the sum. */
uint32_t h3_bench_section_within(uint64_t rounds, size_t capacity, uint64_t max, const uint8_t *instructions, size_t instructions_len,
                                 const uint8_t *section, size_t section_len, h3_report *report);

/* A session with a dynamic table, of which `limit` sections may wait: `passes` times all lists, `batch` of which are sent
 * before they are read and answered. With `choices` 1 its encoder has the choices of h3_config_default, with 0 none. `out` gets each batch: the count of its sections, each of them, the instructions
 * and the replies, as strings. The report: the fields that came out, and the bytes of sections and instructions. */
uint32_t h3_bench_exchange(uint64_t rounds, size_t capacity, size_t limit, uint32_t choices, size_t batch, size_t passes,
                           const uint8_t *bytes, size_t len, uint8_t *out, size_t room, h3_report *report);

/* One end of a session. `bytes` are steps: their count, and for each 0, a stream, and the number of a list or a section;
 * or 1 and what the other end wrote beside its sections. The lists of an encoder stand in front of its steps. `out` gets
 * the count of steps, and for each the section and the instructions that it wrote (empty where it heard); or, of a
 * decoder, 1 and a list where a section was decoded, else 0, and what it wrote. */
uint32_t h3_bench_session_encode(uint64_t rounds, size_t capacity, size_t limit, uint32_t choices, const uint8_t *bytes, size_t len,
                                 uint8_t *out, size_t room, h3_report *report);
uint32_t h3_bench_session_decode(uint64_t rounds, size_t capacity, const uint8_t *bytes, size_t len, uint8_t *out,
                                 size_t room, h3_report *report);

/* Connections of two endpoints that announce such a table and such a limit on blocked streams. `batches` times, `under_way` requests are sent at once,
 * each with one of the requests' heads, in turn, and the request's body; they are carried, read and answered. Heads are encoded field sections, as
 * strings. The report, of one connection: the fields that came out at both ends, the bytes of bodies, and the ends of streams. */
uint32_t h3_bench_endpoints(uint64_t rounds, uint64_t table, uint64_t blocked, size_t batches, size_t under_way, const uint8_t *requests,
                            size_t requests_len, const uint8_t *request_body, size_t request_body_len, const uint8_t *responses, size_t responses_len,
                            const uint8_t *response_body, size_t response_body_len, h3_report *report);
#endif
