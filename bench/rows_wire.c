/* Frames that are sent. */
#include "measure.h"
#include "rows.h"

enum { FRAMES = 4096, PAYLOAD = 7000 };

/* a type of one byte and a length of two stand in front of each; 0 to 1023 bytes of the payload are left out in turn */
static const uint64_t SENT = (uint64_t)FRAMES * (PAYLOAD + 3) - FRAMES / 1024 * (1023 * 1024 / 2);

static void send_data(void *data, uint64_t rounds) {
  h3_report report;
  done("data_send", h3_bench_data_send(rounds, FRAMES, data, PAYLOAD, &report));
  if (rounds && report.bytes != SENT) stop("data_send: another length", (long)report.bytes);
}

static void send_message(void *data, uint64_t rounds) {
  h3_report report;
  done("message_send", h3_bench_message_send(rounds, FRAMES, data, PAYLOAD, &report));
  if (rounds && report.bytes != SENT) stop("message_send: another length", (long)report.bytes);
}

void wire_rows(void) {
  static uint8_t payload[PAYLOAD];
  const contender send[CONTENDERS] = {{send_data, payload}, {0}, {0}};
  const contender small[CONTENDERS] = {{send_message, payload}, {0}, {0}};
  measure_row(&(row_kind){"DATA frame sent", "WriteBuf", "ns", FRAMES, 1, 1, 0, 0, NULL, 10, 1}, send, FRAMES);
  measure_row(&(row_kind){"DATA frame sent", "MessageBuf", "ns", FRAMES, 1, 1, 0, 0, NULL, 10, 1}, small, FRAMES);
}
