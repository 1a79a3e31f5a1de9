#include "qlog.h"
#include <h3.h>
#include <stdarg.h>
#include <stdio.h>
#include <stdlib.h>
#include <time.h>

struct qlog {
  FILE *file;
};

/* A string of JSON. Bytes above 127 stand as the characters with these numbers. */
static void put_text(qlog *log, const char *bytes, size_t count) {
  putc('"', log->file);
  for (; count > 0; bytes++, count--) {
    unsigned char byte = (unsigned char)*bytes;
    if (byte < ' ' || byte >= 127) fprintf(log->file, "\\u%04x", byte);
    else if (byte == '"' || byte == '\\') fprintf(log->file, "\\%c", byte);
    else putc(byte, log->file);
  }
  putc('"', log->file);
}

/* A record up to its data, which the caller goes on to write, and ends by `end`. */
static void begin(qlog *log, const char *name, const char *form, ...) {
  struct timespec time;
  va_list arguments;
  clock_gettime(CLOCK_REALTIME, &time);
  fprintf(log->file, "\x1e{\"time\":%lld.%06ld,\"name\":\"%s\",\"data\":{", (long long)time.tv_sec * 1000 + time.tv_nsec / 1000000,
          time.tv_nsec % 1000000, name);
  va_start(arguments, form);
  vfprintf(log->file, form, arguments);
  va_end(arguments);
}

static void end(qlog *log) { fputs("}}\n", log->file); }

static const char *frame_event(bool is_sent) { return is_sent ? "http3:frame_created" : "http3:frame_parsed"; }

qlog *qlog_begin(const char *folder, bool server, const char *peer) {
  static unsigned long serial;
  char name[4096];
  qlog *log = folder ? malloc(sizeof *log) : NULL;
  if (!log) return NULL;
  int count = snprintf(name, sizeof name, "%s/%lld-%lu.sqlog", folder, (long long)time(NULL), serial++);
  log->file = count > 0 && (size_t)count < sizeof name ? fopen(name, "wxe") : NULL;
  if (!log->file) {
    free(log);
    return NULL;
  }
  fprintf(log->file,
          "\x1e{\"file_schema\":\"urn:ietf:params:qlog:file:sequential\",\"serialization_format\":\"application/qlog+json-seq\","
          "\"title\":\"with %s\",\"trace\":{\"vantage_point\":{\"type\":\"%s\"},"
          "\"event_schemas\":[\"urn:ietf:params:qlog:events:http3\",\"urn:ietf:params:qlog:events:quic\"],"
          "\"common_fields\":{\"time_format\":\"relative_to_epoch\",\"reference_time\":{\"clock_type\":\"system\","
          "\"epoch\":\"1970-01-01T00:00:00.000Z\"}}}}\n",
          peer, server ? "server" : "client");
  return log;
}

void qlog_settings(qlog *log, bool is_sent, uint64_t section, uint64_t table, uint64_t blocked) {
  if (!log) return;
  begin(log, "http3:parameters_set", "\"initiator\":\"%s\",\"max_table_capacity\":%llu,\"blocked_streams_count\":%llu", is_sent ? "local" : "remote",
        (unsigned long long)table, (unsigned long long)blocked);
  if (section < UINT64_C(1) << 62) fprintf(log->file, ",\"max_field_section_size\":%llu", (unsigned long long)section);
  end(log);
}

void qlog_section(qlog *log, bool is_sent, uint64_t stream, const http3_list *list) {
  http3_line line;
  const char *before = "";
  if (!log) return;
  begin(log, frame_event(is_sent), "\"stream_id\":%llu,\"frame\":{\"frame_type\":\"headers\",\"headers\":[", (unsigned long long)stream);
  for (http3_at at = {0}; list && http3_next(list, &at, &line); before = ",") {
    fprintf(log->file, "%s{\"name\":", before);
    put_text(log, line.name, line.name_count);
    fputs(",\"value\":", log->file);
    put_text(log, line.value, line.value_count);
    putc('}', log->file);
  }
  fputs("]}", log->file);
  end(log);
}

void qlog_data(qlog *log, uint64_t stream, size_t count) {
  if (!log) return;
  begin(log, frame_event(true), "\"stream_id\":%llu,\"frame\":{\"frame_type\":\"data\",\"raw\":{\"payload_length\":%zu}}", (unsigned long long)stream,
        count);
  end(log);
}

void qlog_piece(qlog *log, uint64_t stream, size_t count) {
  if (!log) return;
  begin(log, "quic:stream_data_moved", "\"stream_id\":%llu,\"length\":%zu,\"from\":\"transport\",\"to\":\"application\"", (unsigned long long)stream,
        count);
  end(log);
}

void qlog_goaway(qlog *log, bool is_sent, uint64_t id) {
  if (!log) return;
  begin(log, frame_event(is_sent), "\"frame\":{\"frame_type\":\"goaway\",\"id\":%llu}", (unsigned long long)id);
  end(log);
}

void qlog_end(qlog *log, const quic_ending *ending) {
  if (!log) return;
  begin(log, "quic:connection_closed", "\"initiator\":\"%s\",\"%s\":%llu,\"reason\":\"%s\"", ending->by == QUIC_CLOSED_BY_PEER ? "remote" : "local",
        ending->application ? "application_code" : "code", (unsigned long long)ending->code, http3_why_over(ending));
  end(log);
  fclose(log->file);
  free(log);
}
