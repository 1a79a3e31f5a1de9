/* Headers: made of the fields of decoded sections, and listed. nghttp3 has no such step. */
#include "measure.h"
#include "rows.h"
#include <stdlib.h>

typedef struct {
  const field_lists *lists;
  pack sections; /* as we wrote them */
} header_work;

static void check(const header_work *w, const char *what, uint32_t status, uint64_t rounds, const h3_report *report) {
  done(what, status);
  if (rounds && report->items != w->lists->fields) stop(what, (long)report->items);
}

static void read_headers(void *data, uint64_t rounds) {
  header_work *w = data;
  h3_report report;
  check(w, "header_read", h3_bench_header_read(rounds, w->sections.bytes, w->sections.len, &report), rounds, &report);
}

static void decode_alone(void *data, uint64_t rounds) {
  header_work *w = data;
  h3_report report;
  check(w, "header_decode", h3_bench_header_decode(rounds, w->sections.bytes, w->sections.len, &report), rounds,
        &report);
}

static void list_fields(void *data, uint64_t rounds) {
  header_work *w = data;
  h3_report report;
  check(w, "header_fields", h3_bench_header_fields(rounds, w->sections.bytes, w->sections.len, &report), rounds,
        &report);
}

static void judge_requests(void *data, uint64_t rounds) {
  header_work *w = data;
  h3_report report;
  check(w, "request_judge", h3_bench_request_judge(rounds, w->sections.bytes, w->sections.len, &report), rounds, &report);
}

pack sections_of(const field_lists *lists) {
  pack packed = pack_lists(lists), sections = {0};
  size_t room = 4 * packed.len + 64, len = 4;
  uint8_t *out = malloc(room);
  h3_report report;
  done("section_encode", h3_bench_section_encode(0, packed.bytes, packed.len, out, room, &report));
  for (size_t i = 0; i < lists->count; i++) len += 4 + number_at(out + len);
  put_bytes(&sections, out, len);
  free(out);
  free_pack(&packed);
  return sections;
}

void judge_rows(const field_lists *requests) {
  header_work w = {requests, sections_of(requests)};
  const contender judged[CONTENDERS] = {{judge_requests, &w}, {0}, {0}};
  double count = (double)requests->count;
  measure_row(&(row_kind){"head judged", requests->name, "ns", count, 1, 1, 0, 0, NULL, 150, 1}, judged, count);
  free_pack(&w.sections);
}

void header_rows(const field_lists *lists) {
  header_work w = {lists, sections_of(lists)};
  const contender whole[CONTENDERS] = {{read_headers, &w}, {0}, {0}}, part[CONTENDERS] = {{decode_alone, &w}, {0}, {0}};
  const contender fields[CONTENDERS] = {{list_fields, &w}, {0}, {0}};
  double count = (double)lists->count;
  measure_beyond(&(row_kind){"header of fields", lists->name, "ns", count, 1, 1, 0, 0, NULL, 700}, whole, part, count);
  measure_row(&(row_kind){"fields of a header", lists->name, "ns", count, 1, 1, 0, 0, NULL, 200}, fields, count);
  free_pack(&w.sections);
}
