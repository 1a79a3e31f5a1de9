/* Our figures beside nghttp3's and plain C's, in one run. */
#include "measure.h"
#include "plain.h"
#include "rows.h"
#include <nghttp2/nghttp2.h>
#include <stdio.h>
#include <stdlib.h>
#include <string.h>

void done(const char *what, uint32_t status) {
  if (status != H3_DONE) stop(what, (long)status);
}

void same(const char *what, const void *ours, size_t our_len, const void *theirs, size_t their_len) {
  if (our_len != their_len || memcmp(ours, theirs, our_len)) stop(what, (long)our_len);
}

int main(int argc, char **argv) {
  const char *dir = argc > 1 ? argv[1] : "data";
  if (argc > 2) measure_seconds = atof(argv[2]);
  if (argc > 3) measure_only = argv[3];
  plain_build();
  field_lists requests = load_lists(dir, "requests"), responses = load_lists(dir, "responses");
  printf("nghttp3 %s, nghttp2 %s; driver and plain C: gcc %s, " DRIVER_FLAGS "\n", nghttp3_version(0)->version_str,
         nghttp2_version(0)->version_str, __VERSION__);
  printf("requests: %zu lists, %zu fields, %zu bytes; responses: %zu, %zu, %zu\n\n",
         requests.count, requests.fields, requests.bytes, responses.count, responses.fields, responses.bytes);
  print_head();
  varint_rows();
  huffman_rows((const field_lists *const[]){&requests, &responses}, 2, "all strings");
  hostile_huffman_rows();
  field_lists static_only = load_lists(dir, "static_only"), literal_only = load_lists(dir, "literal_only");
  section_rows(&requests);
  section_rows(&responses);
  section_rows(&static_only);
  section_rows(&literal_only);
  literal_rows(&requests);
  header_rows(&requests);
  header_rows(&responses);
  judge_rows(&requests);
  wire_rows();
  frame_rows(&requests);
  session_rows(&requests, 1, (session_targets){1.2, 1.4, 1.1, 1.0, 0.20});
  session_rows(&responses, 1, (session_targets){1.2, 1.0, 0, 1.0, 0.34});
  session_rows(&requests, 50, (session_targets){1.2, 1.0, 0, 1.0, 0});
  session_rows(&responses, 50, (session_targets){1.2, 1.0, 0, 1.0, 0});
  endpoint_rows(&requests, &responses);
  hostile_rows();
  length_rows();
  printf("\n%d rows below their target\n", rows_below());
  return rows_below() > 0;
}
