#include "answers.h"
#include "access.h"
#include "date.h"
#include "digest.h"
#include "files.h"
#include "report.h"
#include <stdio.h>
#include <stdlib.h>
#include <string.h>

/* One request: the file that is sent, or the digest of what came. */
typedef struct {
  bool begun;        /* its header section came */
  bool head_only;    /* of HEAD: no body goes out */
  shared_file *file; /* NULL: none */
  uint64_t from, end; /* the next byte of it that is sent, and the one after the last */
  digest digest;
  access_entry entry;
} work;

const size_t answers_data = sizeof(work);

/* What a request for a file has beside its path. */
typedef struct {
  char method[16], path[4096], range[64], if_range[64], if_none_match[256], if_modified_since[40];
} asked;

/* ---- answers ---- */

static void set_status(http3_request *request, const char *status) { ((work *)request->data)->entry.status = (unsigned)atoi(status); }

/* A short text is the whole answer. */
static void answer_text(http3_request *request, const char *status, const char *text) {
  work *work = request->data;
  char length[24], date[DATE_TEXT];
  http3_field fields[] = {{":status", status}, {"content-type", "text/plain; charset=utf-8"}, {"content-length", length}, {"date", date},
                          {"server", "h3-serve"}, {"allow", "GET, HEAD, POST"}};
  snprintf(length, sizeof length, "%zu", strlen(text));
  date_text(time(NULL), date);
  set_status(request, status);
  if (!http3_head_of(request, fields, strcmp(status, "405") == 0 ? 6 : 5)) return http3_give_up(request, H3_CODE_INTERNAL_ERROR);
  if (!work->head_only && !http3_body(request, (const uint8_t *)text, strlen(text))) return http3_give_up(request, H3_CODE_INTERNAL_ERROR);
  if (!work->head_only) work->entry.sent = strlen(text);
  http3_finish(request);
}

/* What is refused is not read either: a body may be long. */
static void refuse(http3_request *request, const char *status, const char *text) {
  answer_text(request, status, text);
  http3_ignore(request);
}

/* Whether the client has the file as it is (RFC 9110, sections 13.1.2 and 13.1.3): its tag, or else the date, says so. */
static bool has_it(const shared_file *file, const asked *asked) {
  time_t since;
  if (*asked->if_none_match) return strcmp(asked->if_none_match, "*") == 0 || strstr(asked->if_none_match, files_tag(file));
  return date_read(asked->if_modified_since, &since) && files_changed_at(file) <= since;
}

/* Reads one range of bytes (RFC 9110, section 14.1.2). 0: it is not one that is known, and the whole file is the answer. -1: nothing of it is in the
 * file. */
static int read_range(const asked *asked, const shared_file *file, uint64_t *from, uint64_t *end) {
  uint64_t length = files_length(file);
  unsigned long long first, last;
  char rest;
  bool is_of_another = *asked->if_range && strcmp(asked->if_range, files_tag(file)) != 0 && strcmp(asked->if_range, files_changed(file)) != 0;
  if (strncmp(asked->range, "bytes=", 6) != 0 || strchr(asked->range, ',') || is_of_another) return 0;
  *end = length;
  if (asked->range[6] == '-') {
    if (sscanf(asked->range + 7, "%20llu%c", &last, &rest) != 1 || asked->range[7] == '-') return 0;
    *from = last < length ? length - last : 0;
    return last == 0 || length == 0 ? -1 : 1;
  }
  int found = sscanf(asked->range + 6, "%20llu-%20llu%c", &first, &last, &rest);
  if (found == 2 && last < first) return 0;
  if (found != 2 && (found != 1 || asked->range[strlen(asked->range) - 1] != '-')) return 0;
  *from = first;
  if (found == 2 && last < length) *end = last + 1;
  return first >= length ? -1 : 1;
}

/* A part of a file, or (304) nothing of it, or (416) what it has. */
static bool answer_part(http3_request *request, const char *status, const char *range, uint64_t count) {
  const work *work = request->data;
  char length[24], date[DATE_TEXT];
  http3_field fields[] = {{":status", status}, {"date", date}, {"server", "h3-serve"}, {"last-modified", files_changed(work->file)},
                          {"etag", files_tag(work->file)}, {"content-length", length}, {"content-type", files_type(work->file)},
                          {"content-range", range}};
  snprintf(length, sizeof length, "%llu", (unsigned long long)count);
  date_text(time(NULL), date);
  set_status(request, status);
  return http3_head_of(request, fields, range ? 8 : 5);
}

static bool answer_found(http3_request *request, const asked *asked) {
  work *work = request->data;
  char range[80];
  uint64_t length = work->end = files_length(work->file);
  if (has_it(work->file, asked)) {
    work->end = 0;
    return answer_part(request, "304", NULL, 0);
  }
  int kind = work->head_only ? 0 : read_range(asked, work->file, &work->from, &work->end);
  if (kind == 0) {
    set_status(request, "200");
    return http3_head(request, files_head(work->file));
  }
  if (kind < 0) work->from = work->end = 0;
  if (kind < 0) snprintf(range, sizeof range, "bytes */%llu", (unsigned long long)length);
  else
    snprintf(range, sizeof range, "bytes %llu-%llu/%llu", (unsigned long long)work->from, (unsigned long long)work->end - 1,
             (unsigned long long)length);
  return answer_part(request, kind < 0 ? "416" : "206", range, work->end - work->from);
}

static void answer_file(http3_request *request, const asked *asked) {
  work *work = request->data;
  work->file = files_open(asked->path);
  if (!work->file) return answer_text(request, "404", "no such file\n");
  bool is_sent = answer_found(request, asked);
  if (work->head_only) work->end = work->from;
  if (is_sent && work->from < work->end) is_sent = http3_body_of(request, (size_t)(work->end - work->from));
  if (!is_sent) return http3_give_up(request, H3_CODE_INTERNAL_ERROR);
  http3_finish(request);
}

/* ---- what HTTP/3 tells ---- */

static void on_head(http3_request *request, const h3_item *head) {
  work *work = request->data;
  asked asked = {{0}, {0}, {0}, {0}, {0}, {0}};
  http3_wanted wanted[] = {
      {.name = ":method", .value = asked.method, .room = sizeof asked.method},
      {.name = ":path", .value = asked.path, .room = sizeof asked.path},
      {.name = "range", .value = asked.range, .room = sizeof asked.range, .optional = true},
      {.name = "if-range", .value = asked.if_range, .room = sizeof asked.if_range, .optional = true},
      {.name = "if-none-match", .value = asked.if_none_match, .room = sizeof asked.if_none_match, .optional = true},
      {.name = "if-modified-since", .value = asked.if_modified_since, .room = sizeof asked.if_modified_since, .optional = true}};
  if (work->begun) return; /* a trailer section, which is ignored */
  work->begun = true;
  http3_list *list = head->kind == H3_TOO_LARGE_HEAD ? NULL : http3_fields(request->connection, head);
  if (!list && head->kind != H3_TOO_LARGE_HEAD) return http3_close(request->connection, H3_CODE_INTERNAL_ERROR);
  bool is_read = list && http3_find(list, wanted, sizeof wanted / sizeof *wanted);
  if (list) http3_prefer(request, list);
  free(list);
  access_begin(&work->entry, *asked.method ? asked.method : "-", *asked.path ? asked.path : "-");
  if (head->kind == H3_TOO_LARGE_HEAD) return refuse(request, "431", "the fields are too large\n");
  if (wanted[0].too_long) return refuse(request, "501", "GET, HEAD and POST are known\n");
  if (wanted[1].too_long) return refuse(request, "414", "the path is too long\n");
  if (!is_read) return refuse(request, "400", "no method or path\n");
  work->head_only = strcmp(asked.method, "HEAD") == 0;
  if (work->head_only || strcmp(asked.method, "GET") == 0) return answer_file(request, &asked);
  if (strcmp(asked.method, "POST") != 0) return refuse(request, "405", "GET, HEAD and POST are known\n");
  if (!digest_begin(&work->digest)) refuse(request, "500", "no hash\n");
}

static void on_body(http3_request *request, const uint8_t *bytes, size_t count) {
  work *work = request->data;
  digest_add(&work->digest, bytes, count);
}

/* The body of a POST is whole. */
static void on_end(http3_request *request) {
  work *work = request->data;
  char text[DIGEST_TEXT];
  if (digest_end(&work->digest, text)) answer_text(request, "200", text);
}

static void on_failed(http3_request *request, const h3_item *item) {
  work *work = request->data;
  char peer[QUIC_PLACE];
  work->entry.failed = http3_why(item);
  http3_peer(request->connection, peer);
  report("%s: stream %llu failed: %s, %s", peer, (unsigned long long)request->entry.id, h3_kind_text(item->kind), work->entry.failed);
}

static void on_stopped(http3_request *request) { ((work *)request->data)->entry.failed = "stopped"; }

/* The next piece of a file. */
static bool on_read(http3_request *request, uint8_t *bytes, size_t count) {
  work *work = request->data;
  if (!files_read(work->file, work->from, bytes, count)) {
    work->entry.failed = "the file was cut";
    return false;
  }
  work->from += count;
  work->entry.sent += count;
  return true;
}

static void on_freed(http3_request *request) {
  work *work = request->data;
  if (work->begun) {
    if (!request->sent && !work->entry.failed) work->entry.failed = "cut";
    access_end(&work->entry, request->connection);
  }
  if (work->file) files_close(work->file);
  digest_drop(&work->digest);
}

static void on_ready(http3 *h, void *user) { (void)h, (void)user; }

static void on_over(void *user, const quic_ending *ending) {
  (void)user;
  if (ending->code != 0 && ending->code != H3_CODE_NO_ERROR)
    report("connection closed by the %s: %s", ending->by == QUIC_CLOSED_HERE ? "server" : "client", http3_why_over(ending));
}

const http3_events answers_events = {.ready = on_ready, .head = on_head, .body = on_body, .end = on_end, .failed = on_failed,
                                     .stopped = on_stopped, .read = on_read, .freed = on_freed, .over = on_over};
