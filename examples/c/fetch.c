/* fetch [OPTION..] URL: the body of a response, over HTTP/3, to standard output.
 *
 *   --trust FILE     whom to trust, instead of the system's authorities (PEM)
 *   --address PLACE  connect to this address and not to the URL's host
 *   --post FILE      POST with this file as the body
 *   --field NAME:VALUE  one more field of each request
 *   --trailer VALUE  after the file a trailer section with the field x-trailer
 *   --method NAME    this method, with no body
 *   --head           HEAD: the head alone
 *   --verbose        say on standard error what status each head has, and how many fields each trailer
 *   --fields         say on standard error each field of each header and trailer section, as 'NAME: VALUE'
 *   --sizes          say on standard error how many bytes each request's head takes, as QPACK wrote it, with its frame
 *   --count N        N requests on one connection; the bodies are written one behind another
 *   --parallel N     how many of them at once (1)
 *   --cancel BYTES   give the first request up when so many bytes of its response, or of its file, went over; its body is not written
 *   --seconds N      at most so long (60)
 *
 * It ends with 0 where each response that was not given up was whole and had a status from 200 to 299, else with 1. */
#include "http3.h"
#include <getopt.h>
#include <stdio.h>
#include <stdlib.h>
#include <string.h>
#include <sys/stat.h>
#include <time.h>

typedef struct {
  char host[256], port[8];
  const char *path;
} place;

/* One request and its response. */
typedef struct {
  size_t number;
  FILE *file; /* what is posted; NULL: nothing is left */
  unsigned long long sent, received;
  uint8_t *bytes; /* of the body, where it is not its turn to be written */
  size_t count, room;
  bool ended;
} exchange;

typedef struct {
  const char *post, *address, *method, *trailer;
  http3_field field; /* one more of each request; no name: none */
  bool is_secret;    /* that field is never indexed */
  bool verbose, fields, sizes;
  size_t count, parallel;
  unsigned long long cancel; /* 0: nothing is given up */
  int seconds;
  place place;
  http3 *connection;
  exchange *exchanges;
  size_t begun, ended, written;
  bool failed, going_away;
} client;

static client fetch = {.method = "GET", .count = 1, .parallel = 1, .seconds = 60};

static bool is_given_up(const exchange *exchange) { return fetch.cancel > 0 && exchange->number == 0; }

/* ---- bodies ---- */

static void put(const uint8_t *bytes, size_t count) {
  if (fwrite(bytes, 1, count, stdout) != count) fetch.failed = true;
}

/* Keeps a piece until it is its turn. */
static bool keep(exchange *exchange, const uint8_t *bytes, size_t count) {
  if (exchange->room - exchange->count < count) {
    size_t room = 2 * (exchange->count + count);
    uint8_t *more = realloc(exchange->bytes, room);
    if (!more) return false;
    exchange->bytes = more;
    exchange->room = room;
  }
  memcpy(exchange->bytes + exchange->count, bytes, count);
  exchange->count += count;
  return true;
}

/* A response is over: those that were kept behind it are written as far as they are over, and what is there of the next. */
static void end(exchange *over) {
  if (over->ended) return;
  over->ended = true;
  fetch.ended++;
  while (fetch.written < fetch.begun) {
    exchange *exchange = &fetch.exchanges[fetch.written];
    if (exchange->count > 0) put(exchange->bytes, exchange->count);
    free(exchange->bytes);
    exchange->bytes = NULL;
    exchange->count = exchange->room = 0;
    if (!exchange->ended) return;
    fetch.written++;
  }
}

static void fail(const char *what, unsigned long long number) {
  fprintf(stderr, "fetch: %s %llu\n", what, number);
  fetch.failed = true;
}

/* ---- what HTTP/3 tells ---- */

static void on_ready(http3 *h, void *user) {
  (void)user;
  fetch.connection = h;
}

static void show_fields(http3_request *request, const h3_item *head) {
  http3_list *list = http3_fields(request->connection, head);
  http3_line line;
  for (http3_at at = {0}; list && http3_next(list, &at, &line);)
    fprintf(stderr, "%.*s: %.*s%s\n", (int)line.name_count, line.name, (int)line.value_count, line.value,
            line.never_indexed ? " (never indexed)" : "");
  free(list);
}

static void on_head(http3_request *request, const h3_item *head) {
  if (fetch.fields && head->kind != H3_TOO_LARGE_HEAD) show_fields(request, head);
  if (fetch.verbose && head->kind == H3_TRAILER) fprintf(stderr, "trailer of %zu fields\n", head->fields);
  else if (fetch.verbose) fprintf(stderr, "%s %u\n", head->kind == H3_INTERIM ? "interim" : "status", head->status);
  if (head->kind == H3_TOO_LARGE_HEAD) fail("fields that are too large, bytes:", head->number);
  else if (head->kind == H3_HEAD && head->status / 100 != 2) fail("status", head->status);
}

static void give_up(http3_request *request) {
  http3_give_up(request, H3_CODE_REQUEST_CANCELLED);
  end(request->data);
}

static void on_body(http3_request *request, const uint8_t *bytes, size_t count) {
  exchange *exchange = request->data;
  exchange->received += count;
  if (is_given_up(exchange)) {
    if (exchange->received >= fetch.cancel) give_up(request);
  } else if (exchange->number == fetch.written)
    put(bytes, count);
  else if (!keep(exchange, bytes, count)) {
    fail("no memory for a body of bytes", exchange->received);
    give_up(request);
  }
}

static void on_end(http3_request *request) { end(request->data); }

static void on_failed(http3_request *request, const h3_item *item) {
  const char *why = item->kind == H3_FAULT_RESET      ? "the server reset the request with code"
                    : item->kind == H3_FAULT_CANCELED ? "a frame of the response is too large, given up with code"
                                                      : "the response is malformed, reason";
  fprintf(stderr, "fetch: %s\n", http3_why(item));
  fail(why, item->number);
  end(request->data);
}

static void finish(http3_request *request) {
  http3_field field = {"x-trailer", fetch.trailer};
  http3_list *trailer = fetch.trailer ? http3_list_of(&field, 1) : NULL;
  if (fetch.trailer && (!trailer || !http3_trailer(request, trailer))) fail("the trailer section was refused, bytes:", strlen(fetch.trailer));
  free(trailer);
  http3_finish(request);
}

/* The next pieces of the file that is posted. */
static void on_room(http3_request *request) {
  exchange *exchange = request->data;
  uint8_t bytes[16 * 1024];
  for (size_t room; exchange->file && (room = http3_room(request)) > 0;) {
    size_t most = room < sizeof bytes ? room : sizeof bytes, count = fread(bytes, 1, most, exchange->file);
    if (count > 0 && !http3_body(request, bytes, count)) return give_up(request);
    exchange->sent += count;
    if (is_given_up(exchange) && exchange->sent >= fetch.cancel) return give_up(request);
    if (count == most) continue;
    fclose(exchange->file);
    exchange->file = NULL;
    finish(request);
  }
}

static void on_freed(http3_request *request) {
  exchange *exchange = request->data;
  if (!exchange) return;
  if (exchange->file) fclose(exchange->file);
  exchange->file = NULL;
}

static void on_over(void *user, const quic_ending *ending) {
  (void)user, (void)ending;
  fetch.connection = NULL;
}

/* ---- requests ---- */

/* Sends a request's header section, with the secret among its fields. */
static bool send_fields(http3_request *request, const http3_field *fields, size_t count) {
  http3_line lines[count];
  for (size_t i = 0; i < count; i++) {
    lines[i] = http3_line_of(&fields[i]);
    lines[i].never_indexed = fetch.is_secret && fields[i].name == fetch.field.name;
  }
  http3_list *list = http3_list_of_lines(lines, count);
  bool sent = list && http3_head(request, list);
  free(list);
  return sent;
}

static bool send_request(http3_request *request, exchange *exchange) {
  char authority[280], length[24];
  struct stat status;
  bool is_standard = strcmp(fetch.place.port, "443") == 0;
  bool has_colons = strchr(fetch.place.host, ':'); /* of an IPv6 address, which has brackets in a URL */
  snprintf(authority, sizeof authority, "%s%s%s%s%s", has_colons ? "[" : "", fetch.place.host, has_colons ? "]" : "", is_standard ? "" : ":",
           is_standard ? "" : fetch.place.port);
  http3_field fields[] = {{":method", fetch.post ? "POST" : fetch.method}, {":scheme", "https"}, {":authority", authority},
                          {":path", fetch.place.path}, {"user-agent", "h3-fetch"}, fetch.field, {"content-length", length}};
  size_t count = fetch.field.name ? 6 : 5;
  if (!fetch.field.name) fields[5] = fields[6];
  if (fetch.post) {
    exchange->file = fopen(fetch.post, "rb");
    if (!exchange->file || fstat(fileno(exchange->file), &status) != 0) {
      perror(fetch.post);
      return false;
    }
    snprintf(length, sizeof length, "%llu", (unsigned long long)status.st_size);
  }
  if (!send_fields(request, fields, fetch.post ? count + 1 : count)) return false;
  if (fetch.sizes) fprintf(stderr, "request of %llu bytes\n", (unsigned long long)http3_waiting(request));
  if (!fetch.post) http3_finish(request);
  return true;
}

/* Opens as many requests as there may be. */
static void begin_more(void) {
  while (fetch.connection && fetch.begun < fetch.count && fetch.begun - fetch.ended < fetch.parallel) {
    http3_request *request = http3_open(fetch.connection, &fetch.going_away);
    if (!request) return;
    exchange *exchange = &fetch.exchanges[fetch.begun];
    exchange->number = fetch.begun++;
    request->data = exchange;
    if (send_request(request, exchange)) continue;
    fail("the request was refused, number", exchange->number);
    give_up(request);
  }
}

/* https://HOST[:PORT][/PATH] */
static bool read_url(const char *url, place *place) {
  static const char scheme[] = "https://";
  if (strncmp(url, scheme, sizeof scheme - 1) != 0) return false;
  url += sizeof scheme - 1;
  bool has_brackets = *url == '[';
  if (has_brackets) url++;
  size_t host = strcspn(url, has_brackets ? "]" : ":/");
  if (host == 0 || host >= sizeof place->host || (has_brackets && url[host] != ']')) return false;
  memcpy(place->host, url, host);
  place->host[host] = 0;
  url += host + has_brackets;
  size_t port = *url == ':' ? strspn(++url, "0123456789") : 0;
  if (port >= sizeof place->port) return false;
  memcpy(place->port, port ? url : "443", port ? port : 4);
  if (port) place->port[port] = 0;
  url += port;
  place->path = *url ? url : "/";
  return *place->path == '/';
}

/* A number of an option. false: it is not a number, or 0 or more than `most`. */
static bool read_number(const char *text, unsigned long long most, unsigned long long *number) {
  char *end;
  *number = *text >= '0' && *text <= '9' ? strtoull(text, &end, 10) : 0;
  return *number > 0 && *number <= most && *end == 0;
}

static bool read_options(int count, char **arguments, quic_identity *identity) {
  unsigned long long number;
  static const struct option options[] = {
      {"trust", 1, 0, 't'},   {"address", 1, 0, 'a'}, {"method", 1, 0, 'm'}, {"field", 1, 0, 'w'},    {"secret", 1, 0, 'x'},
      {"trailer", 1, 0, 'r'},
      {"post", 1, 0, 'p'},    {"count", 1, 0, 'n'},   {"cancel", 1, 0, 'c'}, {"parallel", 1, 0, 'l'}, {"seconds", 1, 0, 's'},
      {"head", 0, 0, 'h'},    {"verbose", 0, 0, 'v'}, {"sizes", 0, 0, 'z'},  {"fields", 0, 0, 'f'},   {0, 0, 0, 0}};
  for (int option; (option = getopt_long(count, arguments, "", options, NULL)) != -1;) switch (option) {
    case 't': identity->trusted = optarg; break;
    case 'a': fetch.address = optarg; break;
    case 'p': fetch.post = optarg; break;
    case 'n':
      if (!read_number(optarg, 10000000, &number)) return false;
      fetch.count = (size_t)number;
      break;
    case 'l':
      if (!read_number(optarg, 10000000, &number)) return false;
      fetch.parallel = (size_t)number;
      break;
    case 'c':
      if (!read_number(optarg, UINT64_MAX, &fetch.cancel)) return false;
      break;
    case 's':
      if (!read_number(optarg, 1000000, &number)) return false;
      fetch.seconds = (int)number;
      break;
    case 'h': fetch.method = "HEAD"; break;
    case 'm': fetch.method = optarg; break;
    case 'w':
    case 'x':
      fetch.field = (http3_field){strtok(optarg, ":"), strtok(NULL, "")};
      fetch.is_secret = option == 'x';
      if (!fetch.field.name || !fetch.field.value) return false;
      break;
    case 'r': fetch.trailer = optarg; break;
    case 'v': fetch.verbose = true; break;
    case 'z': fetch.sizes = true; break;
    case 'f': fetch.fields = true; break;
    default: return false;
    }
  bool has_both = fetch.post && strcmp(fetch.method, "GET") != 0;
  return !has_both && optind + 1 == count && fetch.count > 0 && fetch.parallel > 0 && read_url(arguments[optind], &fetch.place);
}

/* Requests until all are over, the connection is, or the time. */
static void run(quic_socket *socket) {
  time_t last = time(NULL) + fetch.seconds;
  while (fetch.ended < fetch.count && !(fetch.going_away && fetch.ended == fetch.begun) && time(NULL) < last) {
    begin_more();
    if (quic_turn(socket, 100) == 0) break;
  }
  quic_ending ending = quic_last_ending(socket);
  if (fetch.ended == fetch.count) return;
  if (fetch.going_away) fail("the server takes no more requests; not asked:", fetch.count - fetch.ended);
  else if (quic_count(socket) > 0) fail("not over after seconds:", (unsigned long long)fetch.seconds);
  else if (ending.by == QUIC_NOBODY_LISTENS) fail("nobody listens there; responses that were not whole:", fetch.count - fetch.ended);
  else if (ending.by == QUIC_TIMED_OUT) fail("the server is silent; responses that were not whole:", fetch.count - fetch.ended);
  else {
    fprintf(stderr, "fetch: %s\n", http3_why_over(&ending));
    fail(ending.application ? "the connection was closed with HTTP/3 code" : "the connection was closed with QUIC code", ending.code);
  }
}

int main(int count, char **arguments) {
  static const http3_events events = {.ready = on_ready, .head = on_head, .body = on_body, .end = on_end, .failed = on_failed, .room = on_room,
                                      .freed = on_freed, .over = on_over};
  http3_setup setup = {.events = &events};
  quic_identity identity = {0};
  if (!read_options(count, arguments, &identity)) {
    fprintf(stderr, "fetch [--trust FILE] [--address PLACE] [--post FILE] [--trailer VALUE] [--field NAME:VALUE] [--secret NAME:VALUE] "
                    "[--method NAME] [--count N] [--parallel N] [--cancel BYTES] [--seconds N] [--head] "
                    "[--verbose] [--fields] [--sizes] https://HOST[:PORT][/PATH]\n");
    return 2;
  }
  fetch.exchanges = calloc(fetch.count, sizeof *fetch.exchanges);
  if (!fetch.exchanges) fail("no memory for requests:", fetch.count);
  const char *address = fetch.address ? fetch.address : fetch.place.host;
  quic_socket *socket =
      fetch.exchanges ? quic_connect(address, fetch.place.port, fetch.place.host, &identity, NULL, &http3_over_quic, &setup) : NULL;
  if (socket) {
    run(socket);
    quic_free(socket);
  }
  for (size_t i = 0; fetch.exchanges && i < fetch.count; i++) free(fetch.exchanges[i].bytes);
  free(fetch.exchanges);
  return socket && !fetch.failed && fflush(stdout) == 0 ? 0 : 1;
}
