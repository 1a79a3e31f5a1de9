/* What a connection that lives long costs, through the C interface: what each stream that is over leaves, the longest single call, and calls whose
 * cost may not grow with what came before. Each line is a row of a Markdown table; a star marks a figure above the greatest that is wanted.
 * The program wants the library for C alone. Linked with --wrap for malloc, calloc, realloc and free, which count what is held. */
#define _GNU_SOURCE
#include "h3.h"
#include <malloc.h>
#include <stdio.h>
#include <stdlib.h>
#include <string.h>
#include <time.h>

enum { CLIENT, SERVER };
enum { MOST_CARRIED = 1 << 16 };

static double held;
void *__real_malloc(size_t size);
void *__real_calloc(size_t count, size_t size);
void *__real_realloc(void *block, size_t size);
void __real_free(void *block);
void *__wrap_malloc(size_t size);
void *__wrap_calloc(size_t count, size_t size);
void *__wrap_realloc(void *block, size_t size);
void __wrap_free(void *block);

static void *gain(void *block) {
  if (block) held += (double)malloc_usable_size(block);
  return block;
}
static void lose(void *block) {
  if (block) held -= (double)malloc_usable_size(block);
}
void *__wrap_malloc(size_t size) { return gain(__real_malloc(size)); }
void *__wrap_calloc(size_t count, size_t size) { return gain(__real_calloc(count, size)); }
void *__wrap_realloc(void *block, size_t size) {
  lose(block);
  return gain(__real_realloc(block, size));
}
void __wrap_free(void *block) {
  lose(block);
  __real_free(block);
}

static int below;
static h3_endpoint ends[2];
static uint8_t buffer[MOST_CARRIED];

static double now(void) {
  struct timespec time;
  clock_gettime(CLOCK_THREAD_CPUTIME_ID, &time);
  return (double)time.tv_sec + (double)time.tv_nsec * 1e-9;
}

static void stop(const char *what, uint64_t id, uint32_t answer) {
  fprintf(stderr, "long: %s, stream %llu: %u\n", what, (unsigned long long)id, answer);
  exit(2);
}
static void done(const char *what, uint64_t id, uint32_t answer) {
  if (answer != H3_OK) stop(what, id, answer);
}

static void row(const char *what, const char *size, double figure, const char *unit, double most) {
  int is_above = most > 0 && figure > most;
  char wanted[48] = "";
  if (most > 0) snprintf(wanted, sizeof wanted, "at most %g%s", most, is_above ? "*" : "");
  printf("| %-58s | %-20s | %11.2f | %-16s | %-14s |\n", what, size, figure, unit, wanted);
  fflush(stdout);
  below += is_above;
}

static void make(uint64_t table, uint64_t blocked) {
  for (int side = 0; side < 2; side++) {
    h3_config c;
    h3_config_default(&c);
    c.server = (uint32_t)side;
    c.table = table;
    c.blocked = blocked;
    done("h3_new", (uint64_t)side, h3_new(&ends[side], &c, NULL));
  }
}
static void drop(void) {
  h3_free(&ends[CLIENT]);
  h3_free(&ends[SERVER]);
}

/* whether h3_end_taken is called */
static int ends_are_told;

/* all that waits on a stream goes over, and its end */
static void carry(int side, uint64_t id) {
  size_t n;
  uint32_t fin;
  do {
    done("h3_outgoing", id, h3_outgoing(&ends[side], id, buffer, sizeof buffer, &n, NULL, &fin));
    if (n) done("h3_deliver", id, h3_deliver(&ends[!side], id, buffer, n, NULL));
    done("h3_advance", id, h3_advance(&ends[side], id, n));
  } while (n && !fin);
  if (fin) done("h3_deliver_end", id, h3_deliver_end(&ends[!side], id, NULL));
  if (fin && ends_are_told) done("h3_end_taken", id, h3_end_taken(&ends[side], id));
}
static void carry_own(void) {
  for (int side = 0; side < 2; side++) {
    carry(side, h3_control_id(side));
    carry(side, h3_encoder_id(side));
    carry(side, h3_decoder_id(side));
  }
}

static const h3_field_size REQUEST[] = {{7, 3}, {7, 5}, {10, 15}, {5, 12}}, RESPONSE[] = {{7, 3}, {12, 10}};
static const char REQUEST_BYTES[] = ":methodGET:schemehttps:authoritywww.example.com:path/sample/path";
static const char RESPONSE_BYTES[] = ":status200content-typetext/plain";

static void send_request(uint64_t id) {
  done("h3_send_head", id, h3_send_head(&ends[CLIENT], id, REQUEST, NULL, 4, REQUEST_BYTES, sizeof REQUEST_BYTES - 1, NULL));
}

static void pull_to_the_end(int side, uint64_t id) {
  h3_item item;
  do {
    done("h3_pull", id, h3_pull(&ends[side], id, &item));
    if (item.kind >= H3_PENDING) stop("an item of another kind", id, item.kind);
  } while (item.kind != H3_END);
}

/* one request and its response; answers how long the opening took */
static double exchange(void) {
  uint64_t id;
  double began = now(), opened;
  done("h3_open_request", 0, h3_open_request(&ends[CLIENT], &id, NULL));
  opened = now() - began;
  send_request(id);
  done("h3_finish", id, h3_finish(&ends[CLIENT], id, NULL));
  carry(CLIENT, id);
  pull_to_the_end(SERVER, id);
  done("h3_send_head", id, h3_send_head(&ends[SERVER], id, RESPONSE, NULL, 2, RESPONSE_BYTES, sizeof RESPONSE_BYTES - 1, NULL));
  done("h3_send_body", id, h3_send_body(&ends[SERVER], id, buffer, 100, NULL));
  done("h3_finish", id, h3_finish(&ends[SERVER], id, NULL));
  carry(SERVER, id);
  pull_to_the_end(CLIENT, id);
  return opened;
}

static void sized(char *text, size_t room, size_t count, const char *what) { snprintf(text, room, "%zu %s", count, what); }

static void idle_row(void) {
  double before = held;
  make(0, 0);
  carry_own();
  row("an endpoint without any request", "settings exchanged", (held - before) / 2, "bytes an end", 3000);
  drop();
}

/* what an end holds while so many requests are open: their header sections were sent and read, and nothing came back yet */
static void open_row(size_t count) {
  char size[32];
  sized(size, sizeof size, count, count == 1 ? "request" : "requests");
  double before = held;
  make(0, 0);
  carry_own();
  for (size_t i = 0; i < count; i++) {
    uint64_t id;
    h3_item item;
    done("h3_open_request", 0, h3_open_request(&ends[CLIENT], &id, NULL));
    send_request(id);
    carry(CLIENT, id);
    done("h3_pull", id, h3_pull(&ends[SERVER], id, &item));
    if (item.kind != H3_HEAD) stop("no header section came", id, item.kind);
  }
  row("an endpoint with open requests", size, (held - before) / 2, "bytes an end", 0);
  drop();
}

/* how the rows of exchanges are named, and what is wanted of them */
struct exchanges {
  int ends_are_told; /* does the caller tell of each end that was taken, as h3.h asks? */
  const char *memory, *cost;
  double most_cost;
};
static const struct exchanges TOLD = {1, "a stream that is over", "one of these, of one of 500", 1.1};
static const struct exchanges UNTOLD = {0, "a stream that is over, whose end nobody said was taken", "one of these, of one of 500, where nobody says so", 0};

/* the least time that so many exchanges took, of twenty turns */
static double least(size_t exchanges, int anew) {
  enum { TURNS = 20 };
  double found = 1e9;
  for (int turn = 0; turn < TURNS; turn++) {
    if (anew) {
      make(0, 0);
      carry_own();
    }
    double began = now();
    for (size_t i = 0; i < exchanges; i++) exchange();
    if (now() - began < found) found = now() - began;
    if (anew) drop();
  }
  return found;
}

/* how long it takes to learn that nothing is to be sent */
static void nothing_to_send_row(const char *size) {
  enum { CALLS = 1000 };
  uint64_t id;
  carry_own();
  double began = now();
  for (size_t i = 0; i < CALLS; i++) {
    if (h3_next_to_send(&ends[CLIENT], 0, &id) != H3_NONE) stop("a stream whose end was taken is named", id, 0);
  }
  row("h3_next_to_send, where all ends were taken", size, (now() - began) / CALLS * 1e9, "ns", 200);
}

/* so many exchanges on one connection: memory, the longest opening, the cost of the last ones beside that of the first */
static void exchange_rows(size_t count, const struct exchanges *kind) {
  enum { FEW = 500, FIRST = 1000 };
  char size[32];
  double longest = 0, before, few;
  sized(size, sizeof size, count, "exchanges");
  ends_are_told = kind->ends_are_told;
  few = least(FEW, 1);
  make(0, 0);
  carry_own();
  for (size_t i = 0; i < FIRST; i++) exchange();
  before = held;
  for (size_t i = FIRST; i < count; i++) {
    double opened = exchange();
    if (opened > longest) longest = opened;
  }
  row(kind->memory, size, (held - before) / (double)(count - FIRST) / 2, "bytes an end", 4);
  row("the longest h3_open_request", size, longest * 1e6, "us", 1000);
  row(kind->cost, size, least(FEW, 0) / few, "times", kind->most_cost);
  if (kind->ends_are_told) nothing_to_send_row(size);
  ends_are_told = 0;
  drop();
}

/* a client opens, sends its head and resets; the server reads the head, is told of the reset, and resets its own half */
/* each with the same code, or each with a code of its own */
static void reset_rows(const char *what, size_t count, int has_own_code) {
  char size[32];
  double before;
  h3_item item;
  sized(size, sizeof size, count, "streams");
  make(0, 0);
  carry_own();
  before = held;
  for (size_t i = 0; i < count; i++) {
    uint64_t id;
    done("h3_open_request", 0, h3_open_request(&ends[CLIENT], &id, NULL));
    send_request(id);
    carry(CLIENT, id);
    done("h3_pull", id, h3_pull(&ends[SERVER], id, &item));
    uint64_t code = has_own_code ? 0x52e4a40fa8db + i : H3_CODE_REQUEST_CANCELLED;
    done("h3_reset", id, h3_reset(&ends[CLIENT], id, NULL));
    done("h3_deliver_reset", id, h3_deliver_reset(&ends[SERVER], id, code, NULL));
    done("h3_pull", id, h3_pull(&ends[SERVER], id, &item));
    done("h3_reset", id, h3_reset(&ends[SERVER], id, NULL));
    done("h3_deliver_reset", id, h3_deliver_reset(&ends[CLIENT], id, code, NULL));
    done("h3_pull", id, h3_pull(&ends[CLIENT], id, &item));
    carry(SERVER, h3_decoder_id(SERVER));
    carry(CLIENT, h3_decoder_id(CLIENT));
  }
  row(what, size, (held - before) / (double)count / 2, "bytes an end", 32);
  drop();
}

/* unidirectional streams of a type that nobody knows, each with its end */
static void unknown_rows(size_t count) {
  char size[32];
  double before;
  sized(size, sizeof size, count, "streams");
  make(0, 0);
  carry_own();
  before = held;
  for (size_t i = 0; i < count; i++) {
    uint64_t id = 14 + 4 * i;
    done("h3_deliver", id, h3_deliver(&ends[SERVER], id, "\x21some bytes", 11, NULL));
    done("h3_deliver_end", id, h3_deliver_end(&ends[SERVER], id, NULL));
  }
  row("a unidirectional stream of unknown type, ended", size, (held - before) / (double)count, "bytes", 4);
  drop();
}

/* one turn over all streams that wait, none of which QUIC gives credit; and the same behind as many that were reset */
static void sweep_rows(size_t count) {
  enum { CALLS = 1000 };
  char size[32];
  uint64_t id;
  size_t found = 0;
  double began;
  sized(size, sizeof size, count, "streams");
  make(0, 0);
  carry_own();
  for (size_t i = 0; i < count; i++) {
    done("h3_open_request", 0, h3_open_request(&ends[CLIENT], &id, NULL));
    send_request(id);
  }
  began = now();
  for (id = 0; h3_next_to_send(&ends[CLIENT], id, &id) == H3_OK; id++) found++;
  row("h3_next_to_send in one turn over all that wait", size, (now() - began) / (double)count * 1e9, "ns a stream", 200);
  if (found != count) stop("streams that wait", found, 0);
  for (id = 0; id < 4 * count; id += 4) done("h3_reset", id, h3_reset(&ends[CLIENT], id, NULL));
  began = now();
  for (size_t i = 0; i < CALLS; i++) {
    if (h3_next_to_send(&ends[CLIENT], 0, &id) != H3_NONE) stop("a stream that was reset waits", id, 0);
  }
  row("h3_next_to_send, where all were reset", size, (now() - began) / CALLS * 1e9, "ns", 200);
  drop();
}

/* one turn over all streams whose ends wait; and to learn that none waits where all of them may still be finished */
static void end_rows(size_t count) {
  enum { CALLS = 1000 };
  char size[32];
  uint64_t id;
  size_t found = 0;
  double began;
  sized(size, sizeof size, count, "streams");
  make(0, 0);
  carry_own();
  for (size_t i = 0; i < count; i++) {
    done("h3_open_request", 0, h3_open_request(&ends[CLIENT], &id, NULL));
    send_request(id);
    carry(CLIENT, id);
  }
  carry_own();
  began = now();
  for (size_t i = 0; i < CALLS; i++) {
    if (h3_next_to_send(&ends[CLIENT], 0, &id) != H3_NONE) stop("a stream without an end is named", id, 0);
  }
  row("h3_next_to_send, where all are open and nothing waits", size, (now() - began) / CALLS / (double)count * 1e9, "ns a stream", 1);
  for (id = 0; id < 4 * count; id += 4) done("h3_finish", id, h3_finish(&ends[CLIENT], id, NULL));
  began = now();
  for (id = 0; h3_next_to_send(&ends[CLIENT], id, &id) == H3_OK; id++) found++;
  row("h3_next_to_send in one turn over all whose ends wait", size, (now() - began) / (double)count * 1e9, "ns a stream", 200);
  if (found != count) stop("streams whose ends wait", found, 0);
  drop();
}

/* the own decoder stream has a backlog, and its bytes are taken one by one while more come */
static double backlog_step(size_t cancellations) {
  enum { STEPS = 2000 };
  uint64_t id;
  size_t n;
  uint32_t fin;
  make(4096, 100);
  carry_own();
  for (size_t i = 0; i < cancellations + STEPS; i++) {
    done("h3_open_request", 0, h3_open_request(&ends[CLIENT], &id, NULL));
    if (i < cancellations) done("h3_cancel", id, h3_cancel(&ends[CLIENT], id, NULL));
  }
  double began = now();
  for (size_t i = cancellations; i < cancellations + STEPS; i++) {
    done("h3_outgoing", 10, h3_outgoing(&ends[CLIENT], h3_decoder_id(CLIENT), buffer, 1, &n, NULL, &fin));
    done("h3_advance", 10, h3_advance(&ends[CLIENT], h3_decoder_id(CLIENT), n));
    done("h3_cancel", 4 * i, h3_cancel(&ends[CLIENT], 4 * i, NULL));
  }
  double each = (now() - began) / STEPS;
  drop();
  return each;
}
static void backlog_rows(void) {
  const size_t few = 10000, many = 100000;
  double small = backlog_step(few), large = backlog_step(many);
  row("a step of a decoder stream with a backlog, byte by byte", "about 30 KB", small * 1e9, "ns", 0);
  row("the same with ten times the backlog", "about 400 KB", large / small, "times", 1.5);
}

/* streams that each wait for one insertion more than the one before, released in order */
static double released(size_t count) {
  uint8_t frame[16], insertion[3] = {0xc0, 1, 'a'};
  h3_item item;
  double began, taken;
  make(1 << 22, 65535);
  carry_own();
  carry_own(); /* the capacity, which the client's encoder set once the settings had come */
  /* what the client's encoder wrote is its type and its capacity; what it would insert is written here */
  for (size_t i = 0; i < count; i++) {
    uint64_t id = 4 * i, residue = (i + 1) % (2 * ((1 << 22) / 32)) + 1;
    size_t at = 2;
    frame[0] = 1;
    if (residue < 255) {
      frame[at++] = (uint8_t)residue;
    } else {
      uint64_t rest = residue - 255;
      frame[at++] = 255;
      while (rest >= 128) {
        frame[at++] = (uint8_t)(rest % 128 + 128);
        rest /= 128;
      }
      frame[at++] = (uint8_t)rest;
    }
    frame[at++] = 0;    /* the base is that count */
    frame[at++] = 0xd1; /* :method GET */
    frame[at++] = 0xd7; /* :scheme https */
    frame[at++] = 0x80; /* the newest entry */
    frame[at++] = 0xc1; /* :path / */
    frame[1] = (uint8_t)(at - 2);
    done("h3_deliver", id, h3_deliver(&ends[SERVER], id, frame, at, NULL));
    done("h3_pull", id, h3_pull(&ends[SERVER], id, &item));
    if (item.kind != H3_WAITING) stop("a head that should wait", id, item.kind);
  }
  began = now();
  for (size_t i = 0; i < count; i++) {
    done("h3_deliver", 6, h3_deliver(&ends[SERVER], h3_encoder_id(CLIENT), insertion, sizeof insertion, NULL));
    done("h3_pull", 4 * i, h3_pull(&ends[SERVER], 4 * i, &item));
    if (item.kind != H3_HEAD) stop("a head that should come", 4 * i, item.kind);
  }
  taken = (now() - began) / (double)count;
  drop();
  return taken;
}
static void released_rows(void) {
  const size_t few = 4000, many = 64000;
  double small = released(few), large = released(many);
  row("a blocked head released: insertion, and pull", "4000 wait", small * 1e9, "ns", 0);
  row("the same, what it costs more where 64000 wait", "64000 wait", (large - small) * 1e9, "ns", 200);
}

static void goaway_rows(size_t count) {
  char size[32];
  double before;
  sized(size, sizeof size, count, "frames");
  make(0, 0);
  carry_own();
  done("h3_goaway", 0, h3_goaway(&ends[SERVER], 0, NULL));
  carry(SERVER, h3_control_id(SERVER));
  before = held;
  for (size_t i = 0; i < count; i++) done("h3_deliver", 3, h3_deliver(&ends[CLIENT], h3_control_id(SERVER), "\x07\x01\x00", 3, NULL));
  row("a GOAWAY frame of the peer", size, (held - before) / (double)count, "bytes", 0.01);
  drop();
}

/* A client announces a table of 2^30 - 1 bytes for which 100 streams may wait, says once that the first insertion came, and nothing of all others:
 * what the server's encoder keeps, and what each new value of a name costs it behind as many entries as it made. */
static void peer_table_rows(uint32_t encoder_table, const char *size) {
  enum { SECTIONS = 130, TIMED = 20, FIELDS = 1000, NAME = 7, VALUE = 6 };
  static h3_field_size sizes[FIELDS + 1] = {{7, 3}};
  static char bytes[10 + FIELDS * (NAME + VALUE) + 1];
  double before, began = 0, taken = 0;
  h3_config c;
  h3_config_default(&c);
  c.server = 1;
  c.encoder_table = encoder_table;
  before = held;
  done("h3_new", 1, h3_new(&ends[SERVER], &c, NULL));
  done("h3_deliver", 2, h3_deliver(&ends[SERVER], h3_control_id(CLIENT), "\0\4\10\1\xbf\xff\xff\xff\7\x40\x64", 11, NULL));
  for (size_t i = 0; i < SECTIONS; i++) {
    size_t len = 10, fields = i ? FIELDS : 1, n;
    uint64_t id = 4 * i;
    uint32_t fin;
    memcpy(bytes, ":status200", len);
    for (size_t j = 1; j <= fields; j++, len += NAME + VALUE) {
      sizes[j] = (h3_field_size){NAME, VALUE};
      snprintf(bytes + len, NAME + VALUE + 1, "x-trace%06zu", (i * FIELDS + j) % 1000000);
    }
    done("h3_deliver", id, h3_deliver(&ends[SERVER], id, "\1\10\0\0\xd1\xd7\xc1\x50\1a", 10, NULL));
    done("h3_deliver_end", id, h3_deliver_end(&ends[SERVER], id, NULL));
    pull_to_the_end(SERVER, id);
    if (i >= SECTIONS - TIMED) began = now();
    done("h3_send_head", id, h3_send_head(&ends[SERVER], id, sizes, NULL, fields + 1, bytes, len, NULL));
    if (i >= SECTIONS - TIMED) taken += now() - began;
    done("h3_finish", id, h3_finish(&ends[SERVER], id, NULL));
    for (uint64_t from = 0; h3_next_to_send(&ends[SERVER], from, &from) == H3_OK;) {
      done("h3_outgoing", from, h3_outgoing(&ends[SERVER], from, buffer, sizeof buffer, &n, NULL, &fin));
      done("h3_advance", from, h3_advance(&ends[SERVER], from, n));
      if (fin) done("h3_end_taken", from, h3_end_taken(&ends[SERVER], from));
    }
    if (!i) done("h3_deliver", 10, h3_deliver(&ends[SERVER], h3_decoder_id(CLIENT), "\3\1", 2, NULL));
  }
  row("an encoder whose peer announces all, and tells of nothing", size, (held - before) / 1024, "KB", encoder_table == 4096 ? 64 : 0);
  row("a new value of a name, behind the entries of that name", size, taken / ((double)TIMED * FIELDS) * 1e9, "ns a field", 0);
  h3_free(&ends[SERVER]);
}

int main(int argc, char **argv) {
  size_t count = argc > 1 ? (size_t)strtoull(argv[1], NULL, 10) : 100000;
  if (count < 2000) {
    fprintf(stderr, "long [EXCHANGES], at least 2000\n");
    return 2;
  }
  printf("| What | At | Figure | Unit | Wanted |\n|---|---|---|---|---|\n");
  idle_row();
  for (size_t open = 1; open <= 10000; open *= 100) open_row(open);
  exchange_rows(count, &TOLD);
  exchange_rows(count, &UNTOLD);
  reset_rows("a stream that its client opens and resets", 100000, 0);
  reset_rows("the same, each with a code of its own", 100000, 1);
  unknown_rows(100000);
  sweep_rows(10000);
  sweep_rows(100000);
  end_rows(10000);
  end_rows(100000);
  backlog_rows();
  released_rows();
  goaway_rows(100000);
  peer_table_rows(4096, "4096 at most");
  peer_table_rows(UINT32_MAX, "all of it");
  printf("\n%d rows above what is wanted\n", below);
  return below > 0;
}
