/* Makes calls of an endpoint through h3.h, a line each, and prints what they answer: the lines `call ..` of crates/h3_cases, whose rows have
 * their answers beside them. Lines that ask for what the header does not show (`lends`, `goaways`) are left out of the answers. */
#include "h3.h"
#include <stddef.h>
#include <stdio.h>
#include <stdlib.h>
#include <string.h>

static h3_endpoint endpoint = H3_NONE_YET;
static int is_list; /* the line is `fields`, `trailers` or `pulls`: of a list as it stands, and of no header */

static const struct {
  uint64_t code;
  const char *name;
} codes[] = {{0x33, "H3_DATAGRAM_ERROR"}, {0x100, "H3_NO_ERROR"}, {0x101, "H3_GENERAL_PROTOCOL_ERROR"}, {0x102, "H3_INTERNAL_ERROR"},
             {0x103, "H3_STREAM_CREATION_ERROR"}, {0x104, "H3_CLOSED_CRITICAL_STREAM"}, {0x105, "H3_FRAME_UNEXPECTED"}, {0x106, "H3_FRAME_ERROR"},
             {0x107, "H3_EXCESSIVE_LOAD"}, {0x108, "H3_ID_ERROR"}, {0x109, "H3_SETTINGS_ERROR"}, {0x10a, "H3_MISSING_SETTINGS"},
             {0x10b, "H3_REQUEST_REJECTED"}, {0x10c, "H3_REQUEST_CANCELLED"}, {0x10d, "H3_REQUEST_INCOMPLETE"}, {0x10e, "H3_MESSAGE_ERROR"},
             {0x10f, "H3_CONNECT_ERROR"}, {0x110, "H3_VERSION_FALLBACK"}, {0x200, "QPACK_DECOMPRESSION_FAILED"},
             {0x201, "QPACK_ENCODER_STREAM_ERROR"}, {0x202, "QPACK_DECODER_STREAM_ERROR"}};

static const char *code_name(uint64_t code) {
  for (size_t i = 0; i < sizeof codes / sizeof *codes; i++)
    if (codes[i].code == code) return codes[i].name;
  return "unknown";
}

static const char *const refusals[] = {"ok", "Closed", "Connection", "NotReceiving", "AfterEnd", "Kept", "NotClient", "GoingAway", "IdsUsedUp", "NotOpen",
                                       "OutOfOrder", "WrongSide", "PseudoInTrailer", "TooLarge", "Critical", "Ended", "NotRequestId", "Raised",
                                       "OutOfMemory", "TableLimit", "BlockedLimit", "Settings"};
static const char *const malformations[] = {"Name", "Value", "TooMany", "WrongSide", "PseudoInTrailer", "NoHead",
                                            "PseudoOrder", "WrongPseudo", "RepeatedPseudo", "ConnectionField", "ContentLength", "Protocol", "Connect",
                                            "MissingPseudo", "Scheme", "Authority", "Path", "Status", "TrailerField", "TooLong"};

static void answer(uint32_t n, uint64_t detail) {
  if (n == H3_OK)
    puts("ok");
  else if (n == H3_CLOSED || n == H3_CONNECTION)
    printf("refused %s %s\n", refusals[n], code_name(detail));
  else if (n == H3_GOING_AWAY || n == H3_TOO_LARGE || n == H3_RAISED)
    printf("refused %s %llu\n", refusals[n], (unsigned long long)detail);
  else if (n <= H3_SETTING)
    printf("refused %s\n", refusals[n]);
  else if (n == H3_UNFINISHED_LIMIT)
    puts("refused UnfinishedLimit");
  else if (n == H3_MALFORMED)
    printf("refused Malformed %s\n", malformations[detail]);
  else if (n >= H3_FIELD_NAME && n <= H3_FIELD_COUNT && is_list)
    printf("refused Malformed %s\n", malformations[n - H3_FIELD_NAME]);
  else if (n >= H3_FIELD_NAME && n <= H3_FIELD_COUNT)
    puts("no such call");
  else
    printf("answer %u\n", n);
}

static int digit(int c) { return c >= '0' && c <= '9' ? c - '0' : c >= 'a' && c <= 'f' ? c - 'a' + 10 : c >= 'A' && c <= 'F' ? c - 'A' + 10 : -1; }

/* the bytes of hex digits, or none of them for a '-' */
static size_t from_hex(const char *word, uint8_t *out) {
  size_t n = 0;
  if (!strcmp(word, "-")) return 0;
  for (; word[0] && word[1]; word += 2) out[n++] = (uint8_t)(digit(word[0]) * 16 + digit(word[1]));
  return n;
}

static void print_hex(const char *name, const uint8_t *bytes, size_t len) {
  printf("%s ", name);
  if (!len) putchar('-');
  for (size_t i = 0; i < len; i++) printf("%02x", bytes[i]);
  putchar('\n');
}

/* bytes with escapes for what is no letter, digit or sign */
static void print_escaped(const uint8_t *bytes, size_t len) {
  for (size_t i = 0; i < len; i++)
    if (bytes[i] > 32 && bytes[i] < 127 && bytes[i] != '%')
      putchar(bytes[i]);
    else
      printf("%%%02X", bytes[i]);
}

static void *room_for(size_t n) {
  void *p = malloc(n ? n : 1);
  if (!p) exit(2);
  return p;
}

/* A field, and whether its name is this one. */
typedef struct {
  const uint8_t *name, *value;
  uint32_t name_len, value_len;
} field;

static int is_named(const field *f, const field *as) { return f->name_len == as->name_len && !memcmp(f->name, as->name, f->name_len); }

/* The fields in the order of the program's rows. Most are of headers: pseudo-header fields first, of a repeated one the last, then the others by
 * the first coming of their names. It says how many these are. */
static size_t in_order(const field *given, size_t count, field *out) {
  static const char *const pseudo[] = {":method", ":scheme", ":authority", ":path", ":status", ":protocol"};
  size_t n = 0;
  if (is_list) {
    for (; n < count; n++) out[n] = given[n];
    return n;
  }
  for (size_t p = 0; p < sizeof pseudo / sizeof *pseudo; p++) {
    field wanted = {(const uint8_t *)pseudo[p], NULL, (uint32_t)strlen(pseudo[p]), 0};
    for (size_t i = count; i-- > 0;)
      if (is_named(&given[i], &wanted)) {
        out[n++] = given[i];
        break;
      }
  }
  for (size_t i = 0, first = n; i < count; i++) {
    int is_there = given[i].name_len && given[i].name[0] == ':';
    for (size_t j = first; j < n && !is_there; j++) is_there = is_named(&out[j], &given[i]);
    for (size_t j = i; j < count && !is_there; j++)
      if (is_named(&given[j], &given[i])) out[n++] = given[j];
  }
  return n;
}

/* fields that stand one after another */
static field *cut(const h3_field_size *sizes, size_t count, const uint8_t *bytes) {
  field *fields = room_for(count * sizeof *fields);
  for (size_t i = 0; i < count; bytes += sizes[i].name + sizes[i].value, i++)
    fields[i] = (field){bytes, bytes + sizes[i].name, sizes[i].name, sizes[i].value};
  return fields;
}

static void print_fields(const char *name, const h3_item *item) {
  printf("%s", name);
  h3_field_size *sizes = room_for(item->fields * sizeof *sizes);
  uint8_t *bytes = room_for(item->len);
  if (h3_item_fields(&endpoint, sizes, NULL, item->fields, bytes, item->len) != H3_OK) exit(3);
  field *came = cut(sizes, item->fields, bytes), *fields = room_for(item->fields * sizeof *fields);
  size_t count = in_order(came, item->fields, fields);
  for (size_t i = 0; i < count; i++) {
    putchar(' ');
    print_escaped(fields[i].name, fields[i].name_len);
    putchar('=');
    print_escaped(fields[i].value, fields[i].value_len);
  }
  free(fields);
  free(came);
  free(sizes);
  free(bytes);
  putchar('\n');
}

static void print_bytes(const char *name, size_t len) {
  uint8_t *bytes = room_for(len);
  size_t from = 0, n;
  /* in pieces of 7, so that `from` is asked for too */
  while (from < len) {
    if (h3_item_bytes(&endpoint, from, bytes + from, len - from < 7 ? len - from : 7, &n) != H3_OK) exit(3);
    from += n;
  }
  if (h3_item_bytes(&endpoint, len, bytes, len, &n) != H3_NONE) exit(3);
  printf("%s ", name);
  print_escaped(bytes, len);
  putchar('\n');
  free(bytes);
}

static void pull(uint64_t id) {
  h3_item item;
  uint32_t n = h3_pull(&endpoint, id, &item);
  if (n) {
    answer(n, 0);
    return;
  }
  unsigned long long number = item.number;
  switch (item.kind) {
  case H3_INTERIM: print_fields("interim", &item); break;
  case H3_HEAD: print_fields("head", &item); break;
  case H3_TRAILER: print_fields("trailer", &item); break;
  case H3_BODY: print_bytes("body", item.len); break;
  case H3_RAW: print_bytes("raw", item.len); break;
  case H3_TOO_LARGE_HEAD: printf("too large %llu\n", number); break;
  case H3_SESSION: printf("session %llu\n", number); break;
  case H3_END: puts("end"); break;
  case H3_PENDING: puts("pending"); break;
  case H3_WAITING: printf("waiting %llu\n", number); break;
  case H3_NO_MESSAGES: puts("no messages"); break;
  case H3_FAULT_CONNECTION: printf("fault %s\n", code_name(item.number)); break;
  case H3_FAULT_MALFORMED: printf("fault malformed %s\n", malformations[item.number]); break;
  case H3_FAULT_RESET: printf("fault reset %llu\n", number); break;
  case H3_FAULT_CANCELED: puts("fault canceled"); break;
  default: printf("kind %u\n", item.kind);
  }
}

static void waits(uint64_t id) {
  h3_stream_state state;
  size_t n = 0;
  if (h3_stream(&endpoint, id, &state)) exit(3);
  uint8_t *bytes = room_for(state.waiting);
  if (h3_outgoing(&endpoint, id, bytes, state.waiting, &n, NULL, NULL) || n != state.waiting) exit(3);
  print_hex("waits", bytes, n);
  free(bytes);
}

static void sends(uint64_t id) {
  h3_stream_state s;
  if (h3_stream(&endpoint, id, &s)) exit(3);
  puts(!s.has_outgoing ? "no stream" : s.is_finished ? "finished" : s.is_reset ? "reset" : "sends");
}

static void show(void) {
  h3_state s;
  if (h3_connection(&endpoint, &s)) exit(3);
  if (s.has_settings)
    printf("show %llu %llu %llu", (unsigned long long)s.peer_table, (unsigned long long)s.peer_blocked, (unsigned long long)s.peer_section);
  else
    printf("show - - -");
  printf(" %llu %llu %llu\n", (unsigned long long)s.sending_table, (unsigned long long)s.receiving_table, (unsigned long long)s.waiting_heads);
}

/* a choice by its name in h3_config: `name=number`, or `name` for 1 */
static void choose(h3_config *config, const char *word) {
  static const struct {
    const char *name;
    size_t at;
  } choices[] = {
      {"strict", offsetof(h3_config, strict)},
      {"extended_connect", offsetof(h3_config, extended_connect)},
      {"webtransport", offsetof(h3_config, webtransport)},
      {"datagram", offsetof(h3_config, datagram)},
      {"count_acknowledgments", offsetof(h3_config, count_acknowledgments)},
      {"encoder_table", offsetof(h3_config, encoder_table)},
      {"economical_table", offsetof(h3_config, economical_table)},
      {"unfinished_limit", offsetof(h3_config, unfinished_limit)},
      {"kept_ids", offsetof(h3_config, kept_ids)},
      {"any_protocol", offsetof(h3_config, any_protocol)},
      {"guard_secrets", offsetof(h3_config, guard_secrets)},
      {"shortest_strings", offsetof(h3_config, shortest_strings)},
      {"strict_connection", offsetof(h3_config, strict_connection)},
      {"priority_updates", offsetof(h3_config, priority_updates)},
      {"other_settings", offsetof(h3_config, other_settings)},
      {"other_streams", offsetof(h3_config, other_streams)},
      {"sessions", offsetof(h3_config, sessions)},
  };
  size_t len = strcspn(word, "=");
  uint64_t value = word[len] ? strtoull(word + len + 1, NULL, 10) : 1;
  for (size_t i = 0; i < sizeof choices / sizeof *choices; i++)
    if (strlen(choices[i].name) == len && memcmp(choices[i].name, word, len) == 0) {
      memcpy((char *)config + choices[i].at, &value, sizeof value);
      return;
    }
  exit(3);
}

static void begin(char **words, size_t count) {
  h3_config c;
  uint64_t detail;
  h3_config_default(&c);
  c.count_acknowledgments = 0; /* as Rust's defaults, which the rows go by */
  c.strict = 0;
  c.encoder_table = UINT32_MAX;
  c.economical_table = 0;
  c.unfinished_limit = UINT64_MAX;
  c.kept_ids = UINT64_MAX;
  c.reject_requests = 0;
  c.any_protocol = 0;
  c.guard_secrets = 0;
  c.shortest_strings = 0;
  c.strict_connection = 0;
  c.priority_updates = 0;
  c.server = words[1][0] == 's';
  c.max_field_section_size = strtoull(words[2], NULL, 10);
  c.table = strtoull(words[3], NULL, 10);
  c.blocked = strtoull(words[4], NULL, 10);
  for (size_t i = 5; i < count; i++) choose(&c, words[i]);
  h3_endpoint made = H3_NONE_YET;
  uint32_t n = h3_new(&made, &c, &detail);
  answer(n, detail);
  if (n) return;
  h3_free(&endpoint);
  endpoint = made;
}

/* takes at most what waits */
static void advance(uint64_t id, uint64_t count) {
  h3_stream_state s;
  if (h3_stream(&endpoint, id, &s)) exit(3);
  if (count > s.waiting) {
    if (h3_advance(&endpoint, id, s.waiting + 1) != H3_ARGUMENT) exit(3);
    count = s.waiting;
  }
  answer(h3_advance(&endpoint, id, count), 0);
}

static int is_space(uint8_t c) { return c == ' ' || c == '\t'; }

/* whether a value has white space around it */
static int is_spaced(const field *fields, size_t count) {
  for (size_t i = 0; i < count; i++)
    if (fields[i].value_len && (is_space(fields[i].value[0]) || is_space(fields[i].value[fields[i].value_len - 1]))) return 1;
  return 0;
}

/* The list goes out in the order of the rows. It frees the list. */
static uint32_t send(uint64_t id, int is_trailer, field *given, size_t count, uint64_t *detail) {
  field *fields = room_for(count * sizeof *fields);
  h3_field_size *sizes = room_for(count * sizeof *sizes);
  size_t len = 0, room = 0;
  count = in_order(given, count, fields);
  for (size_t i = 0; i < count; i++) room += fields[i].name_len + fields[i].value_len;
  uint8_t *bytes = room_for(room);
  for (size_t i = 0; i < count; i++) {
    memcpy(bytes + len, fields[i].name, fields[i].name_len);
    memcpy(bytes + len + fields[i].name_len, fields[i].value, fields[i].value_len);
    len += fields[i].name_len + fields[i].value_len;
    sizes[i] = (h3_field_size){fields[i].name_len, fields[i].value_len};
  }
  uint32_t n = is_trailer ? h3_send_trailer(&endpoint, id, sizes, NULL, count, bytes, len, detail) : h3_send_head(&endpoint, id, sizes, NULL, count, bytes, len, detail);
  free(bytes);
  free(sizes);
  free(fields);
  free(given);
  return n;
}

/* `:protocol` has another token than the two names: a header holds it */
static int asks_for_another(const field *given, size_t count) {
  for (size_t i = 0; i < count; i++) {
    const field *at = &given[i];
    if (at->name_len != 9 || memcmp(at->name, ":protocol", 9)) continue;
    for (uint32_t j = 0; j < at->value_len; j++)
      if (at->value[j] < 'a' || at->value[j] > 'z') return 0;
    return at->value_len && at->value_len <= 31 && !(at->value_len == 12 && !memcmp(at->value, "webtransport", 12));
  }
  return 0;
}

static void section(uint64_t id, int trailer, char **words, size_t count) {
  static h3_field_size sizes[512];
  static uint8_t bytes[1 << 20];
  size_t len = 0, fields = 0;
  uint64_t detail;
  for (size_t i = 0; i < count; i++) {
    const char *at = words[i];
    if (!strchr(at, '=') || fields == 512) {
      puts("no such call");
      return;
    }
    for (int part = 0; part < 2; part++) {
      size_t begin = len;
      for (; *at && (part || *at != '='); at++) {
        if (*at == '%' && digit(at[1]) >= 0 && digit(at[2]) >= 0) {
          bytes[len++] = (uint8_t)(digit(at[1]) * 16 + digit(at[2]));
          at += 2;
        } else
          bytes[len++] = (uint8_t)*at;
      }
      if (part)
        sizes[fields].value = (uint32_t)(len - begin);
      else {
        sizes[fields].name = (uint32_t)(len - begin);
        at++;
      }
    }
    fields++;
  }
  field *given = cut(sizes, fields, bytes);
  int holds = is_spaced(given, fields) || asks_for_another(given, fields);
  uint32_t n = send(id, trailer, given, fields, &detail);
  /* a header takes such a value, and a list does not: the rows are of headers, whose refusal an endpoint tells so */
  if (n == H3_FIELD_VALUE && holds)
    puts("refused Malformed Value");
  else
    answer(n, detail);
}

static void on_stream(char **words, size_t count) {
  static uint8_t bytes[1 << 20];
  const char *command = words[0];
  uint64_t id = strtoull(words[1], NULL, 10), detail = 0;
  const char *word = count > 2 ? words[2] : "";
  is_list = !strcmp(command, "fields") || !strcmp(command, "trailers") || !strcmp(command, "pulls");
  if (!strcmp(command, "head") || !strcmp(command, "trailer") || (is_list && command[0] != 'p')) section(id, command[0] == 't', words + 2, count - 2);
  else if (!strcmp(command, "body")) {
    uint32_t n = h3_send_body(&endpoint, id, bytes, from_hex(word, bytes), &detail);
    answer(n, detail);
  } else if (!strcmp(command, "deliver")) {
    uint32_t n = h3_deliver(&endpoint, id, bytes, from_hex(word, bytes), &detail);
    answer(n, detail);
  } else if (!strcmp(command, "finish")) {
    uint32_t n = h3_finish(&endpoint, id, &detail);
    answer(n, detail);
  } else if (!strcmp(command, "reset")) {
    uint32_t n = h3_reset(&endpoint, id, &detail);
    answer(n, detail);
  } else if (!strcmp(command, "cancel")) {
    uint32_t n = h3_cancel(&endpoint, id, &detail);
    answer(n, detail);
  } else if (!strcmp(command, "goaway")) {
    uint32_t n = h3_goaway(&endpoint, id, &detail);
    answer(n, detail);
  } else if (!strcmp(command, "end")) {
    uint32_t n = h3_deliver_end(&endpoint, id, &detail);
    answer(n, detail);
  } else if (!strcmp(command, "gone")) {
    uint32_t n = h3_deliver_reset(&endpoint, id, strtoull(word, NULL, 10), &detail);
    answer(n, detail);
  } else if (!strcmp(command, "advance")) advance(id, strtoull(word, NULL, 10));
  else if (!strcmp(command, "pull") || is_list) pull(id);
  else if (!strcmp(command, "waits")) waits(id);
  else if (!strcmp(command, "sends")) sends(id);
  else if (!strcmp(command, "tries")) {
    h3_stream_state s;
    if (h3_stream(&endpoint, id, &s)) exit(3);
    printf("tries %u\n", s.tries);
  } else if (strcmp(command, "lends")) puts("no such call");
}

static void call(char *line) {
  char *words[600] = {""};
  size_t count = 0;
  if (!line[0] || line[0] == '#') {
    puts(line);
    return;
  }
  if (strncmp(line, "call ", 5)) {
    puts("no such case");
    return;
  }
  for (char *word = strtok(line + 5, " "); word && count < 600; word = strtok(NULL, " ")) words[count++] = word;
  uint64_t id, detail;
  if (!strcmp(words[0], "new") && count >= 5) begin(words, count);
  else if (!strcmp(words[0], "open")) {
    uint32_t n = h3_open_request(&endpoint, &id, &detail);
    if (n) answer(n, detail);
    else printf("stream %llu\n", (unsigned long long)id);
  } else if (!strcmp(words[0], "show")) show();
  else if (!strcmp(words[0], "sent")) {
    h3_state s;
    if (h3_connection(&endpoint, &s)) exit(3);
    printf("sent %llu\n", (unsigned long long)s.sent);
  } else if (!strcmp(words[0], "goaways")) return;
  else if (count >= 2) on_stream(words, count);
  else puts("no such call");
}

int main(void) {
  static char line[1 << 21];
  while (fgets(line, sizeof line, stdin)) {
    line[strcspn(line, "\n")] = 0;
    call(line);
  }
  h3_free(&endpoint);
  return 0;
}
