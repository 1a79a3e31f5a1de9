/* Heads by ls-qpack, in a program of its own (lsqpack.py): a question goes to its input and an answer comes back, each behind its
 * length. */
#define _GNU_SOURCE
#include "heads.h"
#include <signal.h>
#include <stdio.h>
#include <unistd.h>

static FILE *questions, *answers;

void start_lsqpack(const char *command) {
  int there[2], back[2];
  if (pipe(there) || pipe(back)) stop("pipe", 0);
  pid_t child = fork();
  if (child < 0) stop("fork", 0);
  if (child == 0) {
    dup2(there[0], 0);
    dup2(back[1], 1);
    close(there[1]);
    close(back[0]);
    execl("/bin/sh", "sh", "-c", command, (char *)NULL);
    _exit(127);
  }
  close(there[0]);
  close(back[1]);
  signal(SIGPIPE, SIG_IGN); /* a program that ended is found where it is asked */
  questions = fdopen(there[1], "wb");
  answers = fdopen(back[0], "rb");
}

/* Asks, and lets go of the question. */
static pack asked(pack *question) {
  uint8_t head[4];
  pack framed = {0}, answer = {0};
  put_string(&framed, question->bytes, question->len);
  if (fwrite(framed.bytes, 1, framed.len, questions) != framed.len || fflush(questions)) stop("ls-qpack takes no more", 0);
  if (fread(head, 1, sizeof head, answers) != sizeof head) stop("ls-qpack refused", question->bytes[0]);
  make_room(&answer, answer.len = number_at(head));
  if (fread(answer.bytes, 1, answer.len, answers) != answer.len) stop("ls-qpack ended", question->bytes[0]);
  free_pack(&framed);
  free_pack(question);
  return answer;
}

/* Takes the next string of an answer. */
static void take(pack *to, const uint8_t **at) {
  size_t len = number_at(*at);
  put_bytes(to, *at + 4, len);
  *at += 4 + len;
}

static void begin(char which, const heads_kind *kind) {
  pack question = {0};
  put_bytes(&question, &which, 1);
  put_number(&question, kind->capacity);
  put_number(&question, kind->blocked);
  pack answer = asked(&question);
  free_pack(&answer);
}

static void *writer_begin(const head_writer *writer, const heads_kind *kind) {
  begin('E', kind);
  return NULL;
}

static void *reader_begin(const heads_kind *kind) {
  begin('D', kind);
  return NULL;
}

static void finish(void *end) {}

static void write_head(void *end, size_t number, const field_list *list, pack *instructions, pack *section) {
  pack question = {0};
  put_bytes(&question, "w", 1);
  put_number(&question, 4 * number);
  put_list(&question, list);
  pack answer = asked(&question);
  const uint8_t *at = answer.bytes;
  take(instructions, &at);
  take(section, &at);
  free_pack(&answer);
}

static void hear(void *end, const pack *replies) {
  pack question = {0};
  put_bytes(&question, "h", 1);
  put_string(&question, replies->bytes, replies->len);
  pack answer = asked(&question);
  free_pack(&answer);
}

static void read_head(void *end, size_t number, const pack *instructions, const pack *section, pack *list, pack *replies) {
  pack question = {0};
  put_bytes(&question, "r", 1);
  put_number(&question, 4 * number);
  put_string(&question, instructions->bytes, instructions->len);
  put_string(&question, section->bytes, section->len);
  pack answer = asked(&question);
  const uint8_t *at = answer.bytes;
  take(replies, &at);
  put_bytes(list, at, (size_t)(answer.bytes + answer.len - at));
  free_pack(&answer);
}

const head_writer lsqpack_heads = {writer_begin, write_head, hear, finish, 0, 0};
const head_reader lsqpack_reads = {"ls-qpack", reader_begin, read_head, finish};
