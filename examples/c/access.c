#include "access.h"
#include <stdio.h>
#include <stdlib.h>
#include <string.h>
#include <time.h>

static FILE *log_file;
static uint64_t counts[6], failed; /* of answers by the first digit of their status; 0: of requests without one */

bool access_open(const char *file) {
  FILE *opened = !file ? NULL : strcmp(file, "-") == 0 ? stdout : fopen(file, "ae");
  if (file && !opened) return false;
  access_close();
  log_file = opened;
  return true;
}

void access_flush(void) {
  if (log_file) fflush(log_file);
}

void access_close(void) {
  if (log_file && log_file != stdout) fclose(log_file);
  log_file = NULL;
}

/* Copies text, and writes what could be taken for something else as %XX. */
static char *put_text(char *at, const char *text) {
  for (; *text; text++) {
    unsigned char byte = (unsigned char)*text;
    if (byte > ' ' && byte < 127 && byte != '"' && byte != '\\') *at++ = (char)byte;
    else at += sprintf(at, "%%%02X", byte);
  }
  return at;
}

void access_begin(access_entry *entry, const char *method, const char *path) {
  entry->began_at = quic_time();
  entry->line = log_file ? malloc(3 * (strlen(method) + strlen(path)) + 2) : NULL;
  if (!entry->line) return;
  char *at = put_text(entry->line, method);
  *at++ = ' ';
  *put_text(at, path) = 0;
}

void access_end(access_entry *entry, http3 *h) {
  counts[entry->status / 100 < 6 ? entry->status / 100 : 0]++;
  failed += entry->failed != NULL;
  if (log_file && entry->line) {
    char peer[QUIC_PLACE], date[32];
    time_t now = time(NULL);
    struct tm parts;
    http3_peer(h, peer);
    strftime(date, sizeof date, "%Y-%m-%dT%H:%M:%SZ", gmtime_r(&now, &parts));
    fprintf(log_file, "%s %s \"%s\" %u %llu %llu ms %s\n", date, peer, entry->line, entry->status, (unsigned long long)entry->sent,
            (unsigned long long)(quic_time() - entry->began_at), entry->failed ? entry->failed : "-");
  }
  free(entry->line);
  entry->line = NULL;
}

void access_show(quic_socket *socket) {
  quic_counts quic = quic_counted(socket);
  fprintf(stderr,
          "connections %zu open, %llu taken, %llu refused, %llu sent a Retry; answers 2xx %llu, 3xx %llu, 4xx %llu, 5xx %llu, requests failed "
          "%llu; packets %llu in, %llu out; bytes %llu in, %llu out\n",
          quic_count(socket), (unsigned long long)quic.accepted, (unsigned long long)quic.refused, (unsigned long long)quic.retried,
          (unsigned long long)counts[2], (unsigned long long)counts[3], (unsigned long long)counts[4], (unsigned long long)counts[5],
          (unsigned long long)failed, (unsigned long long)quic.packets_in, (unsigned long long)quic.packets_out,
          (unsigned long long)quic.bytes_in, (unsigned long long)quic.bytes_out);
}
