#include "files.h"
#include "types.h"
#include <fcntl.h>
#include <stdio.h>
#include <stdlib.h>
#include <string.h>
#include <sys/stat.h>
#include <time.h>
#include <unistd.h>

enum {
  PLACES = 64,       /* files that are kept for a second */
  SMALL = 16 * 1024, /* bytes of a file that is read whole when it is opened */
  PATH = 4096
};

/* A regular file that is open, or a small one that was read. It is freed when nobody uses it any more. */
struct shared_file {
  int file;       /* -1: `bytes` has all of it */
  uint64_t length;
  http3_list *head;
  uint8_t *bytes;
  size_t users;   /* requests, and its place below */
  time_t at;      /* when it was opened */
  time_t changed_at;
  char changed[DATE_TEXT], tag[FILES_TAG];
  char path[];    /* as the request has it */
};

static int root = -1; /* the folder */
static shared_file *places[PLACES];

static int hex(char digit) {
  const char *digits = "0123456789abcdef", *at = digit ? strchr(digits, digit | 0x20) : NULL;
  return at ? (int)(at - digits) : -1;
}

/* The segments of a path, with its %XX read and its query cut off, at `text`. false: it is no path of a file here. */
static bool read_path(const char *path, char *text, size_t room) {
  size_t count = 0;
  if (*path != '/') return false;
  for (; *path && *path != '?' && *path != '#'; path++) {
    int byte = (unsigned char)*path;
    if (byte == '%') {
      int high = hex(path[1]), low = high < 0 ? -1 : hex(path[2]);
      if (low < 0) return false;
      byte = 16 * high + low;
      path += 2;
    }
    if (byte == 0 || count + 1 >= room) return false;
    text[count++] = (char)byte;
  }
  text[count] = 0;
  return true;
}

/* Opens a path below the folder, segment by segment, so that neither `..` nor a link leads out of it. -1: there is none. */
static int open_below(char *path) {
  char *rest, *segment = strtok_r(path, "/", &rest);
  int at = segment ? root : dup(root);
  while (at >= 0 && segment) {
    int found = strcmp(segment, "..") == 0 || strcmp(segment, ".") == 0
                    ? -1
                    : openat(at, segment, O_RDONLY | O_NOFOLLOW | O_CLOEXEC | O_NONBLOCK);
    if (at != root) close(at);
    at = found;
    segment = strtok_r(NULL, "/", &rest);
  }
  return at;
}

/* The regular file that a path names, or the index of a folder. -1: there is none. */
static int open_file(const char *path, struct stat *status) {
  char text[PATH];
  int file = read_path(path, text, sizeof text) ? open_below(text) : -1;
  bool found = file >= 0 && fstat(file, status) == 0;
  if (found && S_ISDIR(status->st_mode)) {
    int index = openat(file, "index.html", O_RDONLY | O_NOFOLLOW | O_CLOEXEC | O_NONBLOCK);
    close(file);
    file = index;
    found = file >= 0 && fstat(file, status) == 0;
  }
  if (found && S_ISREG(status->st_mode)) return file;
  if (file >= 0) close(file);
  return -1;
}

/* Reads a small file whole, which then needs no descriptor. Where that fails the file is read as others are. */
static void read_small(shared_file *file) {
  if (file->length > SMALL || !(file->bytes = malloc(file->length + 1))) return;
  ssize_t count = pread(file->file, file->bytes, file->length + 1, 0);
  if (count >= 0 && (uint64_t)count == file->length) {
    close(file->file);
    file->file = -1;
    return;
  }
  free(file->bytes);
  file->bytes = NULL;
}

/* What identifies this state of a file: its length and when it changed (RFC 9110, section 8.8.3). */
static void make_tag(const struct stat *status, char tag[FILES_TAG]) {
  snprintf(tag, FILES_TAG, "\"%llx-%llx-%lx\"", (unsigned long long)status->st_size, (unsigned long long)status->st_mtim.tv_sec,
           (unsigned long)status->st_mtim.tv_nsec);
}

static http3_list *make_head(const shared_file *file) {
  char digits[24], date[DATE_TEXT];
  http3_field fields[] = {{":status", "200"}, {"content-type", types_of(file->path)}, {"content-length", digits}, {"date", date},
                          {"server", "h3-serve"}, {"last-modified", file->changed}, {"etag", file->tag}, {"accept-ranges", "bytes"}};
  snprintf(digits, sizeof digits, "%llu", (unsigned long long)file->length);
  date_text(time(NULL), date);
  return http3_list_of(fields, 8);
}

static shared_file *open_new(const char *path, time_t now) {
  struct stat status;
  size_t count = strlen(path) + 1;
  int opened = open_file(path, &status);
  if (opened < 0) return NULL;
  shared_file *file = malloc(sizeof *file + count);
  if (!file) {
    close(opened);
    return NULL;
  }
  *file = (shared_file){.file = opened, .length = (uint64_t)status.st_size, .users = 1, .at = now, .changed_at = status.st_mtim.tv_sec};
  memcpy(file->path, path, count);
  make_tag(&status, file->tag);
  date_text(file->changed_at, file->changed);
  file->head = make_head(file);
  if (!file->head) {
    files_close(file);
    return NULL;
  }
  read_small(file);
  return file;
}

/* The place of a path (FNV-1a). */
static shared_file **place_of(const char *path) {
  uint32_t hash = 2166136261;
  for (; *path; path++) hash = (hash ^ (unsigned char)*path) * 16777619;
  return &places[hash % PLACES];
}

bool files_begin(const char *folder) {
  root = open(folder, O_RDONLY | O_DIRECTORY | O_CLOEXEC);
  return root >= 0;
}

shared_file *files_open(const char *path) {
  shared_file **place = place_of(path), *file = *place;
  time_t now = time(NULL);
  if (file && (file->at != now || strcmp(file->path, path) != 0)) {
    files_close(file);
    *place = file = NULL;
  }
  if (!file) *place = file = open_new(path, now);
  if (file) file->users++;
  return file;
}

void files_close(shared_file *file) {
  if (--file->users > 0) return;
  if (file->file >= 0) close(file->file);
  free(file->head);
  free(file->bytes);
  free(file);
}

uint64_t files_length(const shared_file *file) { return file->length; }

const char *files_tag(const shared_file *file) { return file->tag; }

const char *files_changed(const shared_file *file) { return file->changed; }

time_t files_changed_at(const shared_file *file) { return file->changed_at; }

const char *files_type(const shared_file *file) { return types_of(file->path); }

const http3_list *files_head(const shared_file *file) { return file->head; }

bool files_read(const shared_file *file, uint64_t from, uint8_t *bytes, size_t count) {
  if (file->bytes) {
    memcpy(bytes, file->bytes + from, count);
    return true;
  }
  while (count > 0) {
    ssize_t done = pread(file->file, bytes, count, (off_t)from);
    if (done <= 0) return false;
    from += (uint64_t)done;
    bytes += done;
    count -= (size_t)done;
  }
  return true;
}

void files_sweep(void) {
  static time_t swept;
  time_t now = time(NULL);
  if (now == swept) return;
  swept = now;
  for (size_t i = 0; i < PLACES; i++) {
    if (!places[i] || places[i]->at == now) continue;
    files_close(places[i]);
    places[i] = NULL;
  }
}

void files_end(void) {
  for (size_t i = 0; i < PLACES; i++) {
    if (places[i]) files_close(places[i]);
    places[i] = NULL;
  }
  if (root >= 0) close(root);
  root = -1;
}
