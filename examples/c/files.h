/* The files below a folder, for serve: paths of requests, and files that several requests may share, with the head of their answers. */
#ifndef EXAMPLES_FILES_H
#define EXAMPLES_FILES_H
#include "date.h"
#include "http3.h"

enum { FILES_TAG = 56 }; /* bytes of an entity tag */

typedef struct shared_file shared_file;

/* The folder, once, before any file. false: there is none; errno says why. */
bool files_begin(const char *folder);
/* Opens the file that a path names, or the index of a folder. NULL: there is none, or no memory. What was opened within the last second is handed out
 * again. Each answer needs one files_close. */
shared_file *files_open(const char *path);
void files_close(shared_file *file);
/* Its length when it was opened. */
uint64_t files_length(const shared_file *file);
/* What identifies its state (RFC 9110, section 8.8.3), with its quotes; when it was changed, as text and time; its content type. */
const char *files_tag(const shared_file *file);
const char *files_changed(const shared_file *file);
time_t files_changed_at(const shared_file *file);
const char *files_type(const shared_file *file);
/* The head of an answer that has the file as its body. */
const http3_list *files_head(const shared_file *file);
/* Copies so many bytes from an offset on. false: it has shrunk, or cannot be read. */
bool files_read(const shared_file *file, uint64_t from, uint8_t *bytes, size_t count);
/* Closes what was opened before this second and nobody uses. Call it each second. */
void files_sweep(void);
/* Frees what is kept for a second, and the folder. */
void files_end(void);
#endif
