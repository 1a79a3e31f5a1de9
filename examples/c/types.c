#include "types.h"
#include <stdio.h>
#include <stdlib.h>
#include <string.h>
#include <strings.h>

typedef struct {
  const char *ending, *type;
} known;

static const known FEW[] = {{"html", "text/html; charset=utf-8"}, {"txt", "text/plain; charset=utf-8"}, {"css", "text/css"},
                            {"js", "text/javascript"},            {"json", "application/json"},         {"wasm", "application/wasm"},
                            {"png", "image/png"},                 {"jpg", "image/jpeg"},                {"jpeg", "image/jpeg"},
                            {"gif", "image/gif"},                 {"webp", "image/webp"},               {"svg", "image/svg+xml"},
                            {"ico", "image/vnd.microsoft.icon"},  {"mp4", "video/mp4"},                 {"pdf", "application/pdf"},
                            {"xml", "application/xml"},           {"md", "text/markdown; charset=utf-8"}};

static char *text;   /* of the file, cut into words */
static known *many;  /* sorted by ending */
static size_t count;

static int compare(const void *one, const void *other) { return strcasecmp(((const known *)one)->ending, ((const known *)other)->ending); }

/* A line: a type, and the endings that have it. */
static void read_line(char *line) {
  char *rest, *type = strtok_r(line, " \t", &rest);
  if (!type || *type == '#') return;
  for (char *ending; (ending = strtok_r(NULL, " \t", &rest));) {
    known *more = count % 256 == 0 ? realloc(many, (count + 256) * sizeof *many) : many;
    if (!more) return;
    many = more;
    many[count++] = (known){ending, type};
  }
}

void types_begin(void) {
  FILE *file = fopen("/etc/mime.types", "r");
  size_t room = 0;
  if (!file) return;
  ssize_t length = getdelim(&text, &room, 0, file);
  fclose(file);
  char *rest, *line = length > 0 ? strtok_r(text, "\n", &rest) : NULL;
  for (; line; line = strtok_r(NULL, "\n", &rest)) read_line(line);
  if (count > 0) qsort(many, count, sizeof *many, compare);
}

const char *types_of(const char *path) {
  size_t length = strcspn(path, "?#");
  char ending[16] = "html"; /* of the index of a folder */
  if (length == 0 || path[length - 1] != '/') {
    size_t at = length;
    while (at > 0 && path[at - 1] != '.' && path[at - 1] != '/') at--;
    if (at == 0 || path[at - 1] != '.' || length - at >= sizeof ending) return "application/octet-stream";
    memcpy(ending, path + at, length - at);
    ending[length - at] = 0;
  }
  for (size_t i = 0; i < sizeof FEW / sizeof *FEW; i++)
    if (strcasecmp(FEW[i].ending, ending) == 0) return FEW[i].type;
  const known wanted = {ending, NULL}, *found = count > 0 ? bsearch(&wanted, many, count, sizeof *many, compare) : NULL;
  return found ? found->type : "application/octet-stream";
}

void types_end(void) {
  free(many);
  free(text);
  many = NULL;
  text = NULL;
  count = 0;
}
