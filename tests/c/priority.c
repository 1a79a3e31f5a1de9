/* Values of the `priority` field through the header: what RFC 9218, section 4, and RFC 8941, section 4.2, say of each text. */
#include "h3.h"
#include <string.h>
#define TEST "priority"
#include "expect.h"

static void of_values(void) {
  static const struct {
    const char *value;
    uint32_t urgency, incremental;
  } of[] = {
      {"", 3, 0},           {"u=0", 0, 0},         {"u=-0", 0, 0},          {"u=0001", 1, 0},         {"i", 3, 1},
      {"i=?0", 3, 0},       {"u=8", 3, 0},         {"u=-1", 3, 0},          {"u=1.0", 3, 0},          {"u=\"1\"", 3, 0},
      {"u", 3, 0},          {"u=5;x=2, i", 5, 1},  {"a=(1 2);q, u=2", 2, 0}, {"a=:YQ==:, u=2", 2, 0}, {"a=\"x,u=1\", u=2", 2, 0},
      {"*a=b/c:d,u=2", 2, 0}, {"u=1,u=7", 7, 0},   {"u=1,u=9", 3, 0},       {"i=1", 3, 0},            {" u=1", 1, 0},
      {"u=1 ", 1, 0},       {"u=1\t", 1, 0},       {"u=1,\ti", 1, 1},       {"u=1,u=a", 3, 0},        {"uv=1", 3, 0},
  };
  for (size_t i = 0; i < sizeof of / sizeof *of; i++) {
    uint32_t urgency = 9, incremental = 9;
    IS(h3_priority_read(of[i].value, strlen(of[i].value), &urgency, &incremental), H3_OK);
    HOLDS(urgency == of[i].urgency && incremental == of[i].incremental);
  }
}

static void of_no_dictionaries(void) {
  static const char *const of[] = {"u=1,", "U=1", "u = 1", "\tu=1", "u=1 ;x", "u=1;;", "u=?2", "u=1,,i", "a=(1,2), u=2", "a=1., u=2", "a=\"\\q\"",
                                   "a=1234567890123456", "a=1.2345", "a=-", "a=@1"};
  for (size_t i = 0; i < sizeof of / sizeof *of; i++) {
    uint32_t urgency = 9, incremental = 9;
    IS(h3_priority_read(of[i], strlen(of[i]), &urgency, &incremental), H3_FIELD_VALUE);
    HOLDS(urgency == 9 && incremental == 9);
  }
}

static void of_arguments(void) {
  uint32_t urgency = 9, incremental = 9;
  IS(h3_priority_read(NULL, 1, &urgency, &incremental), H3_ARGUMENT);
  IS(h3_priority_read("u=1", 3, NULL, &incremental), H3_ARGUMENT);
  IS(h3_priority_read("u=1", 3, &urgency, NULL), H3_ARGUMENT);
  HOLDS(urgency == 9 && incremental == 9);
  IS(h3_priority_read(NULL, 0, &urgency, &incremental), H3_OK);
  HOLDS(urgency == 3 && incremental == 0);
}

int main(void) {
  of_values();
  of_no_dictionaries();
  of_arguments();
  if (!bad) puts("ok priority: 40 values of the field, as RFC 9218 and RFC 8941 have them");
  return bad;
}
