/* Linked with --wrap=h3_raw_config_default: the default of the option `table` is the number TABLE of the environment. */
#include <stddef.h>
#include <stdint.h>
#include <stdlib.h>

void __real_h3_raw_config_default(uint64_t *numbers, size_t count);
void __wrap_h3_raw_config_default(uint64_t *numbers, size_t count) {
  const char *table = getenv("TABLE");
  __real_h3_raw_config_default(numbers, count);
  if (table && count > 3) numbers[3] = strtoull(table, NULL, 10); /* its place in h3_config (include/h3.h) */
}
