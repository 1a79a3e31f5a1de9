/* What is found by a number of 64 bits: a request or a stream by its id, a connection by a connection id. */
#ifndef EXAMPLES_TABLE_H
#define EXAMPLES_TABLE_H
#include <stddef.h>
#include <stdint.h>

enum { TABLE_PLACES = 64 };

/* The first member of what is found. A table owns nothing, and takes no memory. */
typedef struct entry {
  struct entry *next; /* of those that have the same place */
  uint64_t id;
} entry;

/* Empty where all is zero. */
typedef struct {
  entry *places[TABLE_PLACES];
} table;

/* The ids of requests differ by 4. */
static inline size_t table_place(uint64_t id) { return (id / 4) % TABLE_PLACES; }

/* What has this id, or NULL. */
static inline void *table_find(const table *table, uint64_t id) {
  entry *found = table->places[table_place(id)];
  while (found && found->id != id) found = found->next;
  return found;
}

/* Adds what has an id that no other has. */
static inline void table_add(table *table, entry *added, uint64_t id) {
  entry **place = &table->places[table_place(id)];
  *added = (entry){*place, id};
  *place = added;
}

/* Takes out what is in the table. */
static inline void table_remove(table *table, entry *removed) {
  entry **at = &table->places[table_place(removed->id)];
  while (*at != removed) at = &(*at)->next;
  *at = removed->next;
}

/* Any one, or NULL where the table is empty. */
static inline void *table_any(const table *table) {
  for (size_t i = 0; i < TABLE_PLACES; i++)
    if (table->places[i]) return table->places[i];
  return NULL;
}
#endif
