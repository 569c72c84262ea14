/* The loops of bench/store.py in C. usage: store LOOP TURNS TIMES. The status is 0 where the loop is there and its sum is right. */
#include <stdint.h>
#include <stdlib.h>
#include <string.h>

enum kind { NOTHING, INTEGER };

typedef struct {
  enum kind kind;
  uint64_t high, low;
} value;

typedef struct {
  value *items;
  size_t count, room;
} list;

/* Lists and objects, within a limit of units. */
typedef struct {
  list *objects;
  size_t count;
  uint64_t used, limit;
} store;

static value integer_value(__int128 number) {
  return (value){INTEGER, (uint64_t)((unsigned __int128)number >> 64), (uint64_t)number};
}

static __int128 integer_of(value v) { return (__int128)((unsigned __int128)v.high << 64 | v.low); }

static int push(store *s, size_t r, value v) {
  if (r >= s->count || s->used >= s->limit) return 0;
  list *l = &s->objects[r];
  if (l->count == l->room) {
    size_t room = l->room ? 2 * l->room : 4;
    value *items = realloc(l->items, room * sizeof *items);
    if (!items) return 0;
    l->items = items;
    l->room = room;
  }
  l->items[l->count++] = v;
  s->used++;
  return 1;
}

static value field(const store *s, size_t r, uint32_t at) {
  if (r >= s->count || at >= s->objects[r].count) return (value){NOTHING, 0, 0};
  return s->objects[r].items[at];
}

static value sum(value x, value y) {
  __int128 total;
  if (x.kind != INTEGER || y.kind != INTEGER || __builtin_add_overflow(integer_of(x), integer_of(y), &total))
    return (value){NOTHING, 0, 0};
  return integer_value(total);
}

/* Keeps a compiler from making one turn of several. */
#define TURN(at) __asm__ volatile("" : "+r"(at) : : "memory")

static int empty(uint32_t turns) {
  for (uint32_t at = 0; at < turns; at++) TURN(at);
  return 0;
}

static int pushes(uint32_t turns) {
  list one = {NULL, 0, 0};
  store s = {&one, 1, 1, 2000000};
  for (uint32_t at = 0; at < turns; at++) {
    TURN(at);
    if (!push(&s, 0, integer_value(at))) return 1;
  }
  free(one.items);
  return one.count != turns;
}

static int field_reads(uint32_t turns) {
  value items[] = {{INTEGER, 0, 1}};
  list one = {items, 1, 1};
  store s = {&one, 1, 1, 2000000};
  uint64_t total = 0;
  for (uint32_t at = 0; at < turns; at++) {
    TURN(at);
    total += field(&s, 0, 0).low;
  }
  return total != turns;
}

static int sums(uint32_t turns) {
  value step = integer_value(((__int128)1 << 64) + 1), total = integer_value(0);
  for (uint32_t at = 0; at < turns; at++) {
    TURN(at);
    total = sum(total, step);
  }
  return total.high != turns || total.low != turns;
}

int main(int count, char **words) {
  static const struct {
    const char *name;
    int (*run)(uint32_t);
  } loops[] = {{"empty", empty}, {"pushes", pushes}, {"field_reads", field_reads}, {"sums", sums}};
  if (count != 4) return 2;
  for (size_t i = 0; i < sizeof loops / sizeof *loops; i++)
    if (!strcmp(words[1], loops[i].name)) {
      int wrong = 0;
      for (long times = atol(words[3]); times > 0; times--) wrong |= loops[i].run((uint32_t)atol(words[2]));
      return wrong;
    }
  return 2;
}
