/* What the floors have in common: a trace, and a queue of 64 elements as a ring that any thread may use at any time. */
#include <stdatomic.h>
#include <stdint.h>
#include <stdlib.h>
#include <string.h>

#define COLD __attribute__((noinline))
#define APART _Alignas(128)

/* The events of one fiber, each of so many bytes: 24 as in the program's report, 16 without stamps, 8 packed, or 0 for none. */
typedef struct {
  char *events;
  size_t length, room;
} Trace;

static size_t event_bytes;

static COLD void grow(Trace *trace) {
  trace->room = trace->room ? 2 * trace->room : 4;
  trace->events = realloc(trace->events, trace->room * event_bytes);
}

static inline void show(Trace *trace, uint64_t kind, uint64_t value) {
  if (!event_bytes)
    return;
  if (trace->length == trace->room)
    grow(trace);
  uint64_t *event = (uint64_t *)(trace->events + trace->length++ * event_bytes);
  if (event_bytes == 8) {
    event[0] = kind | value << 16;
    return;
  }
  event[0] = kind;
  event[1] = value;
  if (event_bytes == 24)
    event[2] = trace->length; /* the stamp */
}

typedef struct {
  _Atomic uint64_t stamp;
  uint64_t fiber, nth, value;
} Slot;

static struct {
  APART _Atomic uint64_t head;
  APART _Atomic uint64_t tail;
  APART Slot slots[64];
  APART _Atomic uint64_t wait_for_room, wait_for_element;
} ring;

static void empty_ring(void) {
  for (int k = 0; k < 64; k++)
    ring.slots[k].stamp = k;
}

static inline int put(uint64_t fiber, uint64_t nth, uint64_t value) {
  uint64_t tail = atomic_load(&ring.tail);
  for (;;) {
    Slot *slot = &ring.slots[tail & 63];
    uint64_t stamp = atomic_load(&slot->stamp);
    if (stamp == tail) {
      if (!atomic_compare_exchange_strong(&ring.tail, &tail, tail + 1))
        continue;
      slot->fiber = fiber;
      slot->nth = nth;
      slot->value = value;
      atomic_store(&slot->stamp, tail + 1);
      if (atomic_load(&ring.wait_for_element))
        abort(); /* nobody is listed there: who waits asks again */
      return 1;
    }
    if (stamp + 63 == tail && atomic_load(&ring.head) + 64 == tail)
      return 0;
    tail = atomic_load(&ring.tail);
  }
}

static inline int get(uint64_t *value) {
  uint64_t head = atomic_load(&ring.head);
  for (;;) {
    Slot *slot = &ring.slots[head & 63];
    uint64_t stamp = atomic_load(&slot->stamp);
    if (stamp == head + 1) {
      if (!atomic_compare_exchange_strong(&ring.head, &head, head + 1))
        continue;
      *value = slot->value;
      atomic_store(&slot->stamp, head + 64);
      if (atomic_load(&ring.wait_for_room))
        abort();
      return 1;
    }
    if (stamp == head && atomic_load(&ring.tail) == head)
      return 0;
    head = atomic_load(&ring.head);
  }
}

/* Whether the words of a program ask for the queue, and not for masks. They say how many turns, and the bytes of an event, too. */
static inline int asks_for_pipe(int words, char **word, uint64_t *turns) {
  if (words < 4)
    exit(2);
  *turns = strtoull(word[2], 0, 10);
  event_bytes = atoi(word[3]);
  empty_ring();
  return !strcmp(word[1], "pipe");
}
