/* The least that starting a fiber, and joining or canceling it, takes where each has a body, a trace and numbers of its own: the events of
 * both, what each tells the other, three blocks of memory taken and two given back.
 *
 *     fibers WORK N EVENT
 *
 * WORK is `spawn`, (for i N (start h (pure i) (join h ..))), or `cancel`, (for i N (start h (never) (cancel h))), on one thread. */
#include "interpreters.h"

enum { STARTED, REQUESTED, SEEN, JOINED, CANCELED, ENDED };

typedef struct {
  uint64_t id, clock, entered, acquired, closed, focus, *numbers;
  _Atomic uint64_t *requested, *outcome;
  void *contexts, *regions;
  Trace trace;
} Fiber;

/* What all know of one number: who is requested, how it ended, and who waits for that. */
typedef struct {
  _Atomic uint64_t requested, outcome;
  uint64_t waits, next_able;
  Trace kept;
} Word;

static COLD Fiber *start(Word *words, Fiber *parent, uint64_t id, uint64_t number) {
  Fiber *child = malloc(sizeof *child);
  uint64_t *numbers = malloc(sizeof *numbers);
  *numbers = number;
  show(&parent->trace, STARTED, id);
  *child = (Fiber){.id = id, .clock = ++parent->clock, .numbers = numbers, .requested = &words[id].requested, .outcome = &words[id].outcome};
  words[0].next_able = id;
  return child;
}

static COLD void end(Word *words, Fiber *fiber, uint64_t outcome) {
  show(&fiber->trace, ENDED, outcome);
  atomic_store(&words[fiber->id].outcome, outcome | ++fiber->clock << 2);
  words[0].next_able = words[fiber->id].waits; /* the one that waits for it */
  words[fiber->id].kept = fiber->trace;
  free(fiber->numbers);
  free(fiber);
}

static COLD void child_turn(Word *words, Fiber *child, int is_cancel) {
  if (atomic_load(child->requested)) {
    show(&child->trace, SEEN, 0);
    end(words, child, CANCELED);
  } else if (!is_cancel) {
    end(words, child, *child->numbers);
  }
}

int main(int argc, char **argv) {
  if (argc < 4)
    return 2;
  uint64_t n = strtoull(argv[2], 0, 10);
  event_bytes = atoi(argv[3]);
  int is_cancel = !strcmp(argv[1], "cancel");
  Word *words = calloc(n + 2, sizeof *words);
  Fiber *main_fiber = calloc(1, sizeof *main_fiber);
  for (uint64_t k = 0; k < n; k++) {
    uint64_t id = k + 1;
    Fiber *child = start(words, main_fiber, id, k);
    if (is_cancel) {
      show(&main_fiber->trace, REQUESTED, id);
      atomic_store(&words[id].requested, ++main_fiber->clock << 1 | 1);
    }
    if (atomic_load(&words[id].outcome) == 0)
      words[id].waits = 0; /* the main fiber is listed, and gives way */
    child_turn(words, child, is_cancel);
    uint64_t outcome = atomic_load(&words[id].outcome);
    if (outcome >> 2 > main_fiber->clock)
      main_fiber->clock = outcome >> 2;
    show(&main_fiber->trace, JOINED, id);
  }
}
