/* The least that an interpreter takes whose terms were decoded into a flat list of rules: each rule knows the next one, and no context is
 * entered or left. A computed jump leads from rule to rule.
 *
 *     flat WORK N EVENT        as contexts.c has it */
#include "interpreters.h"

typedef struct {
  void *rule;
  uint32_t slot, next, otherwise;
  uint64_t count;
} Rule;

typedef struct {
  uint32_t id, at, closed, entered;
  uint64_t result, puts, slots[16], regions[16];
  uint8_t took_off[16];
  _Atomic uint64_t requested;
  Trace trace;
} Fiber;

enum { BEGINS, TURNS, OFFERS, TAKES, MASKS, POLLS, PURE, POLL_ENDS, MASK_ENDS, ENDS };
enum { WAITS, GOES_ON, HAS_ENDED, IS_SET_UP };

#define GO(place)                                                                                                                            \
  do {                                                                                                                                       \
    at = (place);                                                                                                                            \
    if (--left == 0) {                                                                                                                       \
      f->at = at;                                                                                                                            \
      f->result = result;                                                                                                                    \
      return GOES_ON;                                                                                                                        \
    }                                                                                                                                        \
    r = &rules[at];                                                                                                                          \
    goto *r->rule;                                                                                                                           \
  } while (0)

/* One turn of the fiber; or, of no fiber, puts the places of the code into the list, where the numbers of rules stand. */
static COLD int turn(Fiber *f, Rule *rules, int most, int to_set_up) {
  static void *places[] = {&&begins, &&turns, &&offers, &&takes, &&masks, &&polls, &&pure, &&poll_ends, &&mask_ends, &&ends};
  for (int k = 0; k < to_set_up; k++)
    rules[k].rule = places[(intptr_t)rules[k].rule];
  if (!f)
    return IS_SET_UP;
  uint32_t at = f->at;
  uint64_t result = f->result;
  int left = most;
  Rule *r = &rules[at];
  goto *r->rule;
begins:
  if (atomic_load(&f->requested))
    return HAS_ENDED;
  f->slots[r->slot] = 0;
  GO(r->count ? r->next : r->otherwise);
turns: { /* the end of a turn, and what comes next in the loop */
  if (atomic_load(&f->requested))
    return HAS_ENDED;
  uint64_t turn = ++f->slots[r->slot];
  left--;
  if (turn < r->count)
    GO(r->next);
  result = 0;
  GO(r->otherwise);
}
offers: {
  uint64_t value = f->slots[r->slot];
  if (!put(f->id, f->puts, value)) {
    f->at = at;
    return WAITS;
  }
  f->puts++;
  show(&f->trace, OFFERS, value);
  result = 0;
  GO(r->next);
}
takes: {
  uint64_t value;
  if (!get(&value)) {
    f->at = at;
    return WAITS;
  }
  show(&f->trace, TAKES, value);
  result = value;
  GO(r->next);
}
masks:
  f->slots[r->slot] = f->entered;
  f->regions[f->closed++] = f->entered++;
  GO(r->next);
polls: {
  int took_off = f->closed && f->regions[f->closed - 1] == f->slots[r->slot];
  f->closed -= took_off;
  f->took_off[r->slot] = took_off;
  GO(r->next);
}
pure:
  result = f->slots[r->slot];
  GO(r->next);
poll_ends:
  if (f->took_off[r->slot])
    f->regions[f->closed++] = f->slots[r->slot];
  GO(r->next);
mask_ends:
  f->closed--;
  GO(r->next);
ends:
  return HAS_ENDED;
}

#define IS(rule) (void *)(intptr_t)(rule)

int main(int argc, char **argv) {
  uint64_t n;
  int is_pipe = asks_for_pipe(argc, argv, &n), count = is_pipe ? 4 : 1, live = count;
  Rule masks[] = {{IS(BEGINS), 0, 1, 7, n}, {IS(MASKS), 1, 2},     {IS(POLLS), 1, 3},       {IS(PURE), 0, 4},
                  {IS(POLL_ENDS), 1, 5},    {IS(MASK_ENDS), 0, 6}, {IS(TURNS), 0, 1, 7, n}, {IS(ENDS)}};
  Rule offers[] = {{IS(BEGINS), 0, 1, 3, n}, {IS(OFFERS), 0, 2}, {IS(TURNS), 0, 1, 3, n}, {IS(ENDS)}};
  Rule takes[] = {{IS(BEGINS), 0, 1, 3, n}, {IS(TAKES), 0, 2}, {IS(TURNS), 0, 1, 3, n}, {IS(ENDS)}};
  turn(0, masks, 0, 8);
  turn(0, offers, 0, 4);
  turn(0, takes, 0, 4);
  Fiber *fibers = calloc(count, sizeof *fibers);
  int ended[4] = {0};
  for (int at = 0; live; at = (at + 1) % count) {
    fibers[at].id = at;
    if (!ended[at] && turn(&fibers[at], !is_pipe ? masks : at < 2 ? offers : takes, 64, 0) == HAS_ENDED) {
      ended[at] = 1;
      live--;
    }
  }
}
