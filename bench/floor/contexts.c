/* The least that an interpreter takes which enters contexts and leaves them, as the rules of fibers are written down.
 *
 *     contexts WORK N EVENT
 *
 * WORK is `masks`, (for i N (mask p (poll p (pure i)))), or `pipe`, an element through a queue of 64, by two producers and two
 * consumers, N each, on one thread. EVENT is 24, 8 or 0, the bytes of an event. A fiber has turns of 64 rules. */
#include "interpreters.h"

enum { FOR, MASK, POLL, PURE, OFFER, TAKE };
enum { IN_LOOP, IN_MASK, IN_POLL };
enum { EVALUATES, RETURNS, TURNS };
enum { WAITS, GOES_ON, HAS_ENDED };

typedef struct {
  uint8_t form;
  uint16_t slot;
  uint32_t part;
  uint64_t count;
} Node;

typedef struct {
  uint8_t tag, took_off;
  uint32_t node;
  uint64_t number;
} Context;

typedef struct {
  uint32_t id, node, depth, closed, entered;
  int stands;
  uint64_t result, puts, slots[16], regions[16];
  Context contexts[64];
  _Atomic uint64_t requested;
  Trace trace;
} Fiber;

static COLD int turn(Fiber *f, const Node *code) {
  for (int left = 64; left > 0; left--) {
    if (f->stands != RETURNS && f->closed == 0 && atomic_load(&f->requested))
      return HAS_ENDED;
    const Node *at = &code[f->node];
    if (f->stands == EVALUATES) {
      switch (at->form) {
      case FOR:
        f->stands = TURNS;
        f->result = 0;
        break;
      case MASK:
        f->slots[at->slot] = f->entered;
        f->regions[f->closed++] = f->entered++;
        f->contexts[f->depth++] = (Context){IN_MASK};
        f->node = at->part;
        break;
      case POLL: {
        uint64_t region = f->slots[at->slot];
        int took_off = f->closed && f->regions[f->closed - 1] == region;
        f->closed -= took_off;
        f->contexts[f->depth++] = (Context){IN_POLL, took_off, 0, region};
        f->node = at->part;
        break;
      }
      case PURE:
        f->result = f->slots[at->slot];
        f->stands = RETURNS;
        break;
      case OFFER: {
        uint64_t value = f->slots[at->slot];
        if (!put(f->id, f->puts, value))
          return WAITS;
        f->puts++;
        show(&f->trace, OFFER, value);
        f->result = 0;
        f->stands = RETURNS;
        break;
      }
      case TAKE: {
        uint64_t value;
        if (!get(&value))
          return WAITS;
        show(&f->trace, TAKE, value);
        f->result = value;
        f->stands = RETURNS;
        break;
      }
      }
    } else if (f->stands == RETURNS) {
      if (f->depth == 0)
        return HAS_ENDED;
      Context *in = &f->contexts[--f->depth];
      switch (in->tag) {
      case IN_LOOP:
        f->node = in->node;
        f->result = in->number;
        f->stands = TURNS;
        break;
      case IN_MASK:
        f->closed--;
        break;
      case IN_POLL:
        if (in->took_off)
          f->regions[f->closed++] = in->number;
        break;
      }
    } else if (f->result < at->count) {
      f->slots[at->slot] = f->result;
      f->contexts[f->depth++] = (Context){IN_LOOP, 0, f->node, f->result + 1};
      f->node = at->part;
      f->stands = EVALUATES;
    } else {
      f->result = 0;
      f->stands = RETURNS;
    }
  }
  return GOES_ON;
}

int main(int argc, char **argv) {
  uint64_t n;
  int is_pipe = asks_for_pipe(argc, argv, &n), count = is_pipe ? 4 : 1, live = count;
  Node masks[] = {{FOR, 0, 1, n}, {MASK, 1, 2}, {POLL, 1, 3}, {PURE, 0}};
  Node offers[] = {{FOR, 0, 1, n}, {OFFER, 0}};
  Node takes[] = {{FOR, 0, 1, n}, {TAKE}};
  Fiber *fibers = calloc(count, sizeof *fibers);
  int ended[4] = {0};
  for (int at = 0; live; at = (at + 1) % count) {
    fibers[at].id = at;
    if (!ended[at] && turn(&fibers[at], !is_pipe ? masks : at < 2 ? offers : takes) == HAS_ENDED) {
      ended[at] = 1;
      live--;
    }
  }
}
