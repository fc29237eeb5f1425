/* Two producers and two consumers on four threads, through one queue of 64: as a ring that is asked for each element, or behind a lock that
 * is held for as many elements as can be put or taken in one go, up to BURST. Each tells an event of 16 bytes for each element. Who finds
 * no room or no element looks again, and after 50 times gives way.
 *
 *     cc -O3 -pthread -o bursts bursts.c && ./bursts N BURST        BURST 0 is the ring
 *
 * It prints the nanoseconds an element. */
#define _GNU_SOURCE
#include "interpreters.h"
#include <pthread.h>
#include <sched.h>
#include <stdio.h>
#include <time.h>

static struct {
  APART _Atomic int is_held;
  uint64_t head, tail, values[64];
} shared;

static uint64_t count, most;

static void lock(void) {
  int looks = 0;
  while (atomic_exchange(&shared.is_held, 1))
    while (atomic_load_explicit(&shared.is_held, memory_order_relaxed))
      if (++looks == 100) {
        sched_yield();
        looks = 0;
      }
}

static void unlock(void) { atomic_store(&shared.is_held, 0); }

static void look_again(int *looks) {
  if (++*looks > 50) {
    sched_yield();
    *looks = 0;
  } else {
    __builtin_ia32_pause();
  }
}

static void *producer(void *trace) {
  int looks = 0;
  uint64_t put_so_far = 0;
  while (put_so_far < count) {
    uint64_t before = put_so_far;
    if (most == 0) {
      if (put(0, put_so_far, put_so_far))
        show(trace, 1, put_so_far++);
    } else {
      lock();
      while (put_so_far < count && put_so_far - before < most && shared.tail - shared.head < 64) {
        shared.values[shared.tail++ & 63] = put_so_far;
        show(trace, 1, put_so_far++);
      }
      unlock();
    }
    if (put_so_far == before)
      look_again(&looks);
  }
  return 0;
}

static void *consumer(void *trace) {
  int looks = 0;
  uint64_t taken = 0;
  while (taken < count) {
    uint64_t before = taken, value;
    if (most == 0) {
      if (get(&value)) {
        show(trace, 2, value);
        taken++;
      }
    } else {
      lock();
      while (taken < count && taken - before < most && shared.head < shared.tail) {
        show(trace, 2, shared.values[shared.head++ & 63]);
        taken++;
      }
      unlock();
    }
    if (taken == before)
      look_again(&looks);
  }
  return 0;
}

int main(int argc, char **argv) {
  if (argc < 3)
    return 2;
  count = strtoull(argv[1], 0, 10);
  most = strtoull(argv[2], 0, 10);
  event_bytes = 16;
  empty_ring();
  Trace traces[4] = {0};
  pthread_t threads[4];
  struct timespec begin, end;
  clock_gettime(CLOCK_MONOTONIC, &begin);
  for (int k = 0; k < 4; k++)
    pthread_create(&threads[k], 0, k & 1 ? consumer : producer, &traces[k]);
  for (int k = 0; k < 4; k++)
    pthread_join(threads[k], 0);
  clock_gettime(CLOCK_MONOTONIC, &end);
  printf("%.0f\n", ((end.tv_sec - begin.tv_sec) * 1e9 + end.tv_nsec - begin.tv_nsec) / count / 2);
}
