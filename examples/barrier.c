// Four threads smooth a ring of numbers in rounds, each its own quarter, and wait for one another at a barrier whose sense turns
// with each round. Thread 0 puts out the sum, which stays 480 since what one place gives the next one gets.
#include "lasagne.h"

enum { THREADS = 4, QUARTER = 4, SIZE = THREADS * QUARTER, ROUNDS = 10 };

static unsigned ring[2][SIZE];
static atomic_uint missing = THREADS, sense;

static __attribute__((noinline)) void wait_for_all(void) {
  const unsigned now = atomic_load_explicit(&sense, memory_order_relaxed);
  if (atomic_fetch_sub(&missing, 1) == 1) {
    atomic_store_explicit(&missing, THREADS, memory_order_relaxed);
    atomic_store_explicit(&sense, now + 1, memory_order_release);
  } else {
    while (atomic_load_explicit(&sense, memory_order_acquire) == now) relax();
  }
}

// each place keeps the upper half of its number and gets the lower half of the one before
static __attribute__((noinline)) void smooth(int thread) {
  for (int n = thread * QUARTER; n < (thread + 1) * QUARTER; n++) ring[0][n] = 4 * n;
  for (int round = 0; round < ROUNDS; round++) {
    wait_for_all();
    const unsigned *from = ring[round & 1];
    unsigned *to = ring[~round & 1];
    for (int n = thread * QUARTER; n < (thread + 1) * QUARTER; n++) {
      const unsigned before = from[(n + SIZE - 1) & (SIZE - 1)];
      to[n] = (from[n] + 1) / 2 + before / 2;
    }
  }
  wait_for_all();
}

void thread_0(void) {
  smooth(0);
  unsigned long sum = 0;
  for (int n = 0; n < SIZE; n++) sum += ring[ROUNDS & 1][n];
  lsg_output(sum);
}

void thread_1(void) { smooth(1); }

void thread_2(void) { smooth(2); }

void thread_3(void) { smooth(3); }
