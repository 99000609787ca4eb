// A sequence lock: the writer makes the sequence odd while it writes a pair, and readers read again where it was odd or changed.
// Both numbers of a pair are equal; each reader counts pairs that are not, and thread 0 puts out both counts, 0 0.
#include "lasagne.h"

enum { ROUNDS = 1000, PAIRS = 200 };

static atomic_ulong sequence;
static atomic_ulong left, right;
static unsigned long torn[2];
static atomic_ulong done;

static __attribute__((noinline)) void write_pair(unsigned long value) {
  const unsigned long now = atomic_load_explicit(&sequence, memory_order_relaxed);
  atomic_store_explicit(&sequence, now + 1, memory_order_relaxed);
  atomic_thread_fence(memory_order_release);
  atomic_store_explicit(&left, value, memory_order_relaxed);
  atomic_store_explicit(&right, value, memory_order_relaxed);
  atomic_store_explicit(&sequence, now + 2, memory_order_release);
}

// 1 where the pair that was read has two numbers
static __attribute__((noinline)) unsigned long read_pair(void) {
  unsigned long before, after, a, b;
  do {
    before = atomic_load_explicit(&sequence, memory_order_acquire);
    a = atomic_load_explicit(&left, memory_order_relaxed);
    b = atomic_load_explicit(&right, memory_order_relaxed);
    atomic_thread_fence(memory_order_acquire);
    after = atomic_load_explicit(&sequence, memory_order_relaxed);
  } while (before != after || (before & 1) != 0);
  return a != b;
}

static __attribute__((noinline)) void read_pairs(int reader) {
  unsigned long count = 0;
  for (int n = 0; n < PAIRS; n++) count += read_pair();
  torn[reader] = count;
  atomic_fetch_add(&done, 1);
}

void thread_0(void) {
  for (unsigned long n = 1; n <= ROUNDS; n++) write_pair(n);
  await(&done, 2);
  lsg_output(torn[0]);
  lsg_output(torn[1]);
}

void thread_1(void) { read_pairs(0); }

void thread_2(void) { read_pairs(1); }
