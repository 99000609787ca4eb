// Two threads count under Peterson's lock, which has no atomic operation but a fence: without it, a processor may read the other's
// flag before its own is seen, and both may enter. Thread 0 puts out the count, 1000.
#include "lasagne.h"
#include <stdbool.h>

enum { ROUNDS = 500 };

static atomic_bool wants[2];
static atomic_uint turn;
static unsigned long counter;
static atomic_ulong done;

static void lock(unsigned me) {
  atomic_store_explicit(&wants[me], true, memory_order_relaxed);
  atomic_store_explicit(&turn, 1 - me, memory_order_relaxed);
  __asm__ volatile("mfence" ::: "memory");
  while (atomic_load_explicit(&wants[1 - me], memory_order_acquire) && atomic_load_explicit(&turn, memory_order_acquire) == 1 - me)
    relax();
}

static void unlock(unsigned me) { atomic_store_explicit(&wants[me], false, memory_order_release); }

static __attribute__((noinline)) void count(unsigned me) {
  for (int n = 0; n < ROUNDS; n++) {
    lock(me);
    counter++;
    unlock(me);
  }
  atomic_fetch_add(&done, 1);
}

void thread_0(void) {
  count(0);
  await(&done, 2);
  lsg_output(counter);
}

void thread_1(void) { count(1); }
