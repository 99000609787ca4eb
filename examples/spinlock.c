// Three threads count together, each under one spinlock. Thread 0 waits for the others and puts out the count, 3000.
#include "lasagne.h"

enum { ROUNDS = 1000, THREADS = 3 };

static atomic_int locked;
static unsigned long counter;
static atomic_ulong done;

static void lock(void) {
  while (atomic_exchange_explicit(&locked, 1, memory_order_acquire) != 0) relax();
}

static void unlock(void) { atomic_store_explicit(&locked, 0, memory_order_release); }

static __attribute__((noinline)) void count(void) {
  for (int n = 0; n < ROUNDS; n++) {
    lock();
    counter++;
    unlock();
  }
  atomic_fetch_add(&done, 1);
}

void thread_0(void) {
  count();
  await(&done, THREADS);
  lsg_output(counter);
}

void thread_1(void) { count(); }

void thread_2(void) { count(); }
