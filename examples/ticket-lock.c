// Three threads append their turns to a list under a ticket lock, which lets them in as they come. Thread 0 puts out how many turns
// each thread had, 100 100 100.
#include "lasagne.h"

enum { ROUNDS = 100, THREADS = 3 };

static atomic_ulong next_ticket, now_served;
static unsigned char turns[ROUNDS * THREADS];
static unsigned long count;
static atomic_ulong done;

static unsigned long lock(void) {
  const unsigned long ticket = atomic_fetch_add_explicit(&next_ticket, 1, memory_order_relaxed);
  while (atomic_load_explicit(&now_served, memory_order_acquire) != ticket) relax();
  return ticket;
}

static void unlock(unsigned long ticket) { atomic_store_explicit(&now_served, ticket + 1, memory_order_release); }

static __attribute__((noinline)) void take_turns(unsigned char thread) {
  for (int n = 0; n < ROUNDS; n++) {
    const unsigned long ticket = lock();
    turns[count++] = thread;
    unlock(ticket);
  }
  atomic_fetch_add(&done, 1);
}

static __attribute__((noinline)) unsigned long turns_of(unsigned char thread) {
  unsigned long found = 0;
  for (unsigned long n = 0; n < count; n++) found += turns[n] == thread;
  return found;
}

void thread_0(void) {
  take_turns(0);
  await(&done, THREADS);
  for (unsigned char thread = 0; thread < THREADS; thread++) lsg_output(turns_of(thread));
}

void thread_1(void) { take_turns(1); }

void thread_2(void) { take_turns(2); }
