// A ring buffer of one producer and one consumer. The producer sends the numbers that it reads as inputs until it reads 0; the
// consumer puts out the sum of each with the one before.
#include "lasagne.h"

enum { SIZE = 8 };

static unsigned long slots[SIZE];
static atomic_ulong sent, taken;

static __attribute__((noinline)) void send(unsigned long value) {
  const unsigned long place = atomic_load_explicit(&sent, memory_order_relaxed);
  while (place - atomic_load_explicit(&taken, memory_order_acquire) == SIZE) relax();
  slots[place % SIZE] = value;
  atomic_store_explicit(&sent, place + 1, memory_order_release);
}

static __attribute__((noinline)) unsigned long take(void) {
  const unsigned long place = atomic_load_explicit(&taken, memory_order_relaxed);
  await(&sent, place + 1);
  const unsigned long value = slots[place % SIZE];
  atomic_store_explicit(&taken, place + 1, memory_order_release);
  return value;
}

void thread_0(void) {
  unsigned long value;
  do {
    value = lsg_input();
    send(value);
  } while (value != 0);
}

void thread_1(void) {
  unsigned long before = 0, value;
  while ((value = take()) != 0) {
    lsg_output(before + value);
    before = value;
  }
}
