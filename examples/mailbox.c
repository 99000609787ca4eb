// Two threads and a mailbox. The first fills the mailbox and says so; the second waits for that, sums what it finds and answers;
// the first waits for the answer and puts it out. examples/compile-c makes mailbox.elf of this file.
#include "lasagne.h"

enum { SIZE = 16 };

static unsigned long mailbox[SIZE];
static unsigned long answer;
static atomic_int filled, answered;

static __attribute__((noinline)) void wait_for(const atomic_int *flag) {
  while (atomic_load_explicit(flag, memory_order_acquire) == 0) {}
}

static __attribute__((noinline)) unsigned long sum(const unsigned long *values, int count) {
  unsigned long total = 0;
  for (int n = 0; n < count; n++) total += values[n];
  return total;
}

// the Fibonacci number of n
static __attribute__((noinline)) unsigned long fibonacci(int n) {
  if (n < 2) return n;
  return fibonacci(n - 1) + fibonacci(n - 2);
}

void thread_0(void) {
  for (int n = 0; n < SIZE; n++) mailbox[n] = fibonacci(n);
  atomic_store_explicit(&filled, 1, memory_order_release);
  wait_for(&answered);
  lsg_output(answer);
}

void thread_1(void) {
  wait_for(&filled);
  answer = sum(mailbox, SIZE);
  atomic_store_explicit(&answered, 1, memory_order_release);
}
