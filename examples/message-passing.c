// One thread writes a message and raises a flag; two others wait for the flag and read the message. x86 keeps the writes in order,
// and so do the barriers of the image. Thread 0 puts out both sums, 136 136.
#include "lasagne.h"

enum { SIZE = 16 };

static unsigned message[SIZE];
static atomic_ulong ready;
static unsigned long sums[2];
static atomic_ulong done;

static __attribute__((noinline)) void read_message(int reader) {
  await(&ready, 1);
  unsigned long sum = 0;
  for (int n = 0; n < SIZE; n++) sum += message[n];
  sums[reader] = sum;
  atomic_fetch_add(&done, 1);
}

void thread_0(void) {
  for (unsigned n = 0; n < SIZE; n++) message[n] = n + 1;
  atomic_store_explicit(&ready, 1, memory_order_release);
  await(&done, 2);
  lsg_output(sums[0]);
  lsg_output(sums[1]);
}

void thread_1(void) { read_message(0); }

void thread_2(void) { read_message(1); }
