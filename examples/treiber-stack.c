// A stack without locks (Treiber): two threads push numbers, two pop them and add them up. The head has the number of the first
// node and a count of changes, so that a node that comes back is not taken for one that stayed. Thread 0 puts out the sum, 20100.
#include "lasagne.h"

enum { NODES = 200, HALF = NODES / 2 };

struct node {
  unsigned value, next; // the number of the next node, 0 at the end
};

static struct node nodes[NODES + 1];
static atomic_ulong head; // the number of the first node, and from bit 32 on how often the head has changed
static atomic_ulong sum, popped;

static unsigned long changed(unsigned long from, unsigned first) { return ((from >> 32) + 1) << 32 | first; }

static __attribute__((noinline)) void push(unsigned number) {
  unsigned long now = atomic_load_explicit(&head, memory_order_relaxed);
  do {
    nodes[number].next = (unsigned)now;
  } while (!atomic_compare_exchange_weak(&head, &now, changed(now, number)));
}

// the number of the node that was first, 0 where there is none
static __attribute__((noinline)) unsigned pop(void) {
  unsigned long now = atomic_load_explicit(&head, memory_order_acquire);
  do {
    if ((unsigned)now == 0) return 0;
  } while (!atomic_compare_exchange_weak(&head, &now, changed(now, nodes[(unsigned)now].next)));
  return (unsigned)now;
}

static __attribute__((noinline)) void push_all(unsigned from) {
  for (unsigned number = from; number < from + HALF; number++) {
    nodes[number].value = number;
    push(number);
  }
}

static __attribute__((noinline)) void pop_all(void) {
  while (atomic_load(&popped) < NODES) {
    const unsigned number = pop();
    if (number == 0) continue;
    atomic_fetch_add(&sum, nodes[number].value);
    atomic_fetch_add(&popped, 1);
  }
}

void thread_0(void) {
  push_all(1);
  await(&popped, NODES);
  lsg_output(atomic_load(&sum));
}

void thread_1(void) { push_all(1 + HALF); }

void thread_2(void) { pop_all(); }

void thread_3(void) { pop_all(); }
