// What a C program for Lasagne includes: its inputs and outputs, and how a thread waits. Atomic operations are those of C11.
//
// Thread k begins at the function thread_k; there are as many threads as such functions from thread_0 on, at most 16. A thread ends
// as its function returns. A program is one file, since the bodies of the two listed functions below stand here.
#ifndef LASAGNE_H
#define LASAGNE_H
#include <stdatomic.h>

// The next input of this thread.
unsigned long lsg_input(void);

// Makes an output.
void lsg_output(unsigned long value);

// The host makes inputs and outputs. These bodies only give the two functions an address: they are never run and never translated.
__asm__(".text\n"
        ".globl lsg_input, lsg_output\n"
        ".type lsg_input, @function\n"
        ".type lsg_output, @function\n"
        "lsg_input: ret\n"
        "lsg_output: ret\n");

// Waits, and tells the processor so.
static inline void relax(void) { __asm__ volatile("pause"); }

// Waits until a number is at least the one that is given.
static inline void await(const atomic_ulong *number, unsigned long least) {
  while (atomic_load_explicit(number, memory_order_acquire) < least) relax();
}
#endif
