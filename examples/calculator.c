// One thread, a switch and recursion. The inputs are an expression, operators first: 1 adds the values of two expressions, 2 takes
// the second from the first, 3 multiplies them, 4 is the Fibonacci number of one, and any other number N stands for N - 5. The
// value is put out. Here 3 1 7 9 4 11 is (2 + 4) times the Fibonacci number of 6, which is 48.
#include "lasagne.h"

static __attribute__((noinline)) unsigned long fibonacci(unsigned long n) {
  return n < 2 ? n : fibonacci(n - 1) + fibonacci(n - 2);
}

static __attribute__((noinline)) unsigned long value(void) {
  const unsigned long symbol = lsg_input();
  unsigned long left;
  switch (symbol) {
  case 1:
    left = value();
    return left + value();
  case 2:
    left = value();
    return left - value();
  case 3:
    left = value();
    return left * value();
  case 4:
    return fibonacci(value());
  default:
    return symbol - 5;
  }
}

void thread_0(void) { lsg_output(value()); }
