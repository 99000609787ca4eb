// How a host gives a thread of an image its registers.
#ifndef ENTER_H
#define ENTER_H
#include <stdint.h>

enum { REGISTERS = 20 }; // X0 to X15 and X19 to X22

// X0 to X15 and X19 to X22 get their values, and control goes to the code
void enter(const uint64_t *registers, uint64_t code);
__asm__("enter:\n"
        "mov x30, x1\n"
        "mov x29, x0\n"
        "ldp x21, x22, [x29, #144]\n"
        "ldp x19, x20, [x29, #128]\n"
        "ldp x14, x15, [x29, #112]\n"
        "ldp x12, x13, [x29, #96]\n"
        "ldp x10, x11, [x29, #80]\n"
        "ldp x8, x9, [x29, #64]\n"
        "ldp x6, x7, [x29, #48]\n"
        "ldp x4, x5, [x29, #32]\n"
        "ldp x2, x3, [x29, #16]\n"
        "ldp x0, x1, [x29]\n"
        "br x30\n");
#endif
