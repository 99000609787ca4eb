// Runs the code of images in place of a host, for scripts/run-images and scripts/run-programs.
//
//     image-host CODE WINDOW CELLS
//
// Each line of standard input is a case, in hexadecimal: how many words stand before the thread's first, how many words the code
// has and these words, X0 to X15, X19 to X22 and the first CELLS cells of 8 bytes of memory at WINDOW; the others are 0. The code
// is put at CODE. For each case a line is printed: the number of the break at which the code stopped, or "fault" where it touched
// memory that is not there or ran for LONGEST seconds, and the same registers and cells.
#include "../host/enter.h"
#include <inttypes.h>
#include <setjmp.h>
#include <signal.h>
#include <stdio.h>
#include <stdlib.h>
#include <string.h>
#include <sys/mman.h>
#include <ucontext.h>
#include <unistd.h>

enum { CODE_SIZE = 0x80000, WINDOW_SIZE = 0x1000, LONGEST = 10 };

static sigjmp_buf stopped;
static uint64_t registers[REGISTERS];
static int64_t stop; // the number of a break, or -1

static void on_signal(int number, siginfo_t *info, void *context) {
  const mcontext_t *machine = &((ucontext_t *)context)->uc_mcontext;
  (void)info;
  for (int n = 0; n < REGISTERS; n++) registers[n] = machine->regs[n < 16 ? n : n + 3];
  stop = number == SIGTRAP ? (int64_t)(*(uint32_t *)machine->pc >> 5 & 0xFFFF) : -1;
  siglongjmp(stopped, 1);
}

static void *area(const char *address, size_t size, int protection) {
  void *wanted = (void *)strtoull(address, NULL, 16);
  void *found = mmap(wanted, size, protection, MAP_PRIVATE | MAP_ANONYMOUS | MAP_FIXED_NOREPLACE, -1, 0);
  if (found != wanted) {
    fprintf(stderr, "image-host: no memory at %s\n", address);
    exit(1);
  }
  return found;
}

static uint64_t next(void) {
  uint64_t value;
  if (scanf("%" SCNx64, &value) != 1) exit(0);
  return value;
}

int main(int count, char **words) {
  if (count != 4) return 2;
  const uint64_t cells = strtoull(words[3], NULL, 16);
  if (cells > WINDOW_SIZE / 8) return 2;
  uint32_t *code = area(words[1], CODE_SIZE, PROT_READ | PROT_WRITE | PROT_EXEC);
  uint64_t *window = area(words[2], WINDOW_SIZE, PROT_READ | PROT_WRITE);
  struct sigaction action = {.sa_sigaction = on_signal, .sa_flags = SA_SIGINFO};
  sigaction(SIGTRAP, &action, NULL);
  sigaction(SIGSEGV, &action, NULL);
  sigaction(SIGBUS, &action, NULL);
  sigaction(SIGALRM, &action, NULL);
  for (;;) {
    uint64_t first = next(), size = next();
    if (size > CODE_SIZE / 4 || first >= size) return 2;
    for (uint64_t n = 0; n < size; n++) code[n] = next();
    for (int n = 0; n < REGISTERS; n++) registers[n] = next();
    memset(window, 0, WINDOW_SIZE);
    for (uint64_t n = 0; n < cells; n++) window[n] = next();
    __builtin___clear_cache((char *)code, (char *)(code + size));
    if (sigsetjmp(stopped, 1) == 0) {
      alarm(LONGEST);
      enter(registers, (uint64_t)(code + first));
    }
    alarm(0);
    if (stop < 0) printf("fault");
    else printf("%" PRIx64, (uint64_t)stop);
    for (int n = 0; n < REGISTERS; n++) printf(" %" PRIx64, registers[n]);
    for (uint64_t n = 0; n < cells; n++) printf(" %" PRIx64, window[n]);
    printf("\n");
  }
}
