// Runs an image that Lasagne made, on Linux for AArch64: maps its segments, gives each thread a stack, starts the threads, serves
// their inputs and outputs, and tells how each ends.
//
//     host IMAGE [SECONDS]
//
// Each input is the next number on standard input, in decimal or behind 0x in hexadecimal. Each output is a line on standard output,
// in decimal. How a thread ended is a line on standard error. The status is 0 where all threads halted, 1 where one did not, and 2
// where the image could not be run. After SECONDS, if given, the program is stopped and the threads that still run are told.
//
// This program stands outside of what is proved. What it has to keep:
// - A thread's registers at its start: X4 (rsp) is 8 below its stack's end, X7 (rdi) is the thread's number, X0 to X15 and X19 to X22
//   are 0 otherwise. The image uses X0 to X17 and X19 to X28, so the host's own state is in X18, X29, X30, SP and the thread pointer.
// - Memory: the segments at their addresses with their flags, and stacks of zeros that touch no segment and no other stack, at
//   multiples of 16 below 2^47.
// - No SVC of the image reaches the kernel. Before the code runs, each word that is SVC is made a break of its own, and a break comes
//   back here as SIGTRAP. The code is then mapped for execution alone, so no word changes later.
//
// What it does not keep: an access of the image to the host's own memory is not stopped; and where a page of the system holds parts
// of several segments, it has the flags of all of them.
#define _GNU_SOURCE
#include "enter.h"
#include <elf.h>
#include <inttypes.h>
#include <pthread.h>
#include <setjmp.h>
#include <signal.h>
#include <stdarg.h>
#include <stdbool.h>
#include <stdio.h>
#include <stdlib.h>
#include <string.h>
#include <sys/mman.h>
#include <ucontext.h>
#include <unistd.h>

enum {
  MOST_THREADS = 16,
  RSP = 4,
  RDI = 7,
  STACK_SIZE = 1 << 20,
  BAD_IMAGE = 2,                  // a status
  INPUT = 1, OUTPUT = 2, HALT = 3 // the numbers of SVC
};
#define STACKS UINT64_C(0x100000000000)
#define STACK_STRIDE (UINT64_C(16) << 20)
#define SVC UINT32_C(0xD4000001)   // and its number from bit 5 on
#define BREAK UINT32_C(0xD4200000)
#define NUMBER UINT32_C(0xFFFF)
#define SERVED UINT32_C(0x100)     // what the number of a break that was SVC is more

struct thread {
  uint64_t entry;
  const char *end;                // how it ended, NULL while it runs
  uint64_t place;                 // and where
  sigjmp_buf stopped;
};

static struct thread threads[MOST_THREADS];
static unsigned thread_count;
static uint64_t code_start, code_end;
static uint32_t *code_words;      // what the code has, also where it may not be read
static __thread struct thread *current;

static _Noreturn void refuse(const char *format, ...) {
  va_list arguments;
  va_start(arguments, format);
  fprintf(stderr, "host: ");
  vfprintf(stderr, format, arguments);
  fprintf(stderr, "\n");
  va_end(arguments);
  exit(BAD_IMAGE);
}

// ---- the image

struct file {
  unsigned char *bytes;
  size_t size;
};

static struct file read_file(const char *name) {
  FILE *from = fopen(name, "rb");
  if (from == NULL) refuse("%s cannot be opened", name);
  struct file file = {NULL, 0};
  size_t room = 0, got;
  do {
    if (file.size == room) {
      room = room == 0 ? 1 << 16 : 2 * room;
      file.bytes = realloc(file.bytes, room);
      if (file.bytes == NULL) refuse("no memory");
    }
    got = fread(file.bytes + file.size, 1, room - file.size, from);
    file.size += got;
  } while (got > 0);
  fclose(from);
  return file;
}

// so many parts of a size from an offset on; the host goes on only where the file has them
static const void *part(struct file file, uint64_t offset, uint64_t count, uint64_t size) {
  if (offset > file.size || count > (file.size - offset) / size) refuse("the image is cut off");
  return file.bytes + offset;
}

static uint64_t page_down(uint64_t address) { return address & -(uint64_t)sysconf(_SC_PAGESIZE); }
static uint64_t page_up(uint64_t address) { return page_down(address + sysconf(_SC_PAGESIZE) - 1); }

// the pages of a segment, to be filled; pages that an earlier segment has are kept
static void map_pages(uint64_t start, uint64_t end) {
  const uint64_t page = sysconf(_SC_PAGESIZE);
  for (uint64_t at = page_down(start); at < page_up(end); at += page) {
    void *found = mmap((void *)at, page, PROT_READ | PROT_WRITE, MAP_PRIVATE | MAP_ANONYMOUS | MAP_FIXED_NOREPLACE, -1, 0);
    if (found != MAP_FAILED && found != (void *)at) refuse("no memory at %" PRIx64, at);
  }
}

static int protection(uint32_t flags) {
  return ((flags & PF_R) != 0 ? PROT_READ : 0) | ((flags & PF_W) != 0 ? PROT_WRITE : 0) | ((flags & PF_X) != 0 ? PROT_EXEC : 0);
}

static bool shares_page(const Elf64_Phdr *a, const Elf64_Phdr *b) {
  return a->p_memsz != 0 && b->p_memsz != 0 && page_down(a->p_vaddr) < page_up(b->p_vaddr + b->p_memsz) &&
         page_down(b->p_vaddr) < page_up(a->p_vaddr + a->p_memsz);
}

// Each SVC becomes a break.
static void take_code(uint64_t address, uint64_t size) {
  code_start = address;
  code_end = address + size;
  code_words = malloc(size);
  if (code_words == NULL) refuse("no memory");
  uint32_t *words = (uint32_t *)address;
  for (uint64_t n = 0; n < size / 4; n++) {
    const uint32_t number = words[n] >> 5 & NUMBER;
    if ((words[n] & ~(NUMBER << 5)) == SVC) words[n] = BREAK | (SERVED + number) << 5;
    code_words[n] = words[n];
  }
  __builtin___clear_cache((char *)address, (char *)(address + size));
}

static void load_segments(struct file file, const Elf64_Ehdr *header) {
  const Elf64_Phdr *segments = part(file, header->e_phoff, header->e_phnum, sizeof(Elf64_Phdr));
  for (unsigned n = 0; n < header->e_phnum; n++) {
    const Elf64_Phdr *s = &segments[n];
    if (s->p_type != PT_LOAD || s->p_memsz == 0) continue;
    map_pages(s->p_vaddr, s->p_vaddr + s->p_memsz);
    if (s->p_filesz > 0) memcpy((void *)s->p_vaddr, part(file, s->p_offset, s->p_filesz, 1), s->p_filesz);
    if (s->p_flags == PF_X) take_code(s->p_vaddr, s->p_memsz);
  }
  for (unsigned n = 0; n < header->e_phnum; n++) {
    const Elf64_Phdr *s = &segments[n];
    if (s->p_type != PT_LOAD || s->p_memsz == 0) continue;
    uint32_t flags = s->p_flags;
    for (unsigned m = 0; m < header->e_phnum; m++)
      if (segments[m].p_type == PT_LOAD && shares_page(s, &segments[m])) flags |= segments[m].p_flags;
    const uint64_t start = page_down(s->p_vaddr);
    if (mprotect((void *)start, page_up(s->p_vaddr + s->p_memsz) - start, protection(flags)) != 0) refuse("no flags at %" PRIx64, start);
  }
}

// thread k begins at the symbol thread_k
static void find_threads(struct file file, const Elf64_Ehdr *header) {
  const Elf64_Shdr *sections = part(file, header->e_shoff, header->e_shnum, sizeof(Elf64_Shdr));
  for (unsigned n = 0; n < header->e_shnum; n++) {
    if (sections[n].sh_type != SHT_SYMTAB || sections[n].sh_link >= header->e_shnum) continue;
    const uint64_t count = sections[n].sh_size / sizeof(Elf64_Sym);
    const Elf64_Sym *symbols = part(file, sections[n].sh_offset, count, sizeof(Elf64_Sym));
    const Elf64_Shdr *names = &sections[sections[n].sh_link];
    const char *text = part(file, names->sh_offset, names->sh_size, 1);
    for (uint64_t k = 0; k < count; k++) {
      unsigned number;
      char behind;
      if (symbols[k].st_name < names->sh_size && sscanf(text + symbols[k].st_name, "thread_%u%c", &number, &behind) == 1 &&
          number < MOST_THREADS)
        threads[number].entry = symbols[k].st_value;
    }
  }
  while (thread_count < MOST_THREADS && threads[thread_count].entry != 0) thread_count++;
  if (thread_count == 0) refuse("the image has no thread");
}

static void load(const char *name) {
  struct file file = read_file(name);
  const Elf64_Ehdr *header = part(file, 0, 1, sizeof(Elf64_Ehdr));
  if (memcmp(header->e_ident, ELFMAG, SELFMAG) != 0 || header->e_machine != EM_AARCH64) refuse("%s is no image for AArch64", name);
  find_threads(file, header);
  load_segments(file, header);
  for (unsigned k = 0; k < thread_count; k++)
    if (threads[k].entry < code_start || threads[k].entry >= code_end) refuse("thread %u begins outside of the code", k);
  free(file.bytes);
}

// ---- threads

static _Noreturn void end_thread(const char *end, uint64_t place) {
  current->place = place;
  __atomic_store_n(&current->end, end, __ATOMIC_RELEASE);
  siglongjmp(current->stopped, 1);
}

static uint64_t next_input(uint64_t place) {
  uint64_t value;
  if (scanf("%" SCNi64, (int64_t *)&value) != 1) end_thread("wants an input, and there is none", place);
  return value;
}

// A break in the code: what was SVC is served, and the thread goes on behind it; any other break is a trap.
static void on_break(int signal_number, siginfo_t *info, void *context) {
  static const char *const traps[] = {"ended by a trap", "Divide", "Invalid", "BadReturn", "BadJump"};
  mcontext_t *machine = &((ucontext_t *)context)->uc_mcontext;
  (void)signal_number;
  (void)info;
  const uint64_t place = machine->pc;
  if (current == NULL || place < code_start || place >= code_end) abort();
  const uint32_t number = code_words[(place - code_start) / 4] >> 5 & NUMBER;
  switch (number) {
  case SERVED + INPUT:
    machine->regs[0] = next_input(place);
    break;
  case SERVED + OUTPUT:
    printf("%" PRIu64 "\n", (uint64_t)machine->regs[RDI]);
    fflush(stdout);
    break;
  case SERVED + HALT:
    end_thread("halted", place);
  default:
    end_thread(traps[number < sizeof traps / sizeof *traps ? number : 0], place);
  }
  machine->pc = place + 4;
}

static void on_fault(int signal_number, siginfo_t *info, void *context) {
  const mcontext_t *machine = &((ucontext_t *)context)->uc_mcontext;
  (void)signal_number;
  (void)info;
  if (current == NULL) abort();
  end_thread("BadAccess", machine->pc);
}

static void *run_thread(void *of) {
  current = of;
  const uint64_t number = current - threads;
  const uint64_t low = STACKS + number * STACK_STRIDE;
  void *found = mmap((void *)low, STACK_SIZE, PROT_READ | PROT_WRITE, MAP_PRIVATE | MAP_ANONYMOUS | MAP_FIXED_NOREPLACE, -1, 0);
  if (found != (void *)low) refuse("no memory for the stack of thread %" PRIu64, number);
  uint64_t registers[REGISTERS] = {0};
  registers[RSP] = low + STACK_SIZE - 8;
  registers[RDI] = number;
  if (sigsetjmp(current->stopped, 1) == 0) enter(registers, current->entry);
  return NULL;
}

static int tell_ends(void) {
  int status = 0;
  for (unsigned k = 0; k < thread_count; k++) {
    const char *end = __atomic_load_n(&threads[k].end, __ATOMIC_ACQUIRE);
    if (end == NULL) fprintf(stderr, "thread %u: still runs\n", k);
    else if (strcmp(end, "halted") == 0) fprintf(stderr, "thread %u: halted\n", k);
    else fprintf(stderr, "thread %u: %s at %" PRIx64 "\n", k, end, threads[k].place);
    if (end == NULL || strcmp(end, "halted") != 0) status = 1;
  }
  return status;
}

static void on_alarm(int signal_number) {
  (void)signal_number;
  _exit(tell_ends());
}

int main(int count, char **words) {
  if (count < 2 || count > 3) {
    fprintf(stderr, "usage: host IMAGE [SECONDS]\n");
    return BAD_IMAGE;
  }
  load(words[1]);
  const struct sigaction breaks = {.sa_sigaction = on_break, .sa_flags = SA_SIGINFO};
  const struct sigaction faults = {.sa_sigaction = on_fault, .sa_flags = SA_SIGINFO};
  sigaction(SIGTRAP, &breaks, NULL);
  sigaction(SIGSEGV, &faults, NULL);
  sigaction(SIGBUS, &faults, NULL);
  signal(SIGALRM, on_alarm);
  pthread_t ids[MOST_THREADS];
  for (unsigned k = 0; k < thread_count; k++)
    if (pthread_create(&ids[k], NULL, run_thread, &threads[k]) != 0) refuse("thread %u cannot be started", k);
  if (count == 3) alarm((unsigned)strtoul(words[2], NULL, 10));
  for (unsigned k = 0; k < thread_count; k++) pthread_join(ids[k], NULL);
  return tell_ends();
}
