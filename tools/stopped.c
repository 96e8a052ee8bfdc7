/* A thread that is stopped after each of its looks at a budget in turn, while another one takes bytes of it or gives them back, for tools/threads.

   Threads that run at once seldom meet between two looks, on a busy machine least. So here the page that the budget lies in is closed to one thread: a look at it
   faults, is let through alone, and the thread stops after it. There the other one takes its bytes, and there or after a later look it gives them back: after
   each two looks in turn. The others are contexts of the one thread, which the budget cannot tell. Of the library's requests tools/threads.c tells more. */
#define _GNU_SOURCE
#include <signal.h>
#include <stdbool.h>
#include <stddef.h>
#include <stdint.h>
#include <stdio.h>
#include <stdlib.h>
#include <sys/mman.h>
#include <ucontext.h>

enum { OTHERS = 2, STACK = 1 << 16, PAGE = 4096, TRAP = 0x100 };
enum place { BEFORE, AT_START, HOLDS, AT_END, DONE };
#define WAIT ((size_t)1 << 62)

extern bool threads_budget_run(size_t cap, size_t bytes, size_t rounds, size_t *refused, size_t *left);

/* The bytes of the cap, of the thread that is stopped, of the one that comes between, and of one that holds them all the time; and whether the first, and the
   second, is refused for nothing where it is refused: its bytes fit beside whatever the others have taken. */
static const struct kind {
  const char *name;
  size_t cap, stopped, between, held;
  bool stopped_fits, between_fits;
} kinds[] = {
    {"both fit", 128, 64, 64, 0, true, true},
    {"one fits", 64, 64, 64, 0, false, false},
    {"a small one fits beside a refused one", 64, 40, 24, 40, false, true},
};

struct thread {
  ucontext_t context;
  size_t bytes, taken, refused, left;
  enum place at;
  bool is_done, has_budget;
  _Alignas(16) char own[64], stack[STACK];
};

static struct thread stopped, others[OTHERS];
static struct thread *running;
static ucontext_t scheduler;
static _Alignas(PAGE) char shared[PAGE];
static size_t cap, out, looks, takes_at, gives_at;
static bool is_passed;

static void set_open(bool is_open) {
  if (mprotect(shared, PAGE, is_open ? PROT_READ | PROT_WRITE : PROT_NONE)) exit(2);
}

static void pause_at(enum place place) {
  struct thread *it = running;
  it->at = place;
  running = &stopped;
  swapcontext(&it->context, &scheduler);
}

/* Has a thread go on up to a place, or over it where it does not come there. */
static void go_on(struct thread *it, enum place place) {
  while (it->at < place) {
    running = it;
    swapcontext(&scheduler, &it->context);
  }
}

/* What the other one does after this look. */
static void between(void) {
  if (looks == takes_at) go_on(&others[0], HOLDS);
  if (looks == gives_at) go_on(&others[0], AT_END);
}

/* Lets the one instruction through. */
static void on_fault(int signal, siginfo_t *info, void *context) {
  (void)signal;
  char *at = info->si_addr;
  if (at < shared || shared + PAGE <= at) _exit(2);
  set_open(true);
  ((ucontext_t *)context)->uc_mcontext.gregs[REG_EFL] |= TRAP;
}

static void on_step(int signal, siginfo_t *info, void *context) {
  (void)signal, (void)info;
  looks++;
  between();
  set_open(false);
  ((ucontext_t *)context)->uc_mcontext.gregs[REG_EFL] &= ~TRAP;
}

static void at_wait(void) {
  if (running != &stopped) {
    pause_at(running->at < AT_START ? AT_START : AT_END);
    return;
  }
  bool is_start = stopped.at < AT_START;
  stopped.at = is_start ? AT_START : AT_END;
  set_open(true);
  for (int i = 0; i < OTHERS; i++) go_on(&others[i], stopped.at);
  if (!is_start) return;
  go_on(&others[1], HOLDS);
  looks = 0;
  between();
  set_open(false);
}

void *__wrap_malloc(size_t bytes) {
  struct thread *it = running;
  if (bytes == WAIT) {
    at_wait();
    return NULL;
  }
  if (!it->has_budget) {
    it->has_budget = true;
    return shared;
  }
  out += it->taken = bytes;
  is_passed |= out > cap;
  if (it != &stopped) pause_at(HOLDS);
  return it->own;
}

void __wrap_free(void *block) {
  if (block == running->own) out -= running->taken;
}

static void work(void) {
  struct thread *it = running;
  it->is_done = threads_budget_run(cap, it->bytes, it->bytes > 0, &it->refused, &it->left);
  pause_at(DONE);
}

static void make(struct thread *it, size_t bytes) {
  it->bytes = bytes;
  it->at = BEFORE;
  it->has_budget = it->is_done = false;
  getcontext(&it->context);
  it->context.uc_stack.ss_sp = it->stack;
  it->context.uc_stack.ss_size = STACK;
  makecontext(&it->context, work, 0);
}

static bool is_well(const struct thread *it, bool fits) { return it->is_done && it->left == cap && !(fits && it->refused); }

/* Whether a run went well in which the other one takes and gives back after these looks. */
static bool run(const struct kind *kind, size_t takes, size_t gives) {
  cap = kind->cap;
  out = 0;
  is_passed = false;
  takes_at = takes;
  gives_at = gives;
  make(&others[0], kind->between);
  make(&others[1], kind->held);
  make(&stopped, kind->stopped);
  running = &stopped;
  stopped.is_done = threads_budget_run(cap, kind->stopped, 1, &stopped.refused, &stopped.left);
  for (int i = 0; i < OTHERS; i++) go_on(&others[i], DONE);
  return !is_passed && !out && is_well(&stopped, kind->stopped_fits) && is_well(&others[0], kind->between_fits) && is_well(&others[1], true);
}

/* How many of the runs of a kind went wrong; the first of them is told. A look that is tried again is one more. */
static int failed(const struct kind *kind) {
  int count = run(kind, SIZE_MAX, SIZE_MAX) ? 0 : 1;
  size_t most = 2 * looks, runs = 1;
  for (size_t takes = 0; takes <= most; takes++)
    for (size_t gives = takes; gives <= most; gives++, runs++)
      if (!run(kind, takes, gives) && !count++) printf("  bytes are taken behind look %zu and given back behind look %zu\n", takes, gives);
  printf("stopped, %s: %zu runs, %d failed\n", kind->name, runs, count);
  return count;
}

int main(void) {
  struct sigaction fault = {.sa_sigaction = on_fault, .sa_flags = SA_SIGINFO}, trap = {.sa_sigaction = on_step, .sa_flags = SA_SIGINFO};
  int wrong = 0;
  if (sigaction(SIGSEGV, &fault, NULL) || sigaction(SIGTRAP, &trap, NULL)) return 2;
  for (size_t i = 0; i < sizeof kinds / sizeof *kinds; i++) wrong += failed(&kinds[i]);
  return wrong != 0;
}
