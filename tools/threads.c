/* Four threads at once that take bytes of one `SharedBudget` and give them back, for tools/threads.

   The library asks this program for memory, by `malloc`. So all threads get one block for the box of their budget, by which they share it; each has a place of
   its own for the blocks of its rounds, and what is out is counted here, after the budget's own count and before its giving back: the sum never passes the
   cap where the budget's does not. A request of WAIT bytes waits for the others, and is refused. */
#include <pthread.h>
#include <stdatomic.h>
#include <stdbool.h>
#include <stddef.h>
#include <stdio.h>
#include <stdlib.h>

enum { THREADS = 4, RUNS = 20, ROUNDS = 20000 };
#define WAIT ((size_t)1 << 62)

extern bool threads_budget_run(size_t cap, size_t bytes, size_t rounds, size_t *refused, size_t *left);

/* The bytes of the cap, those that each thread asks for at a time, and which of them is refused for nothing where it is refused: its bytes fit beside whatever
   the others have taken. */
static const struct kind {
  const char *name;
  size_t cap, bytes[THREADS];
  bool fits[THREADS];
} kinds[] = {
    {"all fit", 256, {64, 64, 64, 64}, {true, true, true, true}},
    {"one at a time fits", 64, {64, 64, 64, 64}, {false, false, false, false}},
    {"two at a time fit", 64, {32, 32, 32, 32}, {false, false, false, false}},
    {"a small one fits beside each", 64, {40, 40, 40, 24}, {false, false, false, true}},
};

struct thread {
  size_t bytes, refused, left;
  bool is_done;
};

static pthread_barrier_t together;
static _Alignas(16) char shared[64];
static size_t cap;
static _Atomic size_t out;
static atomic_bool is_passed;
static _Thread_local _Alignas(16) char own[64];
static _Thread_local bool has_budget;
static _Thread_local size_t taken;

void *__wrap_malloc(size_t bytes) {
  if (bytes == WAIT) {
    pthread_barrier_wait(&together);
    return NULL;
  }
  if (!has_budget) {
    has_budget = true;
    return shared;
  }
  taken = bytes;
  if (atomic_fetch_add(&out, bytes) + bytes > cap) atomic_store(&is_passed, true);
  return own;
}

void __wrap_free(void *block) {
  if (block == own) atomic_fetch_sub(&out, taken);
}

static void *work(void *given) {
  struct thread *it = given;
  it->is_done = threads_budget_run(cap, it->bytes, ROUNDS, &it->refused, &it->left);
  return NULL;
}

/* Runs all threads once, each from its start. */
static void run(const struct kind *kind, struct thread *all) {
  pthread_t started[THREADS];
  for (int i = 0; i < THREADS; i++) {
    all[i] = (struct thread){.bytes = kind->bytes[i]};
    if (pthread_create(&started[i], NULL, work, &all[i])) exit(2);
  }
  for (int i = 0; i < THREADS; i++) pthread_join(started[i], NULL);
}

/* What is wrong with a run, or nothing. */
static const char *wrong_of(const struct kind *kind, const struct thread *all) {
  if (is_passed) return "more than the cap was out";
  for (int i = 0; i < THREADS; i++) {
    if (!all[i].is_done) return "a run was not made";
    if (all[i].left != cap || out) return "not all came back";
    if (kind->fits[i] && all[i].refused) return "a request that fits was refused";
  }
  return NULL;
}

/* How many of the runs of a kind went wrong; the first of them is told. */
static int failed(const struct kind *kind) {
  struct thread all[THREADS];
  int count = 0;
  cap = kind->cap;
  for (int i = 0; i < RUNS; i++) {
    is_passed = false;
    run(kind, all);
    const char *wrong = wrong_of(kind, all);
    if (wrong && !count++) printf("  run %d: %s\n", i + 1, wrong);
  }
  printf("threads, %s: %d runs, %d failed\n", kind->name, RUNS, count);
  return count;
}

int main(void) {
  int wrong = 0;
  if (pthread_barrier_init(&together, NULL, THREADS)) return 2;
  for (size_t i = 0; i < sizeof kinds / sizeof *kinds; i++) wrong += failed(&kinds[i]);
  return wrong != 0;
}
