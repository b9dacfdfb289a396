/* A malloc of 16 bytes and its free, again and again, beside a live list: tests/peers/run builds this and runs it with
each allocator.

    pairs count LIVE PAIRS      the instructions of so many pairs, beside a list of LIVE objects; the processor stops
                                after each, which takes microseconds
    pairs time LIVE PAIRS       their nanoseconds of processor time
    pairs reuse LIVE MOST       how many pairs later the address of one of 16 freed objects comes again, where nothing
                                points to them; or 0
    pairs dangling LIVE MOST    if a pointer to a freed object reads its own number first, and how many pairs later it
                                reads another object's; or 0

With -DGC objects come from libgc: with -DFREE they are freed, with -DOFTEN they are dropped and a collection runs as
often as a cycle of markus is due, and otherwise they are dropped. */
#include <signal.h>
#include <stdint.h>
#include <stdio.h>
#include <stdlib.h>
#include <string.h>
#include <time.h>
#ifdef GC
#include <gc.h>
#endif

struct node {
  long number;
  struct node *next;
};

enum { OWN = 42, OTHER = 7, WARM = 100000, FREED = 16 };

static struct node *list;
static long live;

static struct node *make(void) {
#ifdef GC
  return GC_MALLOC(sizeof(struct node));
#else
  return malloc(sizeof(struct node));
#endif
}

static void drop(struct node *node) {
#if defined FREE
  GC_FREE(node);
#elif defined OFTEN
  static long done;
  (void)node;
  if (++done % (live / 3 + 1) == 0) GC_gcollect();
#elif defined GC
  (void)node;
#else
  free(node);
#endif
}

static void begin(void) {
  for (long made = 0; made < live; made++) {
    struct node *node = make();
    node->number = made;
    node->next = list;
    list = node;
  }
}

static __attribute__((noinline)) struct node *pair(void) {
  struct node *node = make();
  node->number = OTHER;
  drop(node);
  return node;
}

static void pairs(long count) {
  for (; count; count--) pair();
}

static volatile long steps;

static void note_step(int signal) {
  (void)signal;
  steps++;
}

/* The processor stops after each instruction while this bit of its flags is set. */
static void count_steps(long count) {
  begin();
  pairs(WARM);
  signal(SIGTRAP, note_step);
  __asm__ volatile("pushfq; orq $0x100, (%%rsp); popfq" ::: "memory", "cc");
  pairs(count);
  __asm__ volatile("pushfq; andq $~0x100, (%%rsp); popfq" ::: "memory", "cc");
  printf("%ld\n", steps);
}

static void count_time(long count) {
  struct timespec before, after;
  begin();
  pairs(WARM);
  clock_gettime(CLOCK_PROCESS_CPUTIME_ID, &before);
  pairs(count);
  clock_gettime(CLOCK_PROCESS_CPUTIME_ID, &after);
  printf("%ld\n", (after.tv_sec - before.tv_sec) * 1000000000L + after.tv_nsec - before.tv_nsec);
}

/* Addresses are kept as the collector doesn't see them, and those on the stack lie deeper than it looks. */
static volatile uintptr_t mask = ~(uintptr_t)0;

static __attribute__((noinline)) uintptr_t hidden_pair(void) {
  volatile char room[1 << 16];
  room[0] = 0;
  return ((uintptr_t)pair() - room[0]) ^ mask;
}

static int is_one(uintptr_t hidden, const uintptr_t *of) {
  for (int it = 0; it < FREED; it++)
    if (of[it] == hidden) return 1;
  return 0;
}

static void reuse(long most) {
  begin();
  pairs(100);
  static uintptr_t hidden[FREED];
  for (int it = 0; it < FREED; it++) hidden[it] = hidden_pair();
  long after = 1;
  while (after <= most && !is_one((uintptr_t)pair() ^ mask, hidden)) after++;
  printf("%ld\n", after <= most ? after : 0);
}

static struct node *volatile dangling;

static void meet(long most) {
  begin();
  dangling = make();
  dangling->number = OWN;
  drop(dangling);
  long first = dangling->number, after = 0;
  int other = 0;
  while (!other && after++ < most) {
    struct node *node = make();
    node->number = OTHER;
    other = dangling->number == OTHER;
    drop(node);
  }
  printf("%s %ld\n", first == OWN ? "own" : "changed", other ? after : 0);
}

int main(int words, char **word) {
  if (words != 4) return 2;
  long count = atol(word[3]);
  live = atol(word[2]);
#ifdef GC
  GC_INIT();
#endif
  if (!strcmp(word[1], "count")) count_steps(count);
  else if (!strcmp(word[1], "time")) count_time(count);
  else if (!strcmp(word[1], "reuse")) reuse(count);
  else if (!strcmp(word[1], "dangling")) meet(count);
  else return 2;
  return 0;
}
