/* Writes down each call of malloc and its kin: tools/record builds this and loads it before the program.

A line of the log is THREAD KIND, and then
    m ADDRESS BYTES         malloc
    c ADDRESS BYTES         calloc
    a ADDRESS BYTES         memalign, posix_memalign, aligned_alloc, valloc, pvalloc
    r OLD ADDRESS BYTES     realloc, reallocarray
    f ADDRESS               free
with addresses in hexadecimal, 0 for null. Its first line is `process PID PARENT NAME`, or `forked` and the same in a
child that has its parent's objects. A call that found no memory isn't written down.

The log is a file in shared memory, so what was written stays however the process ends. The page `log` is wiped in a
forked child, which then opens a log of its own. A lock is held in each call and while it is written, so that the order
of the lines is one in which the calls of all threads can have come. */
#define _GNU_SOURCE
#include <errno.h>
#include <fcntl.h>
#include <sched.h>
#include <stdarg.h>
#include <stdint.h>
#include <stdio.h>
#include <stdlib.h>
#include <string.h>
#include <sys/mman.h>
#include <unistd.h>

/* What the C library exports of its own. Debian's glibc does. */
void *__libc_malloc(size_t bytes);
void *__libc_calloc(size_t count, size_t bytes);
void *__libc_realloc(void *old, size_t bytes);
void *__libc_memalign(size_t alignment, size_t bytes);
void __libc_free(void *object);

#define WINDOW (1UL << 36)
#define GROWTH (1UL << 22)
#define LINE 128

struct log {
  int lock, threads;
  char *text;
  size_t end, room;
  char path[4096];
};

static struct log *log;
static int begun;
static __thread int thread __attribute__((tls_model("initial-exec")));

static void stop(const char *why) {
  dprintf(2, "tools/record: %s: %s\n", log->path, why);
  _exit(70);
}

static void grow(void) {
  log->room += GROWTH;
  if (log->room > WINDOW) stop("the log is full");
  if (truncate(log->path, log->room)) stop(strerror(errno));
}

static void line(const char *form, ...) {
  va_list words;
  if (log->end + LINE > log->room) grow();
  va_start(words, form);
  log->end += vsnprintf(log->text + log->end, LINE, form, words);
  va_end(words);
}

/* The first process has the log that was asked for. Each later one, and each program that it becomes, has its own. */
static void open_log(void) {
  const char *asked = getenv("MARKUS_LOG");
  if (!asked) return;
  int file = -1;
  for (int try = 0; file < 0 && try < 1000; try++) {
    if (try == 0) snprintf(log->path, sizeof log->path, "%s", asked);
    else snprintf(log->path, sizeof log->path, try == 1 ? "%s.%d" : "%s.%d.%d", asked, getpid(), try);
    file = open(log->path, O_RDWR | O_CREAT | O_EXCL | O_CLOEXEC, 0600);
    if (file < 0 && errno != EEXIST) stop(strerror(errno));
  }
  log->text = mmap(0, WINDOW, PROT_READ | PROT_WRITE, MAP_SHARED | MAP_NORESERVE, file, 0);
  if (log->text == MAP_FAILED) stop(strerror(errno));
  madvise(log->text, WINDOW, MADV_DONTFORK);
  close(file);
  line("%s %d %d %.64s\n", begun ? "forked" : "process", getpid(), getppid(), program_invocation_short_name);
  begun = 1;
  thread = 0;
}

static void hold(void) {
  if (!log) {
    log = mmap(0, sizeof *log, PROT_READ | PROT_WRITE, MAP_PRIVATE | MAP_ANONYMOUS, -1, 0);
    madvise(log, sizeof *log, MADV_WIPEONFORK);
  }
  while (__atomic_exchange_n(&log->lock, 1, __ATOMIC_ACQUIRE)) sched_yield();
  if (!log->text) open_log();
  if (!thread) thread = ++log->threads;
}

static void let_go(void) { __atomic_store_n(&log->lock, 0, __ATOMIC_RELEASE); }

__attribute__((constructor)) static void begin(void) {
  hold();
  let_go();
}

static void *made(char kind, void *object, size_t bytes) {
  if (log->text && object) line("%d %c %lx %zu\n", thread, kind, (uintptr_t)object, bytes);
  let_go();
  return object;
}

void *malloc(size_t bytes) {
  hold();
  return made('m', __libc_malloc(bytes), bytes);
}

void *calloc(size_t count, size_t bytes) {
  hold();
  return made('c', __libc_calloc(count, bytes), count * bytes);
}

void *memalign(size_t alignment, size_t bytes) {
  hold();
  return made('a', __libc_memalign(alignment, bytes), bytes);
}

void *aligned_alloc(size_t alignment, size_t bytes) { return memalign(alignment, bytes); }

void *valloc(size_t bytes) { return memalign(sysconf(_SC_PAGESIZE), bytes); }

void *pvalloc(size_t bytes) {
  size_t page = sysconf(_SC_PAGESIZE);
  return memalign(page, (bytes + page - 1) / page * page);
}

int posix_memalign(void **place, size_t alignment, size_t bytes) {
  if (alignment < sizeof(void *) || alignment & (alignment - 1)) return EINVAL;
  void *object = memalign(alignment, bytes);
  if (!object) return ENOMEM;
  *place = object;
  return 0;
}

void *realloc(void *old, size_t bytes) {
  hold();
  void *object = __libc_realloc(old, bytes);
  int failed = !object && bytes;
  if (log->text && !failed) line("%d r %lx %lx %zu\n", thread, (uintptr_t)old, (uintptr_t)object, bytes);
  let_go();
  return object;
}

void *reallocarray(void *old, size_t count, size_t bytes) {
  size_t all;
  if (__builtin_mul_overflow(count, bytes, &all)) {
    errno = ENOMEM;
    return 0;
  }
  return realloc(old, all);
}

void free(void *object) {
  hold();
  if (log->text) line("%d f %lx\n", thread, (uintptr_t)object);
  __libc_free(object);
  let_go();
}
