"""A library that is loaded before a program's own, by which one of its memory requests, reads or writes is refused, and runs with it. Wants `cc`."""
import os
import subprocess

SOURCE = r"""
#define _GNU_SOURCE
#include <dlfcn.h>
#include <errno.h>
#include <fcntl.h>
#include <stdarg.h>
#include <stdio.h>
#include <stdlib.h>
#include <string.h>
#include <unistd.h>

/* The calls of a kind that were made, and the one to refuse; 0 refuses none. */
static long made[3], refused[3];
static const char *kinds[3] = {"REFUSED_MEMORY", "REFUSED_READ", "REFUSED_WRITE"};
/* Blocks that are not freed, and the pipe that hears of a refusal and, at the end, of these. */
static long blocks;
static int pipe_end = -1;
enum { MEMORY, READ, WRITE };

void *__libc_malloc(size_t);
void *__libc_calloc(size_t, size_t);
void *__libc_realloc(void *, size_t);
void *__libc_memalign(size_t, size_t);
void __libc_free(void *);

static void tell(const char *what, long number) {
  char line[64];
  int length = snprintf(line, sizeof line, "%s %ld\n", what, number);
  ssize_t (*put)(int, const void *, size_t) = dlsym(RTLD_NEXT, "write");
  if (pipe_end >= 0 && put(pipe_end, line, length) < 0) _exit(99);
}

static int refuses(int kind) {
  if (pipe_end < 0 || ++made[kind] != refused[kind]) return 0;
  tell("refused", made[kind]);
  return 1;
}

__attribute__((constructor)) static void begin(void) {
  const char *end = getenv("REFUSALS_TOLD");
  for (int kind = 0; kind < 3; kind++) {
    const char *number = getenv(kinds[kind]);
    refused[kind] = number ? atol(number) : 0;
  }
  blocks = 0;
  pipe_end = end ? atoi(end) : -1;
}

__attribute__((destructor)) static void finish(void) {
  tell("memory", made[MEMORY]);
  tell("reads", made[READ]);
  tell("writes", made[WRITE]);
  tell("blocks", blocks);
}

static void *kept(void *block) {
  if (block) blocks++;
  return block;
}

static void *none(void) {
  errno = ENOMEM;
  return NULL;
}

void *malloc(size_t size) { return refuses(MEMORY) ? none() : kept(__libc_malloc(size)); }
void *calloc(size_t many, size_t size) { return refuses(MEMORY) ? none() : kept(__libc_calloc(many, size)); }
void *memalign(size_t align, size_t size) { return refuses(MEMORY) ? none() : kept(__libc_memalign(align, size)); }
void *aligned_alloc(size_t align, size_t size) { return memalign(align, size); }
void *realloc(void *old, size_t size) {
  if (refuses(MEMORY)) return none();
  void *block = __libc_realloc(old, size);
  if (!old) kept(block);
  return block;
}
int posix_memalign(void **to, size_t align, size_t size) {
  void *block = memalign(align, size);
  if (!block) return ENOMEM;
  *to = block;
  return 0;
}
void free(void *block) {
  if (block) blocks--;
  __libc_free(block);
}

#define NEXT(name) dlsym(RTLD_NEXT, name)
static int fails(void) {
  errno = EIO;
  return -1;
}

static int opened(const char *name, const char *path, int flags, int mode) {
  int (*next)(const char *, int, ...) = NEXT(name);
  return refuses(READ) ? fails() : next(path, flags, mode);
}
#define OPEN(name)                                   \
  int name(const char *path, int flags, ...) {       \
    va_list rest;                                    \
    va_start(rest, flags);                           \
    int mode = va_arg(rest, int);                    \
    va_end(rest);                                    \
    return opened(#name, path, flags, mode);         \
  }
OPEN(open)
OPEN(open64)
int openat(int at, const char *path, int flags, ...) {
  int (*next)(int, const char *, int, ...) = NEXT("openat");
  va_list rest;
  va_start(rest, flags);
  int mode = va_arg(rest, int);
  va_end(rest);
  return refuses(READ) ? fails() : next(at, path, flags, mode);
}
ssize_t read(int at, void *to, size_t size) {
  ssize_t (*next)(int, void *, size_t) = NEXT("read");
  return refuses(READ) ? fails() : next(at, to, size);
}
ssize_t write(int at, const void *from, size_t size) {
  ssize_t (*next)(int, const void *, size_t) = NEXT("write");
  return refuses(WRITE) ? fails() : next(at, from, size);
}
"""


class Refusals:
    """Runs a program in a folder, with at most one of its calls refused."""

    def __init__(self, room):
        self.library = os.path.join(room, "refusals.so")
        source = os.path.join(room, "refusals.c")
        with open(source, "w") as file:
            file.write(SOURCE)
        subprocess.run(["cc", "-O1", "-shared", "-fPIC", "-o", self.library, source, "-ldl"], check=True)

    def run(self, words, folder, kind=None, number=0):
        """Status, both outputs, whether the call was refused, and the counts that the program left."""
        told, end = os.pipe()
        env = {**os.environ, "LD_PRELOAD": self.library, "REFUSALS_TOLD": str(end)}
        if kind:
            env["REFUSED_" + kind] = str(number)
        ran = subprocess.run(words, cwd=folder, env=env, pass_fds=[end], capture_output=True, timeout=120)
        os.close(end)
        with os.fdopen(told, "rb") as file:
            lines = [line.split() for line in file.read().decode().splitlines()]
        counts = {name: int(number) for name, number in lines if name != "refused"}
        return ran.returncode, ran.stdout, ran.stderr, any(name == "refused" for name, _ in lines), counts
