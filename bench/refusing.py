"""Runs a program with one of its allocations refused. It needs a C compiler, `cc`."""

import array
import os
import pathlib
import subprocess

# A library between the program and the allocator. Threads are numbered from 0 in the order in which they are made. The library
# refuses the allocation with the given number, counted over all threads or over one thread. It writes its counts to a shared
# file: whether it refused one, how many allocations there were, how many threads, and how many allocations of each. Allocations
# between one of BEGINS bytes and one of ENDS bytes are neither counted nor refused: with these `plays` (src/watch.rt) says that
# it compares.
SOURCE = """
#define _GNU_SOURCE
#include <dlfcn.h>
#include <errno.h>
#include <fcntl.h>
#include <pthread.h>
#include <stdlib.h>
#include <sys/mman.h>
#include <unistd.h>
#define MOST 128
#define BEGINS 40009
#define ENDS 40013
struct counts { unsigned long refused, calls, threads, each[MOST]; };
static struct counts own, *counts = &own;
static unsigned long nth;
static long only = -1;
static __thread long me __attribute__((tls_model("initial-exec"))) = 0;
static void *(*real_malloc)(size_t);
static void *(*real_realloc)(void *, size_t);
static void *(*real_aligned)(size_t, size_t);
static int (*real_create)(pthread_t *, const pthread_attr_t *, void *(*)(void *), void *);
struct begun { void *(*start)(void *); void *arg; long number; };
static struct begun begun[MOST];
static void share(const char *path) {
    int file = path ? open(path, O_RDWR | O_CREAT | O_TRUNC, 0600) : -1;
    if (file < 0 || ftruncate(file, sizeof own)) return;
    void *at = mmap(0, sizeof own, PROT_READ | PROT_WRITE, MAP_SHARED, file, 0);
    close(file);
    if (at != MAP_FAILED) counts = at;
}
__attribute__((constructor)) static void begin(void) {
    const char *word = getenv("REFUSED");
    nth = word ? strtoul(word, 0, 10) : 0;
    word = getenv("THREAD");
    only = word ? strtol(word, 0, 10) : -1;
    real_malloc = dlsym(RTLD_NEXT, "malloc");
    real_realloc = dlsym(RTLD_NEXT, "realloc");
    real_aligned = dlsym(RTLD_NEXT, "aligned_alloc");
    real_create = dlsym(RTLD_NEXT, "pthread_create");
    share(getenv("CALLS"));
    counts->threads = 1;
}
static void *run(void *arg) {
    struct begun *it = arg;
    me = it->number;
    return it->start(it->arg);
}
int pthread_create(pthread_t *thread, const pthread_attr_t *attr, void *(*start)(void *), void *arg) {
    unsigned long number = __sync_fetch_and_add(&counts->threads, 1);
    if (number >= MOST) return EAGAIN;
    begun[number] = (struct begun){start, arg, number};
    return real_create(thread, attr, run, &begun[number]);
}
static int is_refused(size_t size) {
    static int aside;
    if (size == BEGINS) aside = 1;
    if (aside || size == ENDS) {
        if (size == ENDS) aside = 0;
        return 0;
    }
    unsigned long all = __sync_add_and_fetch(&counts->calls, 1);
    unsigned long mine = __sync_add_and_fetch(&counts->each[me], 1);
    if (only < 0 ? all != nth : only != me || mine != nth) return 0;
    counts->refused = 1;
    errno = ENOMEM;
    return 1;
}
void *malloc(size_t size) {
    if (!real_malloc) real_malloc = dlsym(RTLD_NEXT, "malloc");
    return is_refused(size) ? 0 : real_malloc(size);
}
void *realloc(void *old, size_t size) { return is_refused(size) ? 0 : real_realloc(old, size); }
void *aligned_alloc(size_t align, size_t size) { return is_refused(size) ? 0 : real_aligned(align, size); }
"""


class Refusing:
    """The library that refuses an allocation, in a folder of its own."""

    def __init__(self, folder):
        self.folder = pathlib.Path(folder)
        self.library = self.folder / "refusing.so"
        source = self.folder / "refusing.c"
        source.write_text(SOURCE)
        subprocess.run(["cc", "-shared", "-fPIC", "-O1", "-o", self.library, source, "-ldl", "-lpthread"], check=True)

    def environment(self, refused, thread=None):
        """The environment that refuses this allocation (0: none), counted over this thread alone if one is given."""
        words = {"LD_PRELOAD": str(self.library), "REFUSED": str(refused), "CALLS": str(self.folder / "calls")}
        if thread is not None:
            words["THREAD"] = str(thread)
        return {**os.environ, **words}

    def run(self, words, text, refused=0):
        """Runs the program over this input. Returns the status, the output and the errors."""
        environment = self.environment(refused)
        done = subprocess.run(words, input=text, capture_output=True, env=environment, timeout=120)
        return done.returncode, done.stdout, done.stderr

    def counted(self):
        """Whether an allocation was refused, how many there were, and how many of each thread."""
        numbers = array.array("L", (self.folder / "calls").read_bytes())
        refused, calls, threads, *each = numbers
        return refused == 1, calls, each[:threads]
