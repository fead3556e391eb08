"""Prints what one pipelined read of a job moves and allocates in `./nsd pipe`, by function and size, or what a job does.

    python3 bench/moves.py                    of crates/nsd/out/nsd
    python3 bench/moves.py PROGRAM            of another program
    python3 bench/moves.py PROGRAM --placed   for a job of one allocation, registered and placed in a pool of ten nodes

A value that is passed on is copied by `memcpy`, and the place that it leaves is often filled by `memset`: callgrind says how many
instructions that takes, but not which value it was. So `memcpy`, `memset` and `malloc` are replaced, by a library that is loaded
before the C library, with ones that count calls by size and by the place they were made from. As with `bench/instructions.py`, two
runs are counted, and what the longer one has more is divided by how many requests it has more. Small copies of a size that the
compiler knows are no calls, and are not counted. It needs Linux on x86-64, `nm` and a C compiler, `cc`.
"""

import bisect
import os
import subprocess
import sys
import tempfile

from instructions import FEW, JOBS, placed, reads

LISTED = 40
KINDS = {1: "copied", 2: "filled", 3: "allocated"}
COUNTING = r"""
#define _GNU_SOURCE
#include <link.h>
#include <stdio.h>
#include <stdlib.h>
#include <sys/syscall.h>
#include <unistd.h>
enum { SLOTS = 1 << 16 };
static struct { unsigned long from, calls; size_t size; int kind; } slots[SLOTS];
static unsigned long base;
static int first(struct dl_phdr_info *info, size_t size, void *data) { base = info->dlpi_addr; return 1; }
static void count(int kind, void *from, size_t size) {
    unsigned long at = (unsigned long)from * 1000003 ^ size * 7919 ^ kind;
    for (int i = 0; i < SLOTS; i++) {
        unsigned long k = (at + i) % SLOTS;
        if (!slots[k].calls) { slots[k].from = (unsigned long)from; slots[k].size = size; slots[k].kind = kind; }
        if (slots[k].from == (unsigned long)from && slots[k].size == size && slots[k].kind == kind) { slots[k].calls++; return; }
    }
}
void *memcpy(void *restrict to, const void *restrict from, size_t size) {
    count(1, __builtin_return_address(0), size);
    void *result = to;
    __asm__ volatile("rep movsb" : "+D"(to), "+S"(from), "+c"(size) : : "memory");
    return result;
}
void *memset(void *to, int byte, size_t size) {
    count(2, __builtin_return_address(0), size);
    void *result = to;
    __asm__ volatile("rep stosb" : "+D"(to), "+c"(size) : "a"(byte) : "memory");
    return result;
}
extern void *__libc_malloc(size_t);
void *malloc(size_t size) { count(3, __builtin_return_address(0), size); return __libc_malloc(size); }
void _exit(int status) {
    dl_iterate_phdr(first, 0);
    FILE *file = fopen(getenv("MOVES"), "w");
    for (int k = 0; k < SLOTS; k++)
        if (slots[k].calls) fprintf(file, "%d %lu %zu %lu\n", slots[k].kind, slots[k].from - base, slots[k].size, slots[k].calls);
    fclose(file);
    syscall(SYS_exit_group, status);
    for (;;);
}
"""


def counted(program, library, folder, requests, words):
    """How often each kind of call was made, by the place it was made from and its size."""
    source, result = os.path.join(folder, "requests"), os.path.join(folder, "moves")
    with open(source, "wb") as file:
        file.writelines(requests)
    environment = {**os.environ, "LD_PRELOAD": library, "MOVES": result}
    with open(source, "rb") as given:
        run = subprocess.run([program, "pipe", "--bootstrap", "root", *words], stdin=given, capture_output=True, env=environment)
    served = run.stdout.count(b"HTTP/1.1 200 OK\r\n")
    if run.returncode or served != len(requests):
        sys.exit(f"{len(requests)} requests, {served} replies with 200, status {run.returncode}")
    with open(result) as lines:
        rows = [[int(word) for word in line.split()] for line in lines]
    return {(kind, place, size): calls for kind, place, size, calls in rows}


def functions(program):
    """The places where the program's functions begin, in order, with their names."""
    lines = subprocess.run(["nm", "-C", program], capture_output=True, text=True, check=True).stdout.splitlines()
    parts = (line.split(" ", 2) for line in lines if not line.startswith(" "))
    return sorted((int(place, 16), name) for place, kind, name in parts if kind in "tT")


def main():
    words = [word for word in sys.argv[1:] if word != "--placed"]
    program = os.path.abspath(words[0] if words else "crates/nsd/out/nsd")
    jobs = "--placed" in sys.argv
    few, requests = (JOBS, placed(0, 10)) if jobs else (FEW, reads)
    with tempfile.TemporaryDirectory() as folder:
        library = os.path.join(folder, "counting.so")
        with open(os.path.join(folder, "counting.c"), "w") as file:
            file.write(COUNTING)
        subprocess.run(["cc", "-O1", "-fno-builtin", "-shared", "-fPIC", "-o", library, file.name], check=True)
        runs = [counted(program, library, folder, requests(number), ["--drive"] if jobs else []) for number in (few, 2 * few)]
    names = functions(program)
    begins = [place for place, _ in names]
    each = {}
    for (kind, place, size), calls in runs[1].items():
        name = names[max(bisect.bisect(begins, place) - 1, 0)][1]
        each[kind, size, name] = each.get((kind, size, name), 0) + (calls - runs[0].get((kind, place, size), 0)) / few
    for kind, title in KINDS.items():
        found = [(calls, size, name) for (its, size, name), calls in each.items() if its == kind and calls > 0]
        times, size = sum(row[0] for row in found), sum(row[0] * row[1] for row in found)
        print(f"{title}: {times:.0f} times, {size:.0f} bytes")
        for calls, size, name in sorted(found, key=lambda it: -it[0] * it[1])[:LISTED]:
            print(f"{calls:8.2f} times {size:6d} bytes  {name}")


if __name__ == "__main__":
    main()
