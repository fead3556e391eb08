"""Counts the processor minutes that all tests take from nothing, by what took them.

    python3 bench/gate_minutes.py                   all tests
    python3 bench/gate_minutes.py --processors 2    the same on two processors, as the smallest machine that they have to pass on
    python3 bench/gate_minutes.py --first-build     the first build alone
    python3 bench/gate_minutes.py ns_http           these crates, with the crates that they stand on

It clones the last commit into a folder of its own and runs `rt ci --anew` there, which takes nothing from earlier runs on the
machine. Each second it reads from /proc what the provers and compilers have taken so far. What one took after it was read last
counts as rt's own, as do the programs that rt runs. The first build is what `./nsd` needs: the proofs of `nsd` and of the crates
that it stands on, and their compilation. It prints as well how long ten million additions in Python take before and after, since
a processor minute of one host is not that of another.

It needs Linux's /proc, and the memory and disk that `rt ci` needs.
"""

import argparse
import collections
import os
import pathlib
import resource
import shutil
import subprocess
import sys
import tempfile
import threading
import time

TOP = pathlib.Path(__file__).resolve().parent.parent
TICK = os.sysconf("SC_CLK_TCK")


def additions():
    """The processor seconds of ten million additions, by code that stands in no function, as PERFORMANCE has them."""
    begun = time.process_time()
    exec("total = 0\nfor number in range(10_000_000):\n    total += number * number", {})
    return time.process_time() - begun


def below_nsd(lines):
    """The names of `nsd` and of the crates that it stands on, by the lines of crates.txt."""
    stands_on = {name: below.split() for name, _, below in (line.partition(":") for line in lines if not line.startswith("#"))}
    found, left = set(), ["nsd"]
    while left:
        name = left.pop()
        if name in stands_on and name not in found:
            found.add(name)
            left += stands_on[name]
    return found


def leave_first_build(tree, first):
    """Takes all out of the tree that `./nsd` does not need for the first build: other crates than `first`, and wrong bodies."""
    lines = (tree / "crates.txt").read_text().splitlines(keepends=True)
    (tree / "crates.txt").write_text("".join(line for line in lines if line.partition(":")[0] in first))
    for crate in (tree / "crates").iterdir():
        shutil.rmtree(crate / "must-fail" if crate.name in first else crate, ignore_errors=True)


def words_of(process):
    return (process / "cmdline").read_text().split("\0")[:-1]


def part_of(words, folder):
    """What a process with these words in this folder works on. None if it is no prover and no compiler."""
    program = words[0].rpartition("/")[2]
    if program in ("clang", "rattle-link") or "--crate-checked" in words:
        return "compilation"
    if program != "rattle" or words[1:2] not in (["build"], ["check"]):
        return None
    if "/rt-edit-" in folder:
        return "wrong bodies"
    return "proofs of tests" if "--test" in words else "proofs"


def crate_of(process, words):
    """The crate that the process works on, by its own words or those of the prover that started it. None if they name none."""
    if "--crate-name" not in words:
        fields = (process / "stat").read_text().rpartition(")")[2].split()
        words = words_of(process.parent / fields[1])
    return words[words.index("--crate-name") + 1] if "--crate-name" in words else None


def read_process(process, room):
    """The process as its key, its part, its crate and its processor seconds, or None if it is not one of the room's."""
    folder, words = os.readlink(process / "cwd"), words_of(process)
    part = part_of(words, folder) if words and folder.startswith(room) else None
    if part is None:
        return None
    fields = (process / "stat").read_text().rpartition(")")[2].split()
    return (process.name, fields[19]), part, crate_of(process, words), (int(fields[11]) + int(fields[12])) / TICK


def watch(room, taken, ended):
    """Keeps in `taken` what each process of the room has taken so far, until the run has ended."""
    while not ended.wait(1):
        for process in pathlib.Path("/proc").glob("[0-9]*"):
            try:
                found = read_process(process, room)
            except (OSError, ValueError, IndexError):
                continue
            if found:
                key, part, crate, seconds = found
                taken[key] = part, crate, seconds


def run(tree, room, names):
    """Runs the tests. Returns what each process took, the processor seconds of all, those by the clock, and the exit status."""
    taken, ended = {}, threading.Event()
    watcher = threading.Thread(target=watch, args=(room, taken, ended))
    watcher.start()
    begun = time.monotonic()
    ran = subprocess.run(["rt", "ci", "--anew", *names], cwd=tree, env={**os.environ, "TMPDIR": room}, stdin=subprocess.DEVNULL)
    by_clock = time.monotonic() - begun
    ended.set()
    watcher.join()
    used = resource.getrusage(resource.RUSAGE_CHILDREN)
    return taken, used.ru_utime + used.ru_stime, by_clock, ran.returncode


def print_minutes(taken, total, first):
    """Prints what each part took, and the first build, which is of the crates `first`."""
    parts, first_build = collections.Counter(), 0
    for part, crate, seconds in taken.values():
        parts[part] += seconds
        if part in ("proofs", "compilation") and crate in first:
            first_build += seconds
    parts["rt and what it runs"] = total - sum(parts.values())
    for part, seconds in parts.most_common():
        print(f"{seconds / 60:7.1f} processor minutes: {part}")
    print(f"{first_build / 60:7.1f} of them: the first build")


def main():
    words = argparse.ArgumentParser()
    words.add_argument("--processors", type=int, default=len(os.sched_getaffinity(0)))
    words.add_argument("--first-build", action="store_true")
    words.add_argument("names", nargs="*")
    words = words.parse_args()
    os.sched_setaffinity(0, sorted(os.sched_getaffinity(0))[: words.processors])
    os.environ["RT_JOBS"] = str(words.processors)
    before = additions()
    with tempfile.TemporaryDirectory() as room:
        tree = pathlib.Path(room, "tree")
        subprocess.run(["git", "clone", "-q", TOP, tree], check=True)
        asked = ["git", "rev-parse", "--short=8", "HEAD"]
        commit = subprocess.run(asked, cwd=tree, check=True, capture_output=True, text=True).stdout.strip()
        first = below_nsd((tree / "crates.txt").read_text().splitlines())
        if words.first_build:
            leave_first_build(tree, first)
        taken, total, by_clock, status = run(tree, room, words.names)
    print_minutes(taken, total, first)
    print(f"{total / 60:7.1f} in all, {by_clock / 60:.1f} by the clock on {words.processors} processors, over {commit}")
    print(f"ten million additions in Python took {before:.2f} s before and {additions():.2f} s after")
    sys.exit(status)


main()
