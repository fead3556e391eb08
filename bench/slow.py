"""Prints what took longest in a check: the time of each crate, and its modules that took a second or more.

    python3 bench/slow.py                 all crates that were checked in this repository
    python3 bench/slow.py ns_work_log keyed   these crates, every module that took half a second or more

A check keeps a file for each module that it has finished, one after the other, in `crates/NAME/out/incremental`. So the time
between two files is what the later one took, if the crate was checked in one run with one job, as `rt all check` does. A module
that ends in `.Lts` or `.Kinds` goes through a function's moves and drops. Where it takes ten seconds and more, a large value
most likely falls out of scope there; `drop(value)` takes seconds. The module that has only the crate's name stands for reading
the crates below it.
"""

import os
import sys

CRATES = "crates"


def finished(crate):
    """The finished modules of the crate, each with the time at which it was finished. The first row has the time of the
    start."""
    kept = os.path.join(CRATES, crate, "out", "incremental")
    times = []
    for folder, _, files in os.walk(kept):
        for file in files:
            time = os.stat(os.path.join(folder, file)).st_mtime
            if file == "rattle-last-used":
                times.append((time, ""))
            elif file.endswith(".oantt") and os.path.basename(folder) != "records":
                times.append((time, file.removesuffix(".oantt")))
    return sorted(times)


def taken(times):
    """What each module took, the longest first."""
    return sorted(((time - before, module) for (before, _), (time, module) in zip(times, times[1:])), reverse=True)


def main():
    names = sys.argv[1:]
    least = 0.5 if names else 1.0
    crates = []
    for name in names or sorted(os.listdir(CRATES)):
        times = finished(name)
        if times:
            crates.append((times[-1][0] - times[0][0], name, taken(times)))
        elif names:
            print(f"{name}: no check is kept", file=sys.stderr)
    for whole, name, modules in sorted(crates, reverse=True):
        print(f"{whole:7.1f} {name}")
        for seconds, module in modules:
            if seconds >= least:
                print(f"{seconds:15.1f} {module}")


main()
