"""Prints how many instructions `./nsd pipe` takes for one pipelined read of a job, as callgrind counts them, or for a job.

    python3 bench/instructions.py                  of crates/nsd/out/nsd
    python3 bench/instructions.py PROGRAM          of another program
    python3 bench/instructions.py PROGRAM --most N ends with status 1 if a read takes more than N
    python3 bench/instructions.py PROGRAM --placed for a job of one allocation, registered and placed, on a node that has no other
                                                   allocation, 100 others, or 900; and the last beside the second
    python3 bench/instructions.py PROGRAM --pool   for the same beside no allocation and 5,000 on other nodes of its pool; and what
                                                   each of these costs it
    python3 bench/instructions.py PROGRAM --placed --nodes N    the same where the pool has N nodes, and not 10
    python3 bench/instructions.py PROGRAM --placed --no-rep     the same where the C library does not use `rep movsb` and `rep stosb`

Two runs are counted, of FEW reads and of twice as many, and their difference is divided by FEW. So what the program does at its
start and its end, and the registration of the job, do not count. Jobs are counted in the same way, JOBS of them, and each goes
to the node that the others are on. Callgrind counts each byte that `rep movsb` or `rep stosb` moves as an instruction, unless
the C library is kept from using them. The functions that take most are listed with it, if the program has their names. Ends
with status 1 if a reply is not 200, or if the two runs do not answer each request.
"""

import argparse
import os
import re
import subprocess
import sys
import tempfile

from driven import jobs, nodes, request

FEW = 1_000
JOBS = 20
ROOM = 1_000
BESIDE = (0, 100, 900)
# Five nodes full of them.
IN_POOL = 5 * ROOM
ASKED_PLACED, AIM_PLACED = 130_000, 80_000
ASKED_RATIO = 1.5
LISTED = 20
ASKED = 6_000
AIM = 4_000
OK = b"HTTP/1.1 200 OK\r\n"
# More bytes than are ever moved at once.
NO_REP = "glibc.cpu.x86_rep_movsb_threshold=1000000000:glibc.cpu.x86_rep_stosb_threshold=1000000000"


def reads(number):
    """The registration of a job, and this many reads of it."""
    return jobs("web", 1, 50, 1, count=1) + [request("GET", "/v1/job/web-0")] * number


def placed(beside, count):
    """`count` nodes with room for many, a job of `beside` allocations, and then jobs of one allocation, which go to the same
    node."""

    def requests(number):
        filled = jobs("other", 1, 50, 1, count=beside) if beside else []
        return nodes(ROOM)[:count] + filled + jobs("web", number, 50, 1, count=1)

    return requests


def beside_full_nodes(others):
    """Ten nodes, of which `others` allocations fill some, and then jobs of one allocation, which go to the next node."""

    def requests(number):
        return nodes(ROOM)[:10] + jobs("other", others // ROOM, 50, 1, count=ROOM) + jobs("web", number, 50, 1, count=1)

    return requests


def counted(program, requests, folder, words):
    """The instructions of a run of these requests, by function. None: a reply is not 200."""
    source, profile = os.path.join(folder, "requests"), os.path.join(folder, "profile")
    with open(source, "wb") as file:
        file.writelines(requests)
    words = ["valgrind", "--tool=callgrind", f"--callgrind-out-file={profile}", program, "pipe", "--bootstrap", "root", *words]
    with open(source, "rb") as given:
        run = subprocess.run(words, stdin=given, capture_output=True, check=True)
    replies, served = run.stdout.count(b"HTTP/1.1 "), run.stdout.count(OK)
    if replies != len(requests) or served != replies:
        print(f"{len(requests)} requests, {replies} replies, {served} of them 200", file=sys.stderr)
        return None
    words = ["callgrind_annotate", "--threshold=100", profile]
    lines = subprocess.run(words, capture_output=True, text=True, check=True).stdout.splitlines()
    found = (re.match(r"\s*([\d,]+) \([ \d.]+%\)\s+(?:\S*?:)?(.+?)(?: \[.*\])?$", line) for line in lines)
    costs = {}
    for it in filter(None, found):
        costs[it[2]] = costs.get(it[2], 0) + int(it[1].replace(",", ""))
    return costs


def each_of(program, requests, few, words=()):
    """The instructions that one more request takes, in all and by function. None: a reply is not 200."""
    with tempfile.TemporaryDirectory() as folder:
        once = counted(program, requests(few), folder, words)
        twice = once and counted(program, requests(2 * few), folder, words)
    if not twice:
        return None
    each = {name: (cost - once.get(name, 0)) / few for name, cost in twice.items()}
    return each.pop("PROGRAM TOTALS"), each


def show(each):
    for name, cost in sorted(each.items(), key=lambda it: -it[1])[:LISTED]:
        print(f"{cost:8.0f}  {name}")


def show_placed(program, count):
    totals = []
    for beside in BESIDE:
        found = each_of(program, placed(beside, count), JOBS, ["--drive"])
        if found is None:
            return 1
        totals.append(found[0])
        print(f"a job of one allocation on a node that has {beside} others takes {found[0]:.0f} instructions; ", end="")
        print(f"asked {ASKED_PLACED}, aim {AIM_PLACED}")
        show(found[1])
    print(f"on a node of {BESIDE[2]} it takes {totals[2] / totals[1]:.2f} times what it takes on one of {BESIDE[1]}; asked {ASKED_RATIO}")
    return 0


def show_pool(program):
    totals = []
    for others in (0, IN_POOL):
        found = each_of(program, beside_full_nodes(others), JOBS, ["--drive"])
        if found is None:
            return 1
        totals.append(found[0])
        print(f"a job of one allocation beside {others} on other nodes of its pool takes {found[0]:.0f} instructions")
        show(found[1])
    print(f"each of them costs it {(totals[1] - totals[0]) / IN_POOL:.1f}")
    return 0


def main():
    parser = argparse.ArgumentParser()
    parser.add_argument("program", nargs="?", default="crates/nsd/out/nsd")
    parser.add_argument("--most", type=int)
    parser.add_argument("--placed", action="store_true")
    parser.add_argument("--pool", action="store_true")
    parser.add_argument("--nodes", type=int, default=10)
    parser.add_argument("--no-rep", action="store_true")
    words = parser.parse_args()
    if words.no_rep:
        os.environ["GLIBC_TUNABLES"] = NO_REP
    if not os.path.exists(words.program):
        print(f"there is no {words.program} here: build the program first", file=sys.stderr)
        return 2
    if words.placed:
        return show_placed(words.program, words.nodes)
    if words.pool:
        return show_pool(words.program)
    found = each_of(words.program, reads, FEW)
    if found is None:
        return 1
    print(f"a read of a job takes {found[0]:.0f} instructions; asked {ASKED}, aim {AIM}")
    show(found[1])
    if words.most is not None and found[0] > words.most:
        print(f"that is more than {words.most}", file=sys.stderr)
        return 1
    return 0


if __name__ == "__main__":
    sys.exit(main())
