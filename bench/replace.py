"""Times how `./nsd` replaces a job by its next version on 1,000 nodes.

    python3 bench/replace.py                   jobs of 1,000, 4,000 and 16,000 allocations, which is the most that a job can have
    python3 bench/replace.py 16                of this many thousand, 16 at most
    python3 bench/replace.py 16 quota          the same under a quota that the job fills
    python3 bench/replace.py 16 --show         prints the requests of `nsd pipe --drive`, and runs nothing

The nodes have room for the job once, so each allocation of the next version takes the room of one of the version before, which
stops. The job is registered, placed and then registered again: over one connection of `nsd pipe --drive`, which does all steps
one after the other, and then with `nsd serve --workers 1`, while another connection keeps reading the quotas. A read waits while
a step has the server's lock, so the longest of them waits for Apply, and the next for the longest of the other steps. Together
they wait at least as long as Snap and Apply take, but for the time between two reads, some 0.1 ms. Of five rounds of each the
median counts, and the least and the most are printed beside it.

At 16,000 allocations Snap and Apply are asked to take 40 ms together, and any step 50 ms. The whole also has the registration,
the plan, which is made while no lock is held, and the other steps. If a version was not placed whole, or the one before did not
stop whole, the exit status is 1.
"""

import json
import os
import statistics
import sys
import threading
import time

from driven import DISK, MHZ, NODES, Server, nodes, request
from served import Connection, Served

ROUNDS = 5
GROUP = 1_000
WHOLE, LONGEST, TWO = "the whole", "the longest read", "the two longest reads"
ASKED = {WHOLE: "", LONGEST: ", asked at 16000: 50 ms", TWO: ", asked at 16000: 40 ms"}


def job(thousands, version):
    """The request that registers the job: groups of 1,000 allocations, whose task is named after the version."""
    task = {"Name": f"t{version}", "Resources": {"CPU": MHZ, "MemoryMB": MHZ}}
    groups = [{"Name": f"g{group}", "Count": GROUP, "Tasks": [task]} for group in range(thousands)]
    return request("POST", "/v1/jobs?namespace=own", {"Job": {"ID": "big", "TaskGroups": groups}})


def tenant(thousands, limited):
    """The requests that put the namespace and its quota, which the job fills if it is limited."""
    most = thousands * GROUP
    sizes = {"CPU": most * MHZ, "MemoryMB": most * MHZ, "DiskMB": most * DISK} if limited else {}
    limits = [{"Region": "global", "RegionLimit": sizes}]
    quota = request("PUT", "/v1/quota", {"Name": "own", "Limits": limits})
    namespace = {"Name": "own", "Quota": "own"} if limited else {"Name": "own"}
    return [quota, request("PUT", "/v1/namespace", namespace)]


def is_replaced(rows, replies, thousands):
    """Whether as many allocations run as the job asks for, equally many on each node, and as many have stopped."""
    most = thousands * GROUP
    run = sum(row["DesiredStatus"] == "run" for row in rows)
    stopped = sum(row["DesiredStatus"] == "stop" for row in rows)
    full = all(node["Used"]["CPU"] == thousands * MHZ for node in replies)
    return run == most and stopped == most and len(rows) == 2 * most and full


ROWS = request("GET", "/v1/job/big/allocations?namespace=own")
USED = request("GET", "/v1/node/pool/default/nodes")


def driven(thousands, limited):
    """The seconds of the replacement over one connection, by what they are of, and whether all was done."""
    server = Server()
    server.ask(nodes(thousands) + tenant(thousands, limited) + [job(thousands, 1)])
    seconds = server.timed([job(thousands, 2)])
    is_right = is_replaced(server.ask([ROWS]), server.ask([USED]), thousands)
    server.end()
    return {WHOLE: seconds}, is_right


def body(reply):
    return json.loads(reply.split(b"\r\n\r\n", 1)[1])


def used(connection):
    return sum(node["Used"]["CPU"] for node in body(connection.ask(USED)))


def await_run(connection, number):
    """Waits until the newest version of the job has this many allocations."""
    ended = request("GET", "/v1/job/big/evaluations?namespace=own")
    for _ in range(600):
        rows = body(connection.ask(ended))
        if len(rows) == number and all(row["Status"] == "complete" for row in rows):
            return
        time.sleep(0.05)
    sys.exit("the job was not placed within half a minute")


class Reader(threading.Thread):
    """Reads the quotas again and again, and keeps the number of reads and the two longest times of one, the longest first."""

    def __init__(self, port):
        super().__init__()
        self.connection = Connection(port)
        self.longest, self.reads, self.is_over = [0.0, 0.0], 0, False

    def run(self):
        read = request("GET", "/v1/quotas")
        while not self.is_over:
            start = time.perf_counter()
            self.connection.ask(read)
            self.longest = sorted([*self.longest, time.perf_counter() - start], reverse=True)[:2]
            self.reads += 1


def served(thousands, limited):
    """The seconds of the longest reads beside the replacement, by what they are of, and whether all was done."""
    server = Served(["--log-limit", "100000000", "--workers", "1"])
    connection = Connection(server.port)
    connection.all(nodes(thousands) + tenant(thousands, limited) + [job(thousands, 1)])
    await_run(connection, 1)
    reader = Reader(server.port)
    reader.start()
    connection.ask(job(thousands, 2))
    time.sleep(0.1 + 0.1 * thousands)
    reader.is_over = True
    reader.join()
    await_run(connection, 2)
    is_right = is_replaced(body(connection.ask(ROWS)), body(connection.ask(USED)), thousands)
    server.end()
    return {LONGEST: reader.longest[0], TWO: sum(reader.longest)}, is_right and reader.reads > 100


def measured(thousands, measure, limited):
    """Prints the median of the rounds for each time, beside what is asked. Returns whether each round did its work."""
    rounds = [measure(thousands, limited) for _ in range(ROUNDS)]
    for what in rounds[0][0]:
        taken = sorted(seconds[what] * 1e3 for seconds, _ in rounds)
        print(f"{thousands * GROUP} replaced: {what} took {statistics.median(taken):.1f} ms "
              f"({taken[0]:.1f} to {taken[-1]:.1f}){ASKED[what]}", flush=True)
    return all(is_right for _, is_right in rounds)


def main(words):
    sizes = [int(word) for word in words if word.isdecimal()] or [1, 4, 16]
    limited = "quota" in words
    if "--show" in words:
        for thousands in sizes:
            requests = nodes(thousands) + tenant(thousands, limited) + [job(thousands, 1), job(thousands, 2)]
            sys.stdout.buffer.write(b"".join(requests))
        return 0
    if not os.path.exists("nsd"):
        print("there is no ./nsd here: build the program first", file=sys.stderr)
        return 2
    done = [measured(thousands, measure, limited) for thousands in sizes for measure in (driven, served)]
    if not all(done):
        print("that is not what the input asks for", file=sys.stderr)
    return 0 if all(done) else 1


if __name__ == "__main__":
    sys.exit(main(sys.argv[1:]))
