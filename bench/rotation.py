"""Prints what rotation of the log costs a server under reads.

    python3 bench/rotation.py reads      reads per second with `--rotate 100000` and without rotation, 10 rounds of each
    python3 bench/rotation.py stops 100  how long a rotation stops reads, beside 100 thousand live allocations

For `reads`, rounds of 500,000 reads of one job alternate, 1,000 over one connection at a time. The medians are compared. If the
one with rotation is below 0.95 of the other, the exit status is 1. For `stops`, reads are made in hundreds, so that a rotation
falls into one of a thousand hundreds. The longest of each thousand counts, with rotation and without. If the medians of these
differ by more than a hundred reads take, the exit status is 1.
"""

import json
import statistics
import sys
import time

from driven import MHZ, jobs, nodes, places_in, request
from served import BATCH, Served

ROUNDS = 10
READS = 500_000
HUNDRED = 100
LIMIT = ["--log-limit", "100000000"]
ROTATE = ["--rotate", "100000"]


def rate(connection):
    read = request("GET", "/v1/job/web")
    reply = connection.ask(read)
    start = time.perf_counter()
    for _ in range(READS // BATCH):
        connection.repeat(read, reply, BATCH)
    return READS / (time.perf_counter() - start)


def compared():
    rates = {}
    for turn in range(ROUNDS):
        for arguments in (ROTATE, []):
            server = Served([*LIMIT, *arguments])
            connection = server.opened()
            rates.setdefault(bool(arguments), []).append(rate(connection))
            server.end()
    rotated, plain = statistics.median(rates[True]), statistics.median(rates[False])
    print(f"reads a second: {rotated:.0f} with rotation, {plain:.0f} without, {rotated / plain:.3f} of it")
    return rotated >= 0.95 * plain


def used(connection):
    """The CPU that is in use on all nodes, in MHz."""
    body = connection.ask(request("GET", "/v1/node/pool/default/nodes")).split(b"\r\n\r\n", 1)[1]
    return sum(node["Used"]["CPU"] for node in json.loads(body))


def filled(arguments, thousands):
    """A server with `thousands` thousand live allocations, each of a job of its own, over 1,000 nodes; a connection to it; and
    how many allocations there are. One worker places them, since two would find nodes full that they both saw with room."""
    server = Served([*LIMIT, "--workers", "1", *arguments])
    connection = server.opened()
    # one node exists already, and a pool has at most 1,000
    connection.all(nodes(places_in(thousands) + 2)[1:])
    connection.ask(request("PUT", "/v1/namespace", {"Name": "big"}))
    for job in jobs("big", thousands, 20, 1, "big"):
        connection.ask(job)
    while (found := used(connection) // MHZ) < thousands * 1_000:
        time.sleep(0.5)
    return server, connection, found


def longest(connection, thousands):
    """The median of the longest time of each thousand, and the median of all times, each of a hundred reads."""
    read = request("GET", "/v1/job/web")
    reply = connection.ask(read)
    times, ends = [], []
    for _ in range(thousands):
        for _ in range(1_000):
            start = time.perf_counter()
            connection.repeat(read, reply, HUNDRED)
            times.append(time.perf_counter() - start)
        ends.append(max(times[-1_000:]))
    return statistics.median(ends), statistics.median(times)


def stops(thousands):
    found = {}
    for arguments in (ROTATE, []):
        server, connection, allocations = filled(arguments, thousands)
        found[bool(arguments)] = longest(connection, 31)
        server.end()
    rotated, plain, hundred = found[True][0], found[False][0], found[False][1]
    print(f"beside {allocations} live allocations a hundred reads take {hundred * 1e6:.0f} microseconds; the longest of a thousand "
          f"hundreds {rotated * 1e6:.0f} with one rotation among them, {plain * 1e6:.0f} without")
    return rotated - plain <= hundred


def main(words):
    is_right = stops(int(words[1])) if words[:1] == ["stops"] else compared()
    return 0 if is_right else 1


if __name__ == "__main__":
    sys.exit(main(sys.argv[1:]))
