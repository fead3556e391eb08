"""Prints how much memory `./nsd serve --rotate 10000` keeps resident while it runs on.

    python3 bench/forever.py           10 million reads of one job, and then 1 million registrations of one job
    python3 bench/forever.py 2 0.5     other numbers, in millions

One line after each million reads, and after each tenth of a million registrations. The requests go over one connection, 1,000
at a time, and wait while the log that was read is 20,000 entries behind. A registration keeps an evaluation, so registrations
make the server grow, by the bytes that are printed. If the reads after the first million make it grow, by more than the
allocator's noise of 16 MB, the exit status is 1.
"""

import subprocess
import sys
import threading
import time

from driven import jobs, request, room
from served import BATCH, Served

MILLION = 1_000_000
NOISE = 16 * 1024
BEHIND = 20_000
JOBS = 1


class Log:
    """Counts the lines of what a server writes as its log."""

    def __init__(self, pipe):
        self.pipe, self.lines = pipe, 0
        threading.Thread(target=self.read, daemon=True).start()

    def read(self):
        while taken := self.pipe.read1(1 << 20):
            self.lines += taken.count(b"\n")

    def hold(self, entries):
        """Waits until the log is at most `BEHIND` entries behind this number of entries."""
        while self.lines < entries - BEHIND:
            time.sleep(0.001)


def reads(server, connection, log, millions):
    read = request("GET", "/v1/job/web")
    reply = connection.ask(read)
    sizes = []
    for million in range(millions):
        start = time.perf_counter()
        for batch in range(MILLION // BATCH):
            connection.repeat(read, reply, BATCH)
            log.hold(million * MILLION + batch * BATCH)
        seconds = time.perf_counter() - start
        sizes.append(server.resident())
        print(f"{million + 1} million reads: {sizes[-1]} KB, {MILLION / seconds:.0f} reads a second", flush=True)
    return max(sizes) - sizes[0] <= NOISE


def registrations(server, connection, log, number):
    before, first = server.resident(), log.lines
    connection.ask(request("PUT", "/v1/node/pool/default/node/big", room(JOBS)))
    some = jobs("job", JOBS, 50, 1, count=1) * (BATCH // JOBS)
    done = 0
    while done < number:
        for _ in range(MILLION // 10 // BATCH):
            connection.all(some)
            done += BATCH
            log.hold(first + done)
        size = server.resident()
        print(f"{done} registrations: {size} KB, {(size - before) * 1024 / done:.0f} bytes for each", flush=True)


def main(words):
    millions, more = (int(words[0]), float(words[1])) if words else (10, 1)
    server = Served(["--rotate", "10000"], subprocess.PIPE)
    log = Log(server.program.stdout)
    connection = server.opened()
    is_right = reads(server, connection, log, millions)
    registrations(server, connection, log, int(more * MILLION))
    server.end()
    if not is_right:
        print("reads made it grow")
    return 0 if is_right else 1


if __name__ == "__main__":
    sys.exit(main(sys.argv[1:]))
