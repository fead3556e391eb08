"""Prints how long `nsd serve` takes for jobs that come faster than they are placed.

    python3 bench/burst.py                 2,000 and 10,000 jobs of one allocation, with one worker
    python3 bench/burst.py 5000            another number of them: thousands, each in a namespace and a pool of its own
    python3 bench/burst.py --workers 4     with this many workers

All are registered over one connection, one request after the other without waiting for replies. Then the use of the nodes is
read every tenth of a second, until all jobs are placed.
"""

import json
import socket
import subprocess
import sys
import threading
import time

from driven import MHZ, jobs, request, told
from growth import one_node, tenant

EACH = 1_000


class Connection:
    def __init__(self, address):
        host, port = address.rsplit(":", 1)
        self.socket = socket.create_connection((host, int(port)))
        self.replies = self.socket.makefile("rb")

    def reply(self):
        status = self.replies.readline()
        if not status.startswith(b"HTTP/1.1 200 "):
            sys.exit(f"a request was not served: {status}")
        length = 0
        while (line := self.replies.readline()) not in (b"\r\n", b""):
            if line.startswith(b"Content-Length: "):
                length = int(line.split()[1])
        return self.replies.read(length)

    def ask(self, requests):
        """Sends the requests at once while it takes the replies, and returns the replies."""
        writer = threading.Thread(target=self.socket.sendall, args=(b"".join(requests),))
        writer.start()
        replies = [self.reply() for _ in requests]
        writer.join()
        return replies


def burst(number, workers):
    words = ["./nsd", "serve", "--listen", "127.0.0.1:0", "--bootstrap", "root", "--workers", workers]
    program = subprocess.Popen(words, stdout=subprocess.DEVNULL, stderr=subprocess.PIPE, text=True)
    connection = Connection(program.stderr.readline().split()[1])
    names = [f"t{owner}" for owner in range(number // EACH)]
    for name in names:
        connection.ask(tenant(name) + one_node(name, EACH))
    registrations = [it for name in names for it in jobs("one", EACH, 20, 1, name, 1)]
    start = time.perf_counter()
    connection.ask(registrations)
    told("registrations", number, time.perf_counter() - start)
    placed = 0
    while placed < number:
        time.sleep(0.1)
        lists = connection.ask([request("GET", f"/v1/node/pool/{name}/nodes") for name in names])
        placed = sum(json.loads(it)[0]["Used"]["CPU"] for it in lists) // MHZ
    told("jobs registered and placed", number, time.perf_counter() - start)
    program.kill()
    program.wait()


def main():
    words = sys.argv[1:]
    workers = "1"
    if words[:1] == ["--workers"]:
        workers, words = words[1], words[2:]
    for number in [int(it) for it in words] or [2_000, 10_000]:
        if number % EACH > 0 or number == 0:
            sys.exit("a number of thousands is needed")
        burst(number, workers)


if __name__ == "__main__":
    main()
