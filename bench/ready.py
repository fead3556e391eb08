"""Prints what a registration costs beside few and many ready evaluations of other namespaces.

    python3 bench/ready.py                10, 10,000 and 100,000 ready evaluations
    python3 bench/ready.py 10 1000000     other numbers

Each number gets its own run of `./nsd pipe`: first namespaces `t0`, `t1`, .. are filled with up to 1,000 jobs each, so
that this many evaluations are ready. Then, over the same connection, 1,000 jobs are registered twice in the namespace `mine`,
and the time of both rounds is divided by their registrations. The first makes evaluations that are ready, the second ones
that wait. Of five runs the least time counts.
"""

import subprocess
import sys
import time

JOBS = 1_000
RUNS = 5


def request(method, path, body):
    head = f"{method} {path} HTTP/1.1\r\nX-Nomad-Token: root\r\nContent-Length: {len(body)}\r\n\r\n"
    return (head + body).encode("ascii")


def registration(namespace, job):
    body = f'{{"Job":{{"ID":"job-{job}","TaskGroups":[{{"Name":"g","Tasks":[{{"Name":"t"}}]}}]}}}}'
    return request("POST", f"/v1/jobs?namespace={namespace}", body)


def namespace(name):
    return request("PUT", f"/v1/namespace/{name}", "{}")


class Server:
    def __init__(self):
        words = ["./nsd", "pipe", "--bootstrap", "root"]
        self.program = subprocess.Popen(words, stdin=subprocess.PIPE, stdout=subprocess.PIPE)

    def serve(self, requests):
        """Sends the requests a few at a time, and takes a reply to each. The bodies of the replies have no line ends."""
        for place in range(0, len(requests), 50):
            some = requests[place : place + 50]
            self.program.stdin.write(b"".join(some))
            self.program.stdin.flush()
            replies = b""
            while replies.count(b"HTTP/1.1 200 OK\r\n") < len(some) or not replies.endswith(b"}"):
                taken = self.program.stdout.read1(1 << 16)
                if not taken or b"HTTP/1.1 4" in taken:
                    sys.exit(f"a request was not served: {taken[:200]}")
                replies += taken

    def end(self):
        self.program.stdin.close()
        self.program.wait()


def fill(server, ready):
    for tenant in range(-(-ready // JOBS)):
        jobs = range(min(JOBS, ready - tenant * JOBS))
        server.serve([namespace(f"t{tenant}"), *(registration(f"t{tenant}", job) for job in jobs)])


def cost(ready):
    server = Server()
    fill(server, ready)
    server.serve([namespace("mine")])
    round_ = [registration("mine", job) for job in range(JOBS)]
    start = time.perf_counter()
    server.serve(round_ + round_)
    taken = time.perf_counter() - start
    server.end()
    return taken / (2 * JOBS)


def main():
    numbers = [int(it) for it in sys.argv[1:]] or [10, 10_000, 100_000]
    for ready in numbers:
        least = min(cost(ready) for _ in range(RUNS))
        print(f"{ready} ready: {least * 1e6:.0f} microseconds a registration")


if __name__ == "__main__":
    main()
