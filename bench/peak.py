"""Prints how much memory one client can make `nsd` take, and how much of it stays.

    python3 bench/peak.py                      all three
    python3 bench/peak.py request              the peak of one request, for each shape of its document
    python3 bench/peak.py kept                 what a refused request leaves in the log of `nsd serve`
    python3 bench/peak.py log                  what printing the log takes at the end of `nsd pipe --print log`
    python3 bench/peak.py request --most 8     ends with status 1 if a request takes more than 8 times its bytes
    python3 bench/peak.py --program PATH       another program than crates/nsd/out/nsd

A request of 1 MiB, in a member that is ignored, goes to a new `nsd pipe` that has answered a small one before. Its peak is the
greatest resident size (VmHWM) less the resident size before it. For what is kept, requests without a token go over one
connection to `nsd serve` without `--rotate`; after as many to warm up, the resident size is read before and after them. If a
request is not answered as docs/API.md says, the exit status is 1. Figures are resident bytes and depend on the allocator. It
needs 2 GB at most.
"""

import argparse
import json
import os
import re
import socket
import subprocess
import sys
import threading

sys.dont_write_bytecode = True

from answers import Reply
from plays import TOP

SIZE = 1_048_576
JOB = b'"Job":{"ID":"web","TaskGroups":[{"Name":"g","Tasks":[{"Name":"t"}]}]}'
DEEP = 120
TOKENS = [("with a token", b"X-Nomad-Token: root\r\n"), ("without", b"")]


class Wrong(Exception):
    pass


def filled(piece):
    """A document of 1 MiB with a list of such pieces in an ignored member."""
    front, end = b'{"x":[', b'1],' + JOB + b"}"
    return front + piece * ((SIZE - len(front) - len(end)) // len(piece)) + end


def long_text(piece):
    front, end = b'{"x":"', b'",' + JOB + b"}"
    return front + piece * ((SIZE - len(front) - len(end)) // len(piece)) + end


def many_members():
    front, end = b"{", JOB + b"}"
    members = b"".join(b'"%05x":1,' % number for number in range((SIZE - len(front) - len(end)) // 10))
    return front + members + end


SHAPES = [
    ("spaces behind the document", lambda: (b"{" + JOB + b"}").ljust(SIZE)),
    ("one text", lambda: long_text(b"a")),
    ("one text of escapes", lambda: long_text(b"\\u0041")),
    ("numbers", lambda: filled(b"1,")),
    ("numbers with exponents", lambda: filled(b"1e9,")),
    ("texts of one byte", lambda: filled(b'"a",')),
    ("texts of one escape", lambda: filled(b'"\\n",')),
    ("empty lists", lambda: filled(b"[],")),
    ("lists of one", lambda: filled(b"[1],")),
    ("lists 120 deep", lambda: filled(b"[" * DEEP + b"]" * DEEP + b",")),
    ("empty objects", lambda: filled(b"{},")),
    ("objects of one", lambda: filled(b'{"a":1},')),
    ("objects 120 deep", lambda: filled(b'{"a":' * DEEP + b"1" + b"}" * DEEP + b",")),
    ("objects 120 deep, of empty names", lambda: filled(b'{"":' * DEEP + b"1" + b"}" * DEEP + b",")),
    ("an object of many members", many_members),
]


def request(method, target, token, body=b""):
    return method + b" " + target + b" HTTP/1.1\r\n" + token + b"Content-Length: %d\r\n\r\n" % len(body) + body


def memory(number, name):
    """This figure of the memory of the process, in bytes."""
    with open(f"/proc/{number}/status", encoding="ascii") as file:
        return int(re.search(name + r":\s+(\d+) kB", file.read())[1]) * 1024


class Pipe:
    def __init__(self, program, *words):
        command = [program, "pipe", "--bootstrap", "root", *words]
        self.process = subprocess.Popen(command, stdin=subprocess.PIPE, stdout=subprocess.PIPE)

    def ask(self, data):
        """Sends the data, and returns the status of the reply."""
        writer = threading.Thread(target=self.write, args=(data,))
        writer.start()
        taken = b""
        while True:
            more = self.process.stdout.read1(1 << 16)
            if not more:
                raise Wrong("the program ended")
            taken += more
            try:
                reply = Reply(taken, 0)
            except ValueError:
                continue
            writer.join()
            return reply.status

    def write(self, data):
        self.process.stdin.write(data)
        self.process.stdin.flush()

    def end(self):
        self.process.stdin.close()
        self.process.stdout.read()
        self.process.wait()


def peak(program, method, target, token, body, status):
    pipe = Pipe(program)
    pipe.ask(request(b"GET", b"/v1/jobs", token))
    before = memory(pipe.process.pid, "VmRSS")
    told = pipe.ask(request(method, target, token, body))
    most, after = memory(pipe.process.pid, "VmHWM"), memory(pipe.process.pid, "VmRSS")
    pipe.end()
    if told != status:
        raise Wrong(f"answered {told} and not {status}")
    return most - before, after - before


def megabytes(number):
    return f"{number / 1_000_000:.1f} MB"


def tell(what, length, took, stays):
    print(f"{what}: {length} bytes take {megabytes(took)}, {took / length:.1f} times; {megabytes(stays)} stay resident", flush=True)


def requests(program, most):
    greatest = 0
    for name, shape in SHAPES:
        body = shape()
        for which, token in TOKENS:
            took, stays = peak(program, b"POST", b"/v1/jobs", token, body, 200 if token else 403)
            greatest = max(greatest, took / len(body))
            tell(f"{name}, {which}", len(body), took, stays)
    rules = '{"x":[' + "[]," * 21_840 + "[]]}"
    body = json.dumps({"Rules": rules}).encode()
    for which, token in TOKENS:
        took, stays = peak(program, b"PUT", b"/v1/acl/policy/p", token, body, 200 if token else 403)
        tell(f"rules as JSON, of empty lists, {which}", len(body), took, stays)
    eight_at_once(program)
    if most is not None and greatest > most:
        raise Wrong(f"a request takes {greatest:.1f} times its bytes")


# ---- a server


class Server:
    def __init__(self, program, *words):
        command = [program, "serve", "--listen", "127.0.0.1:0", "--bootstrap", "root", *words]
        self.process = subprocess.Popen(command, stdout=subprocess.DEVNULL, stderr=subprocess.PIPE)
        found = re.fullmatch(rb"listening 127\.0\.0\.1:([0-9]+)\n", self.process.stderr.readline())
        self.port = int(found[1])

    def __enter__(self):
        return self

    def __exit__(self, *_):
        self.process.kill()
        self.process.wait()

    def memory(self, name):
        return memory(self.process.pid, name)

    def opened(self):
        return socket.create_connection(("127.0.0.1", self.port), timeout=120)


def taken_replies(connection, number, status):
    """Takes this many replies, all of which have to have this status."""
    data, at = b"", 0
    while number > 0:
        try:
            reply = Reply(data, at)
        except ValueError:
            taken = connection.recv(1 << 16)
            if not taken:
                raise Wrong("the server closed the connection") from None
            data, at = data[at:] + taken, 0
            continue
        at, number = reply.end, number - 1
        if reply.status != status:
            raise Wrong(f"answered {reply.status} {reply.body[:100]}, and not {status}")


def all_sent(connection, one, number, status, at_once):
    for first in range(0, number, at_once):
        count = min(at_once, number - first)
        writer = threading.Thread(target=connection.sendall, args=(one * count,))
        writer.start()
        taken_replies(connection, count, status)
        writer.join()


def eight_at_once(program):
    """Prints what eight connections take that have sent all but one byte and then send it."""
    body = dict(SHAPES)["objects 120 deep"]()
    whole = request(b"POST", b"/v1/jobs", b"", body)
    with Server(program, "--connections", "8") as server:
        connections = [server.opened() for _ in range(8)]
        before = server.memory("VmRSS")
        for connection in connections:
            connection.sendall(whole[:-1])
        for connection in connections:
            connection.sendall(whole[-1:])
        for connection in connections:
            taken_replies(connection, 1, 403)
        took, stays = server.memory("VmHWM") - before, server.memory("VmRSS") - before
        tell("eight at once, of objects 120 deep, without", 8 * len(body), took, stays)


def job_of_256_tasks():
    tasks = [{"Name": f"{task:x}"} for task in range(16)]
    groups = [{"Name": f"{group:x}", "Tasks": tasks} for group in range(16)]
    return json.dumps({"Job": {"ID": "web", "TaskGroups": groups}}, separators=(",", ":")).encode()


def policy_of_the_shortest_rules():
    return json.dumps({"Rules": 'namespace"*"{}' * 4_681}).encode()


def policy_of_61_kb():
    rule = 'namespace "a*" { policy = "read" }\n'
    return json.dumps({"Rules": rule * (61_000 // len(rule))}).encode()


ROTATE = "100"
REFUSED = [
    ("GET /v1/jobs", b"GET", b"/v1/jobs", lambda: b"", 100_000, 1_000),
    ("a registration of one task", b"POST", b"/v1/jobs", lambda: b"{" + JOB + b"}", 50_000, 500),
    ("a registration of 256 tasks", b"POST", b"/v1/jobs", job_of_256_tasks, 2_000, 50),
    ("a policy of 61 KB", b"PUT", b"/v1/acl/policy/p", policy_of_61_kb, 200, 10),
    ("a policy of 64 KB of the shortest rules", b"PUT", b"/v1/acl/policy/p", policy_of_the_shortest_rules, 200, 10),
]


def left(program, one, number, at_once, words):
    """The bytes that each request leaves resident. As many requests are sent before to warm up."""
    with Server(program, "--connections", "1", *words) as server, server.opened() as connection:
        all_sent(connection, one, number, 403, at_once)
        before = server.memory("VmRSS")
        all_sent(connection, one, number, 403, at_once)
        return (server.memory("VmRSS") - before) / number


def kept(program):
    for name, method, target, body, number, at_once in REFUSED:
        one = request(method, target, b"", body())
        stays = left(program, one, number, at_once, [])
        rotated = left(program, one, number, at_once, ["--rotate", ROTATE])
        times = f"{stays / len(one):.1f} times"
        print(f"{name}, without a token: {len(one)} bytes leave {stays:.0f}, {times}; with --rotate {ROTATE} {rotated:.0f}", flush=True)


# ---- the log's text


def log(program):
    """Prints what the log takes after requests without a token. The resident size is read before the input ends, and the peak
    after the program has ended."""
    one = request(b"GET", b"/v1/jobs", b"")
    for number in (50_000, 100_000, 200_000):
        command = [program, "pipe", "--bootstrap", "root", "--print", "log"]
        process = subprocess.Popen(command, stdin=subprocess.PIPE, stdout=subprocess.PIPE)
        process.stdin.write(one * number)
        process.stdin.flush()
        before = settled_size(process.pid)
        process.stdin.close()
        length = sum(len(part) for part in iter(lambda: process.stdout.read(1 << 20), b""))
        _, status, usage = os.wait4(process.pid, 0)
        if status != 0:
            raise Wrong(f"the program ends with status {status}")
        took = usage.ru_maxrss * 1024 - before
        sizes = f"{length} bytes of text take {megabytes(took)} beside {megabytes(before)}, {took / length:.2f} times"
        print(f"a log of {number} refused requests: {sizes}", flush=True)


def settled_size(number):
    """The resident size once the program waits for input."""
    last = -1
    while (size := memory(number, "VmRSS")) != last or not is_waiting(number):
        last = size
        threading.Event().wait(0.3)
    return size


def is_waiting(number):
    with open(f"/proc/{number}/stat", encoding="ascii") as file:
        return file.read().rsplit(")", 1)[1].split()[0] == "S"


def main():
    parser = argparse.ArgumentParser()
    parser.add_argument("parts", nargs="*", metavar="PART", help="request, kept or log: all three where none is given")
    parser.add_argument("--most", type=float)
    parser.add_argument("--program", default=os.path.join(TOP, "crates", "nsd", "out", "nsd"))
    words = parser.parse_args()
    if unknown := set(words.parts) - {"request", "kept", "log"}:
        parser.error(f"no such part: {', '.join(sorted(unknown))}")
    try:
        for part in words.parts or ["request", "kept", "log"]:
            if part == "request":
                requests(words.program, words.most)
            else:
                {"kept": kept, "log": log}[part](words.program)
    except Wrong as wrong:
        print(wrong)
        return 1
    return 0


if __name__ == "__main__":
    sys.exit(main())
