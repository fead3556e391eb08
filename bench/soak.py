"""Runs `nsd serve` with 64 connection threads and 63 workers under clients that break off, and checks its log at the end.

    python3 bench/soak.py                            60 seconds, seed 1
    python3 bench/soak.py --seed 7 --seconds 600     another seed, and this many seconds
    python3 bench/soak.py --program PATH             another program than crates/nsd/out/nsd

48 clients open one connection after the other, over 127.0.0.1. They register jobs of three tenants, stop and purge them,
register nodes, mark them down or ineligible, remove them, report, raise quotas, and make policies and tokens. Some reset the
connection inside a request or a reply, some send half a request and wait, some send nothing, and some never read. Each request
has to get one reply of the form that docs/API.md gives, with a status and a text of its table. When the time is over,
connections that send nothing are opened until the server has accepted as many as `--accept` says. Then it has to end with
status 0 and `settled K`, its log has to have K entries, and `nsd alone` has to say `same` of each tenant. The last line has the
counts and `ok`; else the exit status is 1.
"""

import argparse
import json
import os
import random
import re
import socket
import struct
import subprocess
import sys
import tempfile
import threading
import time
from collections import Counter

sys.dont_write_bytecode = True

from answers import PHRASES, Reply
from plays import TOP

CLIENTS = 48
PACE = 0.05
FEW = {"never reads": 40, "reset in a reply": 200}
TEXTS = re.compile(
    rb"bad request|length required|too large|not found|not served|method not allowed|bad json|bad field: [A-Za-z]+|Permission denied"
    rb"|node pool not permitted|conflict|in use|full|log full"
)
TENANTS = {"ta": ["--pool", "pa", "--quota", "qa"], "tb": ["--pool", "pb", "--quota", "qb"], "tc": ["--pool", "pc"]}


def request(method, target, document=None, token="root"):
    body = "" if document is None else json.dumps(document)
    return f"{method} {target} HTTP/1.1\r\nX-Nomad-Token: {token}\r\nContent-Length: {len(body)}\r\n\r\n{body}".encode()


def namespace(name, pool, quota=""):
    return request("PUT", f"/v1/namespace/{name}", {"Quota": quota, "NodePoolConfiguration": {"Default": pool, "Allowed": [pool]}})


def quota(name, cpu):
    return request("PUT", f"/v1/quota/{name}", {"Limits": [{"RegionLimit": {"CPU": cpu, "MemoryMB": 0}}]})


SETUP = [
    request("PUT", "/v1/namespace/default", {"NodePoolConfiguration": {"Allowed": ["default"]}}),
    *(request("PUT", f"/v1/node/pool/{pool}", {}) for pool in ("pa", "pb", "pc")),
    quota("qa", 4_000), quota("qb", 4_000),
    namespace("ta", "pa", "qa"), namespace("tb", "pb", "qb"), namespace("tc", "pc"),
]


# ---- requests


def ident(kind, number):
    return f"00000000-0000-{kind:04x}-0000-{number:012x}"


def job(rng):
    tasks = [{"Name": "t", "Resources": {"CPU": rng.choice((50, 100, 400)), "MemoryMB": rng.choice((10, 100))}}]
    group = {"Name": "g", "Count": rng.randrange(5), "EphemeralDisk": {"SizeMB": 10}, "Tasks": tasks}
    kind = rng.choice(("service", "service", "batch"))
    return {"Job": {"ID": f"j{rng.randrange(25)}", "Type": kind, "Priority": rng.choice((10, 50, 50, 90)), "TaskGroups": [group]}}


def in_a_namespace(rng, name):
    kind = rng.randrange(12)
    id = f"j{rng.randrange(25)}"
    if kind < 4:
        return request("POST", f"/v1/jobs?namespace={name}", job(rng))
    if kind < 6:
        return request("DELETE", f"/v1/job/{id}?namespace={name}" + rng.choice(("", "&purge=true")))
    if kind == 6:
        return request("PUT", f"/v1/allocation/{ident(2, rng.randrange(1, 400))}/stop?namespace={name}")
    if kind == 7:
        return request("GET", f"/v1/evaluation/{ident(1, rng.randrange(1, 400))}?namespace={name}")
    target = rng.choice((f"/v1/job/{id}", "/v1/jobs", "/v1/quota/usage/qa", "/v1/namespace/" + name))
    return request("GET", f"{target}?namespace={name}&prefix=j1", token=rng.choice(("root", "root", "root", "other")))


def of_a_node(rng, name):
    pool = "p" + name[1]
    node = f"/v1/node/pool/{pool}/node/n{rng.randrange(6)}"
    kind = rng.randrange(8)
    if kind < 3:
        return request("PUT", node, {"CPU": rng.choice((1_000, 2_000, 4_000)), "MemoryMB": 4_000, "DiskMB": 1_000,
            "NodeClass": rng.choice(("a", "b"))})
    if kind < 5:
        return request("PUT", node + "/status", {"Status": rng.choice(("ready", "ready", "down"))})
    if kind == 5:
        return request("PUT", node + "/eligibility", {"Eligibility": rng.choice(("eligible", "eligible", "ineligible"))})
    if kind == 6:
        return request("DELETE", node)
    report = {"Namespace": name, "ID": ident(2, rng.randrange(1, 400)), "ClientStatus": rng.choice(("running", "complete", "failed"))}
    return request("PUT", node + "/report", report)


def of_an_administrator(rng, name):
    kind = rng.randrange(6)
    if kind < 2:
        return quota("q" + rng.choice("ab"), rng.choice((500, 2_000, 8_000)))
    if kind == 2:
        return namespace("extra", "default")
    if kind == 3:
        return request("PUT", "/v1/acl/policy/p", {"Rules": f'namespace "{name}" {{ policy = "read" }}'})
    if kind == 4:
        return request("POST", "/v1/acl/token", {"Policies": ["p"]})
    return request("POST", "/v1/jobs", {"Job": 7})


def one(rng):
    name = rng.choice(sorted(TENANTS))
    kind = rng.randrange(10)
    make = in_a_namespace if kind < 6 else of_a_node if kind < 9 else of_an_administrator
    return make(rng, name)


# ---- how a client behaves


class Wrong(Exception):
    pass


class Client:
    def __init__(self, port, rng, counts):
        self.port, self.rng, self.counts = port, rng, counts

    def opened(self, room=None):
        connection = socket.socket()
        connection.settimeout(180)
        if room:
            connection.setsockopt(socket.SOL_SOCKET, socket.SO_RCVBUF, room)
        connection.connect(("127.0.0.1", self.port))
        return connection

    def reset(self, connection):
        connection.setsockopt(socket.SOL_SOCKET, socket.SO_LINGER, struct.pack("ii", 1, 0))
        connection.close()

    def read(self, connection, number):
        """Reads this many replies, with nothing after them."""
        data, at = b"", 0
        while number > 0:
            try:
                reply = Reply(data, at)
            except ValueError:
                taken = connection.recv(1 << 16)
                if not taken:
                    raise Wrong(f"the connection was closed before {number} replies: {data[at:][:200]}") from None
                data += taken
                continue
            at, number = reply.end, number - 1
            self.counts[reply.status] += 1
            is_text = reply.status == 200 or TEXTS.fullmatch(reply.body)
            if reply.phrase != PHRASES.get(reply.status) or not is_text:
                raise Wrong(f"a reply that is not in the table: {reply.status} {reply.body[:200]}")
        if data[at:]:
            raise Wrong(f"more than the replies: {data[at:][:200]}")

    def talks(self):
        with self.opened() as connection:
            for _ in range(self.rng.randrange(1, 30)):
                some = [one(self.rng) for _ in range(self.rng.choice((1, 1, 1, 5)))]
                connection.sendall(b"".join(some))
                self.read(connection, len(some))
                time.sleep(PACE)

    def reset_in_a_request(self):
        connection = self.opened()
        whole = one(self.rng)
        connection.sendall(one(self.rng) + whole[: self.rng.randrange(len(whole))])
        self.reset(connection)

    def halves(self):
        with self.opened() as connection:
            whole = one(self.rng)
            at = self.rng.randrange(1, len(whole))
            connection.sendall(whole[:at])
            time.sleep(0.1)
            connection.sendall(whole[at:])
            self.read(connection, 1)

    def says_nothing(self):
        with self.opened():
            time.sleep(0.2)

    def reset_in_a_reply(self):
        connection = self.opened(65_536)
        connection.sendall(request("GET", f"/v1/event/stream?namespace={self.rng.choice(sorted(TENANTS))}") * 20)
        connection.recv(self.rng.randrange(1, 5_000))
        self.reset(connection)

    def never_reads(self):
        connection = self.opened(65_536)
        connection.sendall(request("GET", f"/v1/event/stream?namespace={self.rng.choice(sorted(TENANTS))}") * 200)
        time.sleep(1)
        self.reset(connection)

    def ends_inside(self):
        with self.opened() as connection:
            whole = one(self.rng)
            connection.sendall(whole[: self.rng.randrange(1, len(whole))])
            connection.shutdown(socket.SHUT_WR)
            if data := connection.recv(1 << 16):
                raise Wrong(f"an answer to a request that was not whole: {data[:200]}")


KINDS = [("talks", 20), ("reset in a request", 3), ("halves", 2), ("says nothing", 1), ("reset in a reply", 2), ("never reads", 1),
    ("ends inside", 2)]


class Soak:
    def __init__(self, port, seed, seconds, most):
        self.port, self.seed, self.most = port, seed, most
        self.end = time.monotonic() + seconds
        self.lock, self.kinds, self.statuses, self.wrong = threading.Lock(), Counter(), Counter(), []

    def taken(self, rng):
        """The kind of the next connection. None: the run is over."""
        kind = rng.choices(*zip(*KINDS))[0]
        with self.lock:
            if time.monotonic() > self.end or self.wrong or sum(self.kinds.values()) >= self.most:
                return None
            if self.kinds[kind] >= FEW.get(kind, self.most):
                kind = "talks"
            self.kinds[kind] += 1
        return kind

    def client(self, number):
        rng, counts = random.Random(f"{self.seed} {number}"), Counter()
        client = Client(self.port, rng, counts)
        while kind := self.taken(rng):
            try:
                getattr(client, kind.replace(" ", "_"))()
            except (Wrong, OSError) as fault:
                self.wrong.append(f"client {number}, {kind}: {fault!r}")
        with self.lock:
            self.statuses += counts

    def run(self):
        threads = [threading.Thread(target=self.client, args=(number,)) for number in range(CLIENTS)]
        for thread in threads:
            thread.start()
        for thread in threads:
            thread.join()


def set_up(port):
    client = Client(port, None, Counter())
    with client.opened() as connection:
        connection.sendall(b"".join(SETUP))
        client.read(connection, len(SETUP))
    if client.counts != {200: len(SETUP)}:
        raise Wrong(f"the tenants are not laid out: {client.counts}")


def used_up(program, port, most):
    """Opens connections that send nothing until the server accepts no more."""
    for _ in range(2 * most):
        if program.poll() is not None:
            return
        try:
            socket.create_connection(("127.0.0.1", port), timeout=5).close()
        except OSError:
            return


def served(words, folder, most):
    """Starts the server, and returns it with its port and the path of its log."""
    path = os.path.join(folder, "log")
    limits = ["--workers", "63", "--connections", "64", "--accept", str(most)]
    with open(path, "wb") as log:
        command = [words.program, "serve", "--listen", "127.0.0.1:0", "--bootstrap", "root", *limits]
        program = subprocess.Popen(command, stdout=log, stderr=subprocess.PIPE)
    found = re.match(rb"listening 127\.0\.0\.1:(\d+)\n", program.stderr.readline())
    if not found:
        raise Wrong("the server does not listen")
    return program, int(found[1]), path


def settled(program, path):
    """The number of entries that the server says have settled, which has to be the number that its log has."""
    try:
        _, errors = program.communicate(timeout=600)
    except subprocess.TimeoutExpired:
        raise Wrong("the server does not end") from None
    found = re.fullmatch(rb"settled ([0-9]+)\n", errors)
    if program.returncode != 0 or not found:
        raise Wrong(f"the server ends with status {program.returncode}: {errors[-300:]}")
    with open(path, "rb") as log:
        lines = sum(1 for _ in log)
    if lines != int(found[1]) + 1:
        raise Wrong(f"settled {int(found[1])}, and the log has {lines - 1} entries")
    return int(found[1])


def replayed(words, path):
    for name, lists in TENANTS.items():
        command = [words.program, "alone", name, "--from", str(len(SETUP)), *lists]
        with open(path, "rb") as log:
            done = subprocess.run(command, stdin=log, capture_output=True, timeout=1_200, check=False)
        last = done.stdout.rsplit(b"\n", 2)[-2]
        if done.returncode != 0 or last != b"same":
            raise Wrong(f"nsd alone {name}: status {done.returncode}, {last[:200]}")
        print(f"{name}: {done.stdout.count(bytes([10])) - 1} lines, and same", flush=True)


def soaked(words, folder):
    most = 400 * words.seconds + 200
    program, port, path = served(words, folder, most)
    try:
        set_up(port)
        soak = Soak(port, words.seed, words.seconds, most - 100)
        soak.run()
        if soak.wrong:
            raise Wrong("; ".join(soak.wrong[:3]))
        used_up(program, port, most)
        entries = settled(program, path)
    finally:
        if program.poll() is None:
            program.kill()
            program.wait()
    kinds = ", ".join(f"{number} that {kind}" for kind, number in sorted(soak.kinds.items()))
    statuses = ", ".join(f"{number} of {status}" for status, number in sorted(soak.statuses.items()))
    print(f"{most} connections, among them {kinds}; replies read: {statuses}; settled {entries}", flush=True)
    replayed(words, path)
    return entries


def main():
    parser = argparse.ArgumentParser()
    parser.add_argument("--seed", type=int, default=1)
    parser.add_argument("--seconds", type=int, default=60)
    parser.add_argument("--program", default=os.path.join(TOP, "crates", "nsd", "out", "nsd"))
    words = parser.parse_args()
    try:
        with tempfile.TemporaryDirectory() as folder:
            entries = soaked(words, folder)
    except Wrong as wrong:
        print(f"seed {words.seed}: {wrong}")
        return 1
    print(f"seed {words.seed}: {words.seconds} s, {entries} entries: ok")
    return 0


if __name__ == "__main__":
    sys.exit(main())
