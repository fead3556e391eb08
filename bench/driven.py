"""Times how a driven worker places jobs, over one connection of `./nsd pipe --drive`.

    python3 bench/driven.py place              100 jobs of 1,000 allocations over 1,000 nodes
    python3 bench/driven.py preempt            8 jobs that fill 1,000 nodes, and 2 that take half of that
    python3 bench/driven.py beside             500 jobs of one allocation, beside 0 and 100,000 of another namespace of its quota
    python3 bench/driven.py blocked            500 jobs of one allocation, placed and then stopped, beside 0 and 10,000 blocked ones
    python3 bench/driven.py waking             500 jobs, each of which waits for the stop of the one before, beside 0 and 10,000
    python3 bench/driven.py place 10           another number of jobs
    python3 bench/driven.py place 10 --show    prints the requests, and runs nothing

The nodes are registered first, which is not timed. Then the jobs are sent, and one request after them, whose reply comes once
the last job was driven. The placed allocations are counted from what the nodes use and from the allocations that were evicted.
If they are not what the input asks for, the exit status is 1.
"""

import json
import os
import subprocess
import sys
import threading
import time

NODES = 1_000
COUNT = 1_000
MHZ = 100
DISK = 300
COMMAND = ["./nsd", "pipe", "--bootstrap", "root", "--drive"]


def request(method, path, document=None):
    body = "" if document is None else json.dumps(document, separators=(",", ":"))
    head = f"{method} {path} HTTP/1.1\r\nX-Nomad-Token: root\r\nContent-Length: {len(body)}\r\n\r\n"
    return (head + body).encode("ascii")


def room(places):
    """What a node offers that has room for this many allocations of one size, whose groups give no disk."""
    return {"CPU": places * MHZ, "MemoryMB": places * MHZ, "DiskMB": places * DISK}


def nodes(places, pool="default"):
    """The requests that register the nodes. Each has room for this many allocations of one size, and for at least one."""
    offer = room(max(places, 1))
    return [request("PUT", f"/v1/node/pool/{pool}/node/n{node}", offer) for node in range(NODES)]


def jobs(name, number, priority, sizes, namespace="default", count=COUNT):
    """The requests that register the jobs. Each has `count` allocations, which each take as much as `sizes` of one size."""
    task = {"Name": "t", "Resources": {"CPU": sizes * MHZ, "MemoryMB": sizes * MHZ}}
    group = {"Name": "g", "Count": count, "Tasks": [task]}
    ids = (f"{name}-{job}" for job in range(number))
    documents = ({"Job": {"ID": id, "Priority": priority, "TaskGroups": [group]}} for id in ids)
    return [request("POST", f"/v1/jobs?namespace={namespace}", document) for document in documents]


class Server:
    def __init__(self, command=COMMAND):
        self.program = subprocess.Popen(command, stdin=subprocess.PIPE, stdout=subprocess.PIPE)

    def reply(self):
        status = self.program.stdout.readline()
        if not status.startswith(b"HTTP/1.1 200 "):
            sys.exit(f"a request was not served: {status}")
        length = 0
        while (line := self.program.stdout.readline()) not in (b"\r\n", b""):
            if line.startswith(b"Content-Length: "):
                length = int(line.split()[1])
        return self.program.stdout.read(length)

    def write(self, requests):
        self.program.stdin.write(b"".join(requests))
        self.program.stdin.flush()

    def ask(self, requests):
        """Sends the requests at once while it takes the replies, and returns the last reply."""
        writer = threading.Thread(target=self.write, args=(requests,))
        writer.start()
        replies = [self.reply() for _ in requests]
        writer.join()
        return json.loads(replies[-1])

    def used(self, pool="default"):
        listed = self.ask([request("GET", f"/v1/node/pool/{pool}/nodes")])
        return sum(node["Used"]["CPU"] for node in listed)

    def timed(self, requests):
        """The seconds until all requests were driven and the list of quotas, a short one, was read after them."""
        start = time.perf_counter()
        self.ask(requests + [request("GET", "/v1/quotas")])
        return time.perf_counter() - start

    def count(self, name, number, desired):
        """How many allocations of these jobs have this desired status."""
        paths = (f"/v1/job/{name}-{job}/allocations" for job in range(number))
        rows = (row for path in paths for row in self.ask([request("GET", path)]))
        return sum(row["DesiredStatus"] == desired for row in rows)

    def end(self):
        self.program.stdin.close()
        self.program.wait()


def told(what, number, seconds):
    print(f"{number} {what} in {seconds:.3f} s, {number / seconds:.0f} a second", flush=True)


def places_in(number):
    """How many allocations each node has room for, so that the jobs fill all nodes."""
    return -(-number * COUNT // NODES)


def place(server, number):
    server.ask(nodes(places_in(number)))
    seconds = server.timed(jobs("job", number, 20, 1))
    placed = server.used() // MHZ
    told("placements", placed, seconds)
    return placed == number * COUNT


def preempt(server, number):
    filled = place(server, number)
    greater = number // 4
    seconds = server.timed(jobs("high", greater, 60, 2))
    placed = server.count("high", greater, "run")
    evicted = server.count("job", number, "evict")
    told("placements where others give way", placed, seconds)
    told("evictions", evicted, seconds)
    return filled and placed == greater * COUNT and evicted == 2 * placed


def tenants():
    """Two namespaces that name one quota, `own` and `other`. Each has a pool of its own."""
    limits = [{"Region": "global", "RegionLimit": {"CPU": 2**40, "MemoryMB": 2**40, "DiskMB": 2**40}}]
    requests = [request("PUT", "/v1/quota", {"Name": "both", "Limits": limits})]
    for name in ("own", "other"):
        configuration = {"Default": name, "Allowed": [name]}
        namespace = {"Name": name, "Quota": "both", "NodePoolConfiguration": configuration}
        requests += [request("PUT", "/v1/node/pools", {"Name": name}), request("PUT", "/v1/namespace", namespace)]
    return requests


def beside(server, number):
    """Times jobs of one namespace, on one node, beside `number` thousand allocations of the other. Returns whether all were
    placed."""
    few = 500
    server.ask(tenants())
    server.ask(nodes(places_in(number), "other"))
    server.ask([request("PUT", "/v1/node/pool/own/node/n", room(few))])
    if number > 0:
        server.ask(jobs("job", number, 20, 1, "other"))
    others = number * COUNT
    seconds = server.timed(jobs("one", few, 20, 1, "own", 1))
    told(f"jobs beside {others} allocations of another namespace", few, seconds)
    return server.used("own") == few * MHZ and server.used("other") == others * MHZ


def block_others(server, number):
    """Blocks `number` thousand evaluations of other namespaces, in another pool than `own`."""
    for other in range(number):
        configuration = {"Default": "other", "Allowed": ["other"]}
        namespace = {"Name": f"wait-{other}", "NodePoolConfiguration": configuration}
        server.ask([request("PUT", "/v1/namespace", namespace)])
        server.ask(jobs("wait", 1_000, 20, 1, f"wait-{other}", 1))


def still_blocked(server, number):
    lists = (server.ask([request("GET", f"/v1/evaluations?namespace=wait-{other}")]) for other in range(number))
    return sum(row["Status"] == "blocked" for rows in lists for row in rows) == number * 1_000


def stop(job):
    return request("DELETE", f"/v1/job/one-{job}?namespace=own")


def blocked(server, number):
    """Times jobs of one namespace, on one node, beside `number` thousand blocked evaluations of others, which wait in another
    pool. Each stop makes room in the pool of the first. Returns whether all were placed and stopped, and the others stayed
    blocked."""
    few = 500
    server.ask(tenants())
    server.ask([request("PUT", "/v1/node/pool/own/node/n", room(few))])
    block_others(server, number)
    seconds = server.timed(jobs("one", few, 20, 1, "own", 1))
    placed = server.used("own") == few * MHZ
    told(f"jobs beside {number * 1_000} blocked ones", few, seconds)
    stops = [stop(job) for job in range(few)]
    told(f"stops beside {number * 1_000} blocked ones", few, server.timed(stops))
    return placed and server.used("own") == 0 and still_blocked(server, number)


def waking(server, number):
    """Times jobs of one namespace, on a node with room for one. Each but the first is blocked until the one before is stopped,
    which wakes it, beside `number` thousand blocked evaluations of others. Returns whether the last is placed and the others
    are blocked."""
    few = 500
    server.ask(tenants())
    server.ask([request("PUT", "/v1/node/pool/own/node/n", room(1))])
    block_others(server, number)
    first, *others = jobs("one", few, 20, 1, "own", 1)
    server.ask([first])
    pairs = [step for job, other in enumerate(others) for step in (other, stop(job))]
    told(f"jobs blocked and woken beside {number * 1_000} blocked ones", few - 1, server.timed(pairs))
    last = server.ask([request("GET", f"/v1/job/one-{few - 1}/allocations?namespace=own")])
    return server.used("own") == MHZ and len(last) == 1 and still_blocked(server, number)


def inputs(kind, number):
    filling = nodes(places_in(number)) + jobs("job", number, 20, 1)
    return filling if kind == "place" else filling + jobs("high", number // 4, 60, 2)


KINDS = {"place": place, "preempt": preempt, "beside": beside, "blocked": blocked, "waking": waking}


def main():
    words = [word for word in sys.argv[1:] if word != "--show"]
    kind = words[0]
    usual = {"place": [100], "preempt": [8], "beside": [0, 100], "blocked": [0, 10], "waking": [0, 10]}
    numbers = [int(word) for word in words[1:]] or usual[kind]
    if "--show" in sys.argv:
        sys.stdout.buffer.write(b"".join(inputs(kind, numbers[0])))
        return 0
    if not os.path.exists("nsd"):
        print("there is no ./nsd here: build the program first", file=sys.stderr)
        return 2
    are_right = True
    for number in numbers:
        server = Server()
        are_right &= KINDS[kind](server, number)
        server.end()
    if not are_right:
        print("that is not what the input asks for", file=sys.stderr)
    return 0 if are_right else 1


if __name__ == "__main__":
    sys.exit(main())
