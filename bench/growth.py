"""Prints what a step costs one namespace beside few and many rows of others, over one connection of `./nsd pipe --drive`.

    python3 bench/growth.py                 all of the following
    python3 bench/growth.py allocations     a job of one allocation is registered and placed, beside 0 to 1,000,000 of another's
    python3 bench/growth.py nodes           the same with 1,000 nodes in its own pool, beside 0 and 10,000 in others
    python3 bench/growth.py namespaces      a job is registered, placed and read in the first and the last of 10,000 namespaces
    python3 bench/growth.py crowd           the same under a quota, and stopped, beside 0 and 9,000 namespaces, each with a blocked job
    python3 bench/growth.py history         a job is registered for the 10th and for the 16,000th time, with --drive and without
    python3 bench/growth.py totals          reads of what a quota has in use and of a node's load, of one allocation and of 9,001
    python3 bench/growth.py names           9,999 namespaces are put in the order of their names, and against it
    python3 bench/growth.py small           10,000 jobs of one allocation in 10 namespaces
    python3 bench/growth.py memory          what an allocation keeps resident, between 100,000 and 1,000,000 of them
    python3 bench/growth.py reads           300,000 pipelined reads of one job

The others share no pool and no quota with it. Of three rounds of 300 jobs each the least time counts. The placed allocations
are counted from what the nodes use. If they are not what the input asks for, the exit status is 1.
"""

import os
import subprocess
import sys
import tempfile
import time

from driven import COMMAND, COUNT, MHZ, Server, jobs, nodes, places_in, request, room, told

FEW = 300
ROUNDS = 3
NAMESPACES = 10_000
CROWD = 9_000
READS = 300_000
EARLY = 10
LATE = 16_000


def tenant(name, pool=None):
    """The requests that put a namespace and the one pool that it may use: a new pool of its own, or `pool`, which exists."""
    configuration = {"Default": pool or name, "Allowed": [pool or name]}
    namespace = request("PUT", "/v1/namespace", {"Name": name, "NodePoolConfiguration": configuration})
    return [namespace] if pool else [request("PUT", "/v1/node/pools", {"Name": name}), namespace]


def one_node(pool, places):
    return [request("PUT", f"/v1/node/pool/{pool}/node/n", room(places))]


def least(server, what, namespace, requests_of):
    """The least time of a round, divided by its requests, in seconds."""
    times = []
    for turn in range(ROUNDS):
        requests = requests_of(turn, namespace)
        times.append(server.timed(requests) / len(requests))
    print(f"{what}: {min(times) * 1e6:.1f} microseconds", flush=True)
    return min(times)


def registrations(turn, namespace):
    return jobs(f"one{turn}", FEW, 20, 1, namespace, 1)


def registered(server, what, namespace="own"):
    return least(server, f"a job is registered and placed, {what}", namespace, registrations)


def allocations():
    is_right = True
    for thousands in (0, 10, 100, 1000):
        server = Server()
        server.ask(tenant("own") + tenant("other") + one_node("own", ROUNDS * FEW))
        if thousands > 0:
            server.ask(nodes(places_in(thousands), "other"))
            server.ask(jobs("job", thousands, 20, 1, "other"))
        registered(server, f"beside {thousands * COUNT} allocations in another pool")
        is_right &= server.used("own") == ROUNDS * FEW * MHZ and server.used("other") == thousands * COUNT * MHZ
        server.end()
    return is_right


def nodes_of_others():
    is_right = True
    for pools in (0, 10):
        server = Server()
        server.ask(tenant("own"))
        server.ask(nodes(1, "own"))
        for other in range(pools):
            server.ask(tenant(f"other-{other}"))
            server.ask(nodes(1, f"other-{other}"))
        registered(server, f"on 1000 nodes, beside {pools * 1000} in other pools")
        is_right &= server.used("own") == ROUNDS * FEW * MHZ
        server.end()
    return is_right


def namespaces():
    """Times as many namespaces as there may be. All but the first and the last use the pool `default`, as the namespace
    `default` does."""
    is_right = True
    server = Server()
    names = [f"n{number:04}" for number in range(NAMESPACES - 1)]
    ends = (names[0], names[-1])
    for name in names:
        server.ask(tenant(name) + one_node(name, ROUNDS * FEW) if name in ends else tenant(name, "default"))
    for name in ends:
        registered(server, f"in namespace {name} of {NAMESPACES}", name)
        is_right &= server.used(name) == ROUNDS * FEW * MHZ
    for name in ends:
        read = request("GET", f"/v1/job/one0-0?namespace={name}")
        least(server, f"a job is read, in namespace {name} of {NAMESPACES}", name, lambda *_: [read] * 10 * FEW)
    server.end()
    return is_right


def limited(name):
    """The requests that put a namespace with its own pool, and its own quota, which it never reaches."""
    limits = [{"Region": "global", "RegionLimit": {"CPU": 2**40, "MemoryMB": 2**40, "DiskMB": 2**40}}]
    configuration = {"Default": name, "Allowed": [name]}
    namespace = {"Name": name, "Quota": name, "NodePoolConfiguration": configuration}
    puts = (("quota", {"Name": name, "Limits": limits}), ("node/pools", {"Name": name}), ("namespace", namespace))
    return [request("PUT", f"/v1/{path}", document) for path, document in puts]


def stops(turn, namespace):
    return [request("DELETE", f"/v1/job/one{turn}-{job}?namespace={namespace}") for job in range(FEW)]


def crowd():
    """Times jobs beside other namespaces, each with a blocked evaluation in the pool `default`."""
    is_right = True
    for others in (0, CROWD):
        server = Server()
        server.ask(limited("own") + one_node("own", ROUNDS * FEW))
        for number in range(others):
            name = f"n{number:04}"
            server.ask(tenant(name, "default") + jobs("wait", 1, 20, 1, name, 1))
        registered(server, f"under a quota of its own, beside {others} namespaces that wait")
        is_right &= server.used("own") == ROUNDS * FEW * MHZ
        least(server, f"a job is stopped, beside {others} namespaces that wait", "own", stops)
        is_right &= server.used("own") == 0
        server.end()
    return is_right


def history():
    """Times registrations of the same document, each of which makes an evaluation. Early and late, the least time of rounds of
    30 counts."""
    is_right, some = True, 30
    registration = jobs("one", 1, 20, 1, "default", 1)
    for what, command in (("with --drive", COMMAND), ("without --drive", COMMAND[:-1])):
        early = []
        for _ in range(ROUNDS):
            server = Server(command)
            server.ask(one_node("default", 1) + registration * (EARLY - 1))
            early.append(server.timed(registration * some) / some)
            server.end()
        server = Server(command)
        server.ask(one_node("default", 1) + registration * (LATE - 1))
        late = [server.timed(registration * some) / some for _ in range(ROUNDS)]
        evaluations = server.ask([request("GET", "/v1/job/one-0/evaluations")])
        is_right &= len(evaluations) == LATE - 1 + ROUNDS * some
        server.end()
        for number, times in ((EARLY, early), (LATE, late)):
            print(f"registration {number} of one job, {what}: {min(times) * 1e6:.1f} microseconds", flush=True)
        print(f"the quotient {what} is {min(late) / min(early):.2f}", flush=True)
    return is_right


def sharing(name, quota):
    """The requests that put a namespace under this quota, and a job of it in the pool `default`."""
    configuration = {"Default": "default", "Allowed": ["default"]}
    namespace = {"Name": name, "Quota": quota, "NodePoolConfiguration": configuration}
    return [request("PUT", "/v1/namespace", namespace)] + jobs("one", 1, 20, 1, name, 1)


def totals():
    """Times reads of a quota and of a node. Each namespace under the quota has one allocation, and all of them are on one
    node."""
    is_right = True
    for others in (0, CROWD):
        server = Server()
        server.ask(limited("own") + one_node("default", CROWD + 1))
        for number in range(others):
            server.ask(sharing(f"n{number:04}", "own"))
        server.ask(sharing("last", "own"))
        use, node = "/v1/quota/usage/own?namespace=last", "/v1/node/pool/default/nodes"
        for what, path in (("what a quota has in use", use), ("what a node carries", node)):
            read = request("GET", path)
            least(server, f"{what} is read, of {others + 1} allocations", "last", lambda *_: [read] * 10 * FEW)
        is_right &= server.ask([request("GET", use)])["Used"]["CPU"] == (others + 1) * MHZ
        is_right &= server.used() == (others + 1) * MHZ
        server.end()
    return is_right


def names():
    """Times puts of namespaces. Rows are sorted by name: each new one comes last in the first case, and first in the second."""
    for order, step in (("in the order of their names", 1), ("against it", -1)):
        server = Server()
        puts = [tenant(f"n{number:04}", "default")[0] for number in range(NAMESPACES - 1)][::step]
        seconds = server.timed(puts)
        print(f"{len(puts)} namespaces are put {order}: {seconds / len(puts) * 1e6:.1f} microseconds each", flush=True)
        server.end()
    return True


def small():
    server, each, tenants = Server(), 1000, 10
    for number in range(tenants):
        server.ask(tenant(f"t{number}") + one_node(f"t{number}", each))
    seconds = server.timed([it for number in range(tenants) for it in jobs("one", each, 20, 1, f"t{number}", 1)])
    placed = sum(server.used(f"t{number}") for number in range(tenants)) // MHZ
    told("jobs of one allocation in 10 namespaces", placed, seconds)
    server.end()
    return placed == tenants * each


def resident(server):
    """The resident memory of the server, in bytes."""
    with open(f"/proc/{server.program.pid}/status", encoding="ascii") as status:
        line = next(it for it in status if it.startswith("VmRSS:"))
    return int(line.split()[1]) * 1024


def memory():
    server, taken, is_right = Server(), {}, True
    server.ask(nodes(places_in(1000)))
    server.ask(jobs("first", 100, 20, 1))
    taken[100] = resident(server)
    server.ask(jobs("job", 900, 20, 1))
    taken[1000] = resident(server)
    is_right = server.used() == 1000 * COUNT * MHZ
    server.end()
    for thousands, bytes_ in taken.items():
        print(f"{thousands * COUNT} live allocations: {bytes_ / 2**20:.0f} MiB resident", flush=True)
    print(f"{(taken[1000] - taken[100]) / (900 * COUNT):.0f} bytes an allocation", flush=True)
    return is_right


def reads():
    registration, read = jobs("web", 1, 50, 1, count=1), request("GET", "/v1/job/web-0")
    with tempfile.TemporaryDirectory() as folder:
        source, target = os.path.join(folder, "requests"), os.path.join(folder, "replies")
        with open(source, "wb") as file:
            file.writelines(registration + [read] * READS)
        with open(source, "rb") as given, open(target, "wb") as written:
            start = time.perf_counter()
            subprocess.run(["./nsd", "pipe", "--bootstrap", "root"], stdin=given, stdout=written, check=True)
            seconds = time.perf_counter() - start
        with open(target, "rb") as written:
            served = written.read().count(b"HTTP/1.1 200 OK\r\n") - 1
    told("pipelined reads of a job", served, seconds)
    return served == READS


KINDS = {
    "allocations": allocations,
    "nodes": nodes_of_others,
    "namespaces": namespaces,
    "crowd": crowd,
    "history": history,
    "totals": totals,
    "names": names,
    "small": small,
    "memory": memory,
    "reads": reads,
}


def main():
    kinds = sys.argv[1:] or list(KINDS)
    if not os.path.exists("nsd"):
        print("there is no ./nsd here: build the program first", file=sys.stderr)
        return 2
    results = [KINDS[kind]() for kind in kinds]
    if not all(results):
        print("that is not what the input asks for", file=sys.stderr)
    return 0 if all(results) else 1


if __name__ == "__main__":
    sys.exit(main())
