"""Refuses each allocation in turn to the scripts of the worked rows, to connections, logs, replays, and to a server with its
threads.

    python3 bench/each_growth.py                    all five parts
    python3 bench/each_growth.py states server      only these parts

N is counted upwards from 1 until a run meets no refusal, and in each run the Nth allocation is refused. The programs are those
that `rt run` built (crates/plays/out/plays, crates/nsd/out/nsd). What a run may print is computed from runs with ample memory.
Any other run is reported, and the exit status is 1. It needs a C compiler, `cc`.

- states: the scripts of the worked rows. Before each call the core is copied. If the call is refused, the copy and the core
  have to show the same (allocations of copying and comparing are not refused): in reads of every list, job, node pool and
  quota, in the next evaluation, in the phase of each worker, and in the snapshots that the workers keep. Then the same call is
  made again, a plan too. The run has to write what it writes with ample memory, or to end since the script's own program found
  no memory. Besides, the calls of a core that take no memory are made once and 500 times, which has to take equally many
  allocations.
- connections: the requests of those rows over one connection of `nsd pipe`. At most one of them gets the fixed 503, and the
  replies to all others are those to the same requests without that one. Or the program ends with status 5 before the first
  reply.
- logs: the same with `--print log`. The log is that of all requests, or of all but one, or the status is 5 and nothing is written.
- replays: a log, replayed by `nsd alone`. It prints what it prints with ample memory, or the status is 5 and what is printed is the
  beginning of that.
- server: `nsd serve` with one connection, one worker and the applier, each a thread. In turn each thread has its own Nth
  allocation refused. A client registers a node and two jobs, and waits until each job runs. A request that gets 503 is sent
  again, and has to be served then. Both jobs have to run in time, so the worker and the applier have gone on. The allocations
  are shown as with ample memory. The last line of standard error is `settled K`, where K is the number of entries of the
  printed log; each registration is one of them. `nsd alone` reads the log. Or the server ends with status 5, at its
  start or when it settles and prints.
"""

import json
import pathlib
import re
import socket
import subprocess
import sys
import tempfile
import time

sys.dont_write_bytecode = True

from conversations import request
from plays import MARK, TOP, path_of, stored
from refusing import Refusing

ROWS = [
    "places_within_quota",
    "replaces_and_waits_for_quota",
    "wakes_only_its_pool",
    "wakes_by_class",
    "release_after_snapshot",
    "wakes_in_order",
    "two_workers_one_node",
    "evicts_lower_priority",
    "quota_limits",
    "one_evaluation_of_a_job_is_worked_on_at_a_time",
    "index_and_events",
    "job_is_registered_once_where_it_must_be_new",
]
METHODS = ("GET", "HEAD", "PUT", "POST", "DELETE")
NSD = [f"{TOP}/crates/nsd/out/nsd"]
PLAYS = [path_of("out/plays")]
NO_MEMORY = b"HTTP/1.1 503 Service Unavailable\r\nContent-Type: text/plain; charset=utf-8\r\nContent-Length: 13\r\n"
OUT_OF_MEMORY = 5
REFUSED_ITSELF = b"memory"


def rows():
    scripts = {part.split("\n", 1)[0]: part.split("\n", 1)[1] for part in stored("stdin", ("script",))}
    return {name: scripts[f"script {name}"] for name in ROWS}


def lines_of(text, words):
    return [line for line in text.split("\n") if line.split(" ")[0] in words]


# ---- states


def watched(text):
    """The targets of reads that show all that the script deals with."""
    names = sorted({"default", *re.findall(r"/v1/namespace/([\w-]+)", text), *re.findall(r"namespace=([\w-]+)", text)})
    pools = sorted({"default", *re.findall(r"/v1/node/pool/([\w-]+)", text)})
    quotas = sorted(set(re.findall(r"/v1/quota/([\w-]+) ", text)))
    jobs = sorted(set(re.findall(r'"Job":{"ID":"([^"]+)"', text)))
    yield from ("/v1/namespaces", "/v1/quotas", "/v1/node/pools")
    yield from (f"/v1/node/pool/{pool}/nodes" for pool in pools)
    for name in names:
        yield from (f"/v1/{what}?namespace={name}" for what in ("jobs", "evaluations", "allocations", "event/stream"))
        yield from (f"/v1/job/{job}?namespace={name}" for job in jobs)
        yield from (f"/v1/quota/usage/{quota}?namespace={name}" for quota in quotas)


def with_watches(text):
    return "".join(f"watch {target}\n" for target in watched(text)) + text


class Tally:
    """How the runs of one part ended."""

    def __init__(self):
        self.counts, self.wrong = {}, 0

    def add(self, kind):
        self.counts[kind] = self.counts.get(kind, 0) + 1

    def fail(self, name, number, what):
        self.wrong += 1
        print(f"{name}: allocation {number}: {what}", flush=True)

    def tell(self, name):
        kinds = ", ".join(f"{many} {kind}" for kind, many in sorted(self.counts.items()))
        print(f"{name}: {sum(self.counts.values()) + self.wrong} runs: {kinds}, {self.wrong} wrong", flush=True)
        return self.wrong


def until_ample(refusing, words, text):
    """Each run with its number, up to the first run without a refusal, which is left out."""
    number = 1
    while True:
        run = refusing.run(words, text, number)
        was_refused, _, _ = refusing.counted()
        if not was_refused:
            return
        yield number, run
        number += 1


def states(refusing):
    wrong = looks(refusing)
    for name, text in rows().items():
        tally = Tally()
        part = f"=== script {name}\n{with_watches(text)}".encode()
        status, ample, errors = refusing.run(PLAYS, part)
        assert status == 0, errors
        for number, (status, output, errors) in until_ample(refusing, PLAYS, part):
            if status == 0 and output == ample:
                tally.add("as with ample memory")
            elif status == 1 and ample.startswith(output) and REFUSED_ITSELF in errors:
                tally.add("ended by want of memory of the script's own program")
            else:
                tally.fail(name, number, f"status {status}, {errors[:200]}")
        wrong += tally.tell(f"states, {name}")
    return wrong


def looks(refusing):
    """Whether the calls that take no memory fail to take equally many allocations once and 500 times."""
    text = rows()["two_workers_one_node"]
    counts = []
    for times in (1, 500):
        look = f"looks {times} tb west\n"
        part = f"=== script looks\n{look}" + text.replace("\n", f"\n{look}")
        status, _, errors = refusing.run(PLAYS, part.rstrip("\n").encode())
        assert status == 0, errors
        counts.append(refusing.counted()[1])
    print(f"states, looks: {counts[0]} allocations where each is made once, {counts[1]} where it is made 500 times", flush=True)
    return counts[0] != counts[1]


# ---- connections and logs


def requests_of(text):
    """The script's requests, with the token that it has for each."""
    token, asked = "root", []
    for line in text.split("\n"):
        word, _, rest = line.partition(" ")
        if word == "token":
            token = rest
        elif word in METHODS:
            target, _, body = rest.partition(" ")
            asked.append(request([word, target, *filter(None, [token])], [], body).encode())
    return asked


def replies_in(output):
    """The replies, split by their lengths."""
    replies = []
    while output:
        head, found, rest = output.partition(b"\r\n\r\n")
        length = int(re.search(rb"Content-Length: (\d+)", head)[1])
        replies.append(head + found + rest[:length])
        output = rest[length:]
    return replies


def without_each(refusing, words, asked):
    """For each request: the output and the status of a run of all requests but that one."""
    return [refusing.run(words, b"".join(asked[:at] + asked[at + 1 :]))[:2] for at in range(len(asked))]


def connection(refusing, words, name, asked):
    tally = Tally()
    _, ample, _ = refusing.run(words, b"".join(asked))
    others = [replies_in(output) for _, output in without_each(refusing, words, asked)]
    for number, (status, output, errors) in until_ample(refusing, words, b"".join(asked)):
        replies = replies_in(output)
        refused = [at for at, reply in enumerate(replies) if reply.startswith(NO_MEMORY)]
        if status == OUT_OF_MEMORY and not output and errors == b"out of memory\n":
            tally.add("ended with status 5 before the first reply")
        elif status == 0 and output == ample:
            tally.add("as with ample memory")
        elif status == 0 and len(refused) == 1 and replies[: refused[0]] + replies[refused[0] + 1 :] == others[refused[0]]:
            tally.add("with one request refused and no trace of it")
        else:
            tally.fail(name, number, f"status {status}, refused {refused}, {errors[:200]}")
    return tally.tell(f"connections, {name}")


def connections(refusing):
    words = [*NSD, "pipe", "--bootstrap", "root"]
    return sum(connection(refusing, words, name, requests_of(text)) for name, text in rows().items())


def log(refusing, words, name, asked):
    tally = Tally()
    _, ample, _ = refusing.run(words, b"".join(asked))
    others = [output for _, output in without_each(refusing, words, asked)]
    for number, (status, output, errors) in until_ample(refusing, words, b"".join(asked)):
        if status == OUT_OF_MEMORY and not output and errors == b"out of memory\n":
            tally.add("ended with status 5 and nothing written")
        elif status == 0 and output == ample:
            tally.add("with the log of all requests")
        elif status == 0 and output in others:
            tally.add("with the log of all but one")
        else:
            tally.fail(name, number, f"status {status}, {errors[:200]}")
    return tally.tell(f"logs, {name}")


def logs(refusing):
    words = [*NSD, "pipe", "--bootstrap", "root", "--print", "log"]
    return sum(log(refusing, words, name, requests_of(text)) for name, text in rows().items())


# ---- replays


def replays(refusing):
    words = [*NSD, "alone", "ta", "--from", "8"]
    text = pathlib.Path(TOP, "crates/plays/stdin").read_text().split(MARK)
    part = next(part for part in text if part.startswith("alone ta 8 replay_alone\n"))
    kept = part.split("\n", 1)[1].encode()
    tally = Tally()
    status, ample, errors = refusing.run(words, kept)
    assert status == 0 and ample.endswith(b"same\n"), (status, ample, errors)
    for number, (status, output, errors) in until_ample(refusing, words, kept):
        if status == OUT_OF_MEMORY and ample.startswith(output) and errors == b"out of memory\n":
            tally.add("ended with status 5 and a beginning of the output")
        elif status == 0 and output == ample:
            tally.add("as with ample memory")
        else:
            tally.fail("replay_alone", number, f"status {status}, {output[-80:]}, {errors[:200]}")
    return tally.tell("replays, replay_alone")


# ---- a server with its threads


NODE = ("PUT", "/v1/node/pool/default/node/n1", '{"CPU":1000,"MemoryMB":1024}')
JOB = '{{"Job":{{"ID":"{0}","TaskGroups":[{{"Name":"g","Tasks":[{{"Name":"t","Resources":{{"CPU":100,"MemoryMB":100}}}}]}}]}}}}'
SECONDS = 20


class Ended(Exception):
    """The connection was closed."""


class Client:
    def __init__(self, port):
        self.socket = socket.create_connection(("127.0.0.1", port), timeout=SECONDS)
        self.kept = b""

    def more(self):
        try:
            got = self.socket.recv(65536)
        except ConnectionError:
            got = b""
        if not got:
            raise Ended
        self.kept += got

    def reply(self):
        while b"\r\n\r\n" not in self.kept:
            self.more()
        head, _, rest = self.kept.partition(b"\r\n\r\n")
        length = int(re.search(rb"Content-Length: (\d+)", head)[1])
        while len(self.kept) < len(head) + 4 + length:
            self.more()
        body, self.kept = self.kept[len(head) + 4 :][:length], self.kept[len(head) + 4 + length :]
        return int(head.split(b" ")[1]), body

    def once(self, method, target, body):
        try:
            self.socket.sendall(request([method, target, "root"], [], body).encode())
        except ConnectionError as fault:
            raise Ended from fault
        return self.reply()

    def ask(self, method, target, body=""):
        """The body of the reply. If the server has no memory, the request is sent once more."""
        status, got = self.once(method, target, body)
        if status == 503:
            assert got == b"out of memory", got
            self.refused += 1
            status, got = self.once(method, target, body)
        assert status == 200, (status, got)
        return got

    refused = 0


def place(client, job):
    """Registers the job, and waits until it runs."""
    client.ask("POST", "/v1/jobs", JOB.format(job))
    end = time.monotonic() + SECONDS
    while b'"Status":"running"' not in client.ask("GET", f"/v1/job/{job}"):
        assert time.monotonic() < end, f"{job} does not run"
        time.sleep(0.002)


def placed(body):
    """Each allocation without its indexes and its evaluation. Those depend on whether the second job came before the end of the
    first one's evaluation, which is no fault."""
    members = "JobID", "NodeName", "NodePool", "DesiredStatus", "ClientStatus", "Resources", "TaskGroup"
    return [[row[member] for member in members] for row in json.loads(body)]


def visit(port):
    """The allocations in the end, and how many requests were refused for memory. If the server closes a connection before any
    reply, a second connection is opened."""
    client = Client(port)
    try:
        client.ask(*NODE)
    except Ended:
        client = Client(port)
        client.ask(*NODE)
    place(client, "a")
    place(client, "b")
    shown = placed(client.ask("GET", "/v1/allocations"))
    client.socket.close()
    return shown, client.refused


def close_rest(port):
    """Takes the connections that are left, so that the server ends."""
    try:
        for _ in range(2):
            socket.create_connection(("127.0.0.1", port), timeout=SECONDS).close()
    except OSError:
        pass


class Served:
    """One run of the server."""

    def __init__(self, refusing, refused, thread):
        words = [*NSD, "serve", "--listen", "127.0.0.1:0", "--bootstrap", "root", "--workers", "1", "--connections", "1", "--accept", "2"]
        out = open(refusing.folder / "log", "wb")
        self.log = refusing.folder / "log"
        self.process = subprocess.Popen(words, stdout=out, stderr=subprocess.PIPE, env=refusing.environment(refused, thread))
        first = self.process.stderr.readline()
        self.errors, self.shown, self.refused = [first], None, 0
        if first.startswith(b"listening "):
            self.visited(int(first.rsplit(b":", 1)[1]))
        self.errors += self.process.stderr.read().splitlines(keepends=True)
        self.status = self.process.wait(timeout=SECONDS)
        out.close()

    def visited(self, port):
        try:
            self.shown, self.refused = visit(port)
        except (Ended, OSError):
            self.shown = None
        close_rest(port)

    def fault(self, ample):
        """What is wrong with the run, or None."""
        if self.errors[-1] == b"out of memory\n":
            return None if self.status == OUT_OF_MEMORY and self.shown in (None, ample) else f"status {self.status}, {self.errors}"
        if self.status != 0 or self.shown != ample:
            return f"status {self.status}, {self.errors}, shown {self.shown}"
        return self.fault_of_log()

    def fault_of_log(self):
        _, *lines = self.log.read_text().splitlines()
        if self.errors[-1] != f"settled {len(lines)}\n".encode():
            return f"{self.errors} of {len(lines)} entries"
        does = [json.loads(line)["Step"].get("Do") for line in lines]
        if does.count("Register") != 2 or does.count("PutNode") != 1:
            return f"the log has {does}"
        replayed = subprocess.run([*NSD, "alone", "default", "--from", "0"], stdin=open(self.log, "rb"), capture_output=True, timeout=SECONDS)
        if not replayed.stdout.endswith((b"same\n", b"premise fails at 0\n")):
            return f"its replay ends with {replayed.stdout[-60:]}"
        return None

    def kind(self):
        if self.errors[-1] == b"out of memory\n":
            return "ended with status 5 " + ("at the beginning" if self.shown is None else "behind the last reply")
        log = self.log.read_text()
        given_back = log.count('"Kind":"Nack"')
        return f"settled, {self.refused} requests refused, {given_back} evaluations given back"


# The threads in the order in which they are made. The first one also opens the server, and settles and prints at the end.
THREADS = ("the applier", "the connection", "the worker")
MISSES = 3


def server(refusing):
    ample = Served(refusing, 0, 0)
    assert ample.status == 0 and ample.shown, (ample.status, ample.errors)
    _, _, each = refusing.counted()
    assert len(each) == len(THREADS), each
    return sum(thread_of(refusing, thread, ample.shown) for thread in range(len(THREADS)))


def thread_of(refusing, thread, shown):
    """Refuses each allocation of the thread in turn. Threads do not allocate equally often in each run, so it ends after
    several runs in a row without a refusal."""
    tally, number, misses = Tally(), 1, 0
    while misses < MISSES:
        served = Served(refusing, number, thread)
        was_refused, _, _ = refusing.counted()
        misses = 0 if was_refused else misses + 1
        fault = served.fault(shown)
        if fault:
            tally.fail(f"server, {THREADS[thread]}", number, fault)
        elif was_refused:
            tally.add(served.kind())
        number += 1
    return tally.tell(f"server, {THREADS[thread]}")


PARTS = {"states": states, "connections": connections, "logs": logs, "replays": replays, "server": server}


def main():
    with tempfile.TemporaryDirectory() as folder:
        refusing = Refusing(folder)
        wrong = sum(PARTS[name](refusing) for name in sys.argv[1:] or PARTS)
    sys.exit(1 if wrong else 0)


main()
