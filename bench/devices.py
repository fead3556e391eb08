"""Gives `nsd` readers and writers that fail, and looks at exit statuses, lines on standard error and bytes that were written.

    python3 bench/devices.py                   some 4,000 runs of the program
    python3 bench/devices.py --program PATH    another program than crates/nsd/out/nsd

- Every prefix of the stored run's input (`crates/nsd/stdin`) is served by `pipe`, with the replies and with the log, and by `serve` over a
  socket; every prefix of a log is replayed by `alone`.
- Readers: a directory, a connection that is reset inside a request, an input that ends inside a request.
- Writers: a pipe whose reader is gone, `/dev/full`, and a file that takes only N bytes, for each N up to the bytes to be
  written. They are given to `pipe` for the replies and the log, to `alone`, to `serve` for its log, and for the help. Standard
  error that is full.
- `serve` at a port that is taken, and without a file descriptor for one more connection.

docs/API.md says what has to come: status 3 with `read fault`, status 4 with `write fault`, and before that exactly the bytes
that come without a fault. The stored output and `bench/logs.py` have these; none are taken from the program. The last line has
the number of runs and `ok`, or what was wrong; then the exit status is 1.
"""

import argparse
import os
import re
import resource
import signal
import socket
import struct
import subprocess
import sys
import tempfile
import threading

sys.dont_write_bytecode = True

from answers import Reply, replies_of
from logs import LISTS, ask, entry, head, lines_of, log_of, register, registered
from plays import TOP

PIPE = ["pipe", "--bootstrap", "root"]
ALONE = ["alone", "ta", "--from", "8"]
READ_FAULT, WRITE_FAULT = b"read fault\n", b"write fault\n"


class Wrong(Exception):
    pass


def wanted(what, got, right):
    if got != right:
        raise Wrong(f"{what}: {str(got)[:600]}, not {str(right)[:600]}")


def stored(name):
    with open(os.path.join(TOP, "crates", "nsd", name), "rb") as file:
        return file.read()


INPUT, OUTPUT = stored("stdin"), stored("stdout")
FIRST = INPUT.index(b"GET ")
FIRST_REPLY = Reply(OUTPUT, 0).end
READ_BODY = Reply(OUTPUT, FIRST_REPLY).body.decode()
ENTRIES = [
    entry(register("default", "web", 1, 100, 300), registered(1, 1), 1),
    entry(ask("default", "ReadJob", {"ID": "web"}), READ_BODY, 1),
]
LOG = log_of(ENTRIES).encode()
REPLAYED = log_of(LISTS).encode()
SAME = (lines_of(LISTS, [8, 10]) + "same\n").encode()


class Program:
    def __init__(self, path):
        self.path, self.runs = path, 0

    def run(self, words, data=b"", **more):
        """Runs the program. Returns the status, standard output unless it goes elsewhere, and standard error."""
        self.runs += 1
        given = {"stdin": more.pop("stdin")} if "stdin" in more else {"input": data}
        more.setdefault("stdout", subprocess.PIPE)
        more.setdefault("stderr", subprocess.PIPE)
        try:
            done = subprocess.run([self.path, *words], timeout=60, check=False, **given, **more)
        except subprocess.TimeoutExpired:
            raise Wrong(f"{words}: no end within a minute") from None
        return done.returncode, done.stdout, done.stderr


# ---- prefixes


def of_prefix(length):
    """What a run over the first `length` bytes of the input has to give: the status, the number of whole requests, and standard
    error."""
    whole = (length >= FIRST) + (length >= len(INPUT))
    is_between = length in (0, FIRST, len(INPUT))
    return (0, whole, b"") if is_between else (3, whole, READ_FAULT)


def prefixes_of_pipe(program):
    replies = [b"", OUTPUT[:FIRST_REPLY], OUTPUT]
    for length in range(len(INPUT) + 1):
        status, whole, errors = of_prefix(length)
        wanted(f"{length} bytes", program.run(PIPE, INPUT[:length]), (status, replies[whole], errors))
        log = log_of(ENTRIES[:whole]).encode()
        wanted(f"the log of {length} bytes", program.run([*PIPE, "--print", "log"], INPUT[:length]), (status, log, errors))


def of_log_prefix(length):
    """What a replay of the first `length` bytes of the log has to give: the status, and what is printed."""
    given = REPLAYED[:length]
    lines = given.count(b"\n")
    if lines == 0 or not given.endswith(b"\n"):
        return 2, b"bad log line %d\n" % (lines + 1)
    places = [place for place in (8, 10) if place < lines - 1]
    return 0, (lines_of(LISTS, places) + "same\n").encode()


def prefixes_of_alone(program):
    for length in range(len(REPLAYED) + 1):
        status, printed = of_log_prefix(length)
        wanted(f"{length} bytes of a log", program.run(ALONE, REPLAYED[:length]), (status, printed, b""))


# ---- readers


def failing_readers(program):
    for words in (PIPE, [*PIPE, "--drive"], ALONE):
        folder = os.open("/", os.O_RDONLY)
        wanted(f"{words} from a directory", program.run(words, stdin=folder), (3, b"", READ_FAULT))
        os.close(folder)
    for length in (0, 1, FIRST - 1, FIRST, FIRST + 1, len(INPUT) - 1):
        whole = of_prefix(length)[1]
        got = program.run(PIPE, stdin=reset_behind(INPUT[:length]))
        wanted(f"a connection that is reset behind {length} bytes", (got[0], got[2]), (3, READ_FAULT))
        if got[1] not in [b"", OUTPUT[:FIRST_REPLY]][: whole + 1]:
            raise Wrong(f"a connection that is reset behind {length} bytes: {got[1][:200]}")


def reset_behind(data):
    """A socket that gives these bytes, or a first part of them, and then fails."""
    with socket.create_server(("127.0.0.1", 0)) as listener:
        client = socket.create_connection(listener.getsockname())
        server, _ = listener.accept()
    client.sendall(data)
    client.setsockopt(socket.SOL_SOCKET, socket.SO_LINGER, struct.pack("ii", 1, 0))
    client.close()
    return server


# ---- writers


def closed_pipe():
    reader, writer = os.pipe()
    os.close(reader)
    return writer


def full():
    return os.open("/dev/full", os.O_WRONLY)


WRITERS = [("a pipe whose reader is gone", closed_pipe), ("/dev/full", full)]
PRINTED = [(PIPE, INPUT), ([*PIPE, "--print", "log"], INPUT), (ALONE, REPLAYED), (["--help"], b""), (["serve", "--help"], b"")]


def failing_writers(program):
    for what, make in WRITERS:
        for words, data in PRINTED:
            writer = make()
            got = program.run(words, data, stdout=writer)
            os.close(writer)
            wanted(f"{words} to {what}", got, (4, None, WRITE_FAULT))
        for words, data, status in [(PIPE, INPUT[:-1], 3), (["pipe"], b"", 2), (ALONE, REPLAYED, 0)]:
            errors = make()
            got = program.run(words, data, stderr=errors)
            os.close(errors)
            wanted(f"{words} with standard error to {what}", (got[0], got[2]), (status, None))


def narrow(room):
    def limit():
        signal.signal(signal.SIGXFSZ, signal.SIG_IGN)
        resource.setrlimit(resource.RLIMIT_FSIZE, (room, room))

    return limit


def written_to_a_file(program, words, data, room):
    """Runs the program with a file for standard output that takes `room` bytes. Returns the status, the content of the file,
    and standard error."""
    with tempfile.TemporaryFile() as file:
        status, _, errors = program.run(words, data, stdout=file, preexec_fn=narrow(room))
        file.seek(0)
        return status, file.read(), errors


def narrow_writers(program):
    for words, data, whole in [(PIPE, INPUT, OUTPUT), ([*PIPE, "--print", "log"], INPUT, LOG), (ALONE, REPLAYED, SAME)]:
        for room in range(len(whole)):
            right = (4, whole[:room], WRITE_FAULT)
            wanted(f"{words} with room for {room} bytes", written_to_a_file(program, words, data, room), right)
        wanted(f"{words} with room for all", written_to_a_file(program, words, data, len(whole)), (0, whole, b""))


# ---- a server


class Server:
    def __init__(self, program, words, stdout, **more):
        program.runs += 1
        command = [program.path, "serve", "--listen", "127.0.0.1:0", "--bootstrap", "root", *words]
        self.process = subprocess.Popen(command, stdout=stdout, stderr=subprocess.PIPE, **more)
        self.timer = threading.Timer(120, self.process.kill)
        self.timer.start()
        found = re.fullmatch(rb"listening 127\.0\.0\.1:([0-9]+)\n", self.process.stderr.readline())
        if not found:
            self.process.kill()
            raise Wrong("the server does not listen")
        self.port = int(found[1])

    def opened(self):
        return socket.create_connection(("127.0.0.1", self.port), timeout=60)

    def ask(self, data):
        """Sends the data, says that no more comes, and returns all that the server sends until it closes."""
        with self.opened() as connection:
            connection.sendall(data)
            connection.shutdown(socket.SHUT_WR)
            taken = b""
            while more := connection.recv(1 << 16):
                taken += more
        return taken

    def ended(self):
        printed, errors = self.process.communicate(timeout=120)
        self.timer.cancel()
        return self.process.returncode, printed, errors


def prefixes_of_serve(program):
    """Sends each prefix of the input over a connection of its own. All registrations are alike except for their numbers, and so
    are the reads."""
    server = Server(program, ["--accept", str(len(INPUT) + 1)], subprocess.PIPE)
    statuses = []
    for length in range(len(INPUT) + 1):
        replies = replies_of(server.ask(INPUT[:length]))
        wanted(f"{length} bytes to serve", [reply.status for reply in replies], [200] * of_prefix(length)[1])
        statuses += replies
    status, log, errors = server.ended()
    entries = log.count(b"\n") - 1
    wanted("every prefix to serve", (status, errors), (0, b"settled %d\n" % entries))
    asked = log.count(b'"Kind":"Ask"')
    wanted("requests in the log of every prefix", asked, len(statuses))


def failing_logs(program):
    for what, make in WRITERS:
        for words in (["--accept", "2"], ["--accept", "2", "--rotate", "1"]):
            writer = make()
            server = Server(program, words, writer)
            os.close(writer)
            replies = [replies_of(server.ask(INPUT)) for _ in range(2)]
            wanted(f"serve {words} to {what}", [len(found) for found in replies], [2, 2])
            status, _, errors = server.ended()
            wanted(f"serve {words} to {what}", (status, errors.splitlines()[-1:]), (4, [b"write fault"]))


def narrow_logs(program):
    for room in (0, 1, len(head(0)), len(head(0)) + 1, 200):
        with tempfile.TemporaryFile() as file:
            server = Server(program, ["--accept", "1"], file, preexec_fn=narrow(room))
            server.ask(INPUT)
            status, _, errors = server.ended()
            file.seek(0)
            log = file.read()
        wanted(f"a log with room for {room} bytes", (status, errors, len(log)), (4, WRITE_FAULT, room))
        wanted("the beginning of it", log[:16], head(0).encode()[: min(room, 16)])


def taken_ports(program):
    with socket.create_server(("127.0.0.1", 0)) as listener:
        address = "127.0.0.1:%d" % listener.getsockname()[1]
        got = program.run(["serve", "--listen", address, "--bootstrap", "root"])
    wanted("a port that is taken", got, (3, b"", READ_FAULT))


def no_descriptor(program):
    """Runs the server with no file descriptor left. If it waits for a connection already, the system has reserved a descriptor
    for that one."""
    server = Server(program, ["--connections", "1"], subprocess.PIPE)
    number = server.process.pid
    most = len(os.listdir(f"/proc/{number}/fd"))
    resource.prlimit(number, resource.RLIMIT_NOFILE, (most, most))
    try:
        wanted("the connection that has a descriptor", server.ask(INPUT[:FIRST]), OUTPUT[:FIRST_REPLY])
    except OSError:
        pass
    wanted("no descriptor for a connection", server.ended(), (3, b"", READ_FAULT))


PARTS = [
    prefixes_of_pipe, prefixes_of_alone, failing_readers, failing_writers, narrow_writers, prefixes_of_serve, failing_logs, narrow_logs,
    taken_ports, no_descriptor,
]


def main():
    parser = argparse.ArgumentParser()
    parser.add_argument("--program", default=os.path.join(TOP, "crates", "nsd", "out", "nsd"))
    words = parser.parse_args()
    program, wrong = Program(words.program), 0
    for part in PARTS:
        before = program.runs
        try:
            part(program)
            print(f"{part.__name__.replace('_', ' ')}: {program.runs - before} runs, ok", flush=True)
        except Wrong as fault:
            wrong += 1
            print(f"{part.__name__.replace('_', ' ')}: {fault}", flush=True)
    print(f"{program.runs} runs: {'ok' if not wrong else f'{wrong} parts wrong'}")
    return 1 if wrong else 0


if __name__ == "__main__":
    sys.exit(main())
