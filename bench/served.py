"""A server on a port of its own, and connections to it, for the scripts that measure `./nsd serve`."""

import re
import socket
import subprocess
import sys
import time

from driven import request

BATCH = 1_000
JOB = {"Job": {"ID": "web", "TaskGroups": [{"Name": "g", "Tasks": [{"Name": "t"}]}]}}
NODE = {"CPU": 4000, "MemoryMB": 8192}


class Served:
    """`./nsd serve` with these arguments, whose log goes to this file."""

    def __init__(self, arguments, log=subprocess.DEVNULL):
        words = ["./nsd", "serve", "--listen", "127.0.0.1:0", "--bootstrap", "root", *arguments]
        self.program = subprocess.Popen(words, stdout=log, stderr=subprocess.PIPE)
        found = re.match(rb"listening 127\.0\.0\.1:(\d+)\n", self.program.stderr.readline())
        if not found:
            sys.exit("the server does not listen")
        self.port = int(found[1])

    def opened(self):
        """Opens a connection, and registers a node and a job over it, which is placed when this returns."""
        connection = Connection(self.port)
        connection.ask(request("PUT", "/v1/node/pool/default/node/web", NODE))
        connection.ask(request("POST", "/v1/jobs", JOB))
        while b'"Status":"pending"' in connection.ask(request("GET", "/v1/job/web/evaluations")):
            time.sleep(0.05)
        return connection

    def resident(self):
        """The resident memory of the server, in KB."""
        with open(f"/proc/{self.program.pid}/status", encoding="ascii") as file:
            return int(re.search(r"VmRSS:\s+(\d+) kB", file.read())[1])

    def end(self):
        self.program.kill()
        self.program.wait()


class Connection:
    def __init__(self, port):
        self.socket = socket.create_connection(("127.0.0.1", port))
        self.socket.setsockopt(socket.IPPROTO_TCP, socket.TCP_NODELAY, 1)
        self.rest = b""

    def reply(self):
        """The next reply, which has to have status 200."""
        while (end := self.rest.find(b"\r\n\r\n")) < 0:
            self.rest += self.received()
        length = int(re.search(rb"Content-Length: (\d+)", self.rest[:end])[1])
        while len(self.rest) < end + 4 + length:
            self.rest += self.received()
        found, self.rest = self.rest[: end + 4 + length], self.rest[end + 4 + length :]
        if not found.startswith(b"HTTP/1.1 200 "):
            sys.exit(f"a request was not served: {found[:200]}")
        return found

    def received(self):
        taken = self.socket.recv(1 << 20)
        if not taken:
            sys.exit("the server closed the connection")
        return taken

    def ask(self, one):
        self.socket.sendall(one)
        return self.reply()

    def all(self, requests):
        """Sends the requests at once, and takes a reply to each."""
        self.socket.sendall(b"".join(requests))
        for _ in requests:
            self.reply()

    def repeat(self, one, reply, number):
        """Sends a request that changes nothing this often, which has to get the same reply each time."""
        self.socket.sendall(one * number)
        left = len(reply) * number
        while left > 0:
            taken = self.received()
            left -= len(taken)
        if left < 0 or not taken.endswith(reply[-20:]):
            sys.exit("a reply differs")
