"""Shows that a client whose request is refused reads the reply, and that idle clients do not keep the others waiting.

    python3 bench/closing.py [CLIENTS]   1,000 clients without a number

Each client sends a head that is refused with 413, since it announces 2 MiB, and sends the 2 MiB before it reads. A server that
closes its socket with those bytes unread resets the connection, and the reply is lost. Then four clients open connections and
send nothing: with `--idle 1` the next request is answered, and without it is not within four seconds. The exit status is 1 if a
reply is lost, if the request is not answered with `--idle 1`, or if it is answered without.
"""

import socket
import sys

from served import Served

BODY = b"x" * (2 << 20)
HEAD = b"PUT /v1/jobs HTTP/1.1\r\nHost: a\r\nX-Nomad-Token: root\r\nContent-Length: %d\r\n\r\n" % len(BODY)
# The rule: 413, this text, and the connection closes.
TEXT = b'too large'
SILENT = 4
SECONDS = 4


def connected(server):
    return socket.create_connection(("127.0.0.1", server.port), timeout=SECONDS)


def read_all(client):
    parts = []
    while part := client.recv(65536):
        parts.append(part)
    return b"".join(parts)


def is_refused(server):
    """Whether the client reads the whole reply after it has sent the whole body."""
    with connected(server) as client:
        try:
            client.sendall(HEAD + BODY)
            reply = read_all(client)
        except OSError:
            return False
    status, _, rest = reply.partition(b"\r\n")
    return b" 413 " in status and rest.endswith(TEXT) and b"Connection: close" in rest


def is_answered(server):
    """Whether a request is answered while other clients are connected and send nothing."""
    silent = [connected(server) for _ in range(SILENT)]
    try:
        with connected(server) as client:
            client.sendall(b"GET /v1/jobs HTTP/1.1\r\nHost: a\r\nX-Nomad-Token: root\r\nConnection: close\r\n\r\n")
            return read_all(client).startswith(b"HTTP/1.1 200 ")
    except OSError:
        return False
    finally:
        for client in silent:
            client.close()


def ran(arguments, question):
    server = Served(arguments)
    try:
        return question(server)
    finally:
        server.end()


def main():
    clients = int(sys.argv[1]) if len(sys.argv) > 1 else 1_000
    read = ran([], lambda server: sum(is_refused(server) for _ in range(clients)))
    bounded = ran(["--idle", "1"], is_answered)
    unbounded = ran([], is_answered)
    print(f"{read} of {clients} clients read the reply to the request that was refused")
    print(f"beside {SILENT} silent clients, with --idle 1: {'answered' if bounded else 'not answered'}")
    print(f"beside {SILENT} silent clients, without: {'answered' if unbounded else 'not answered'}")
    return read == clients and bounded and not unbounded


if __name__ == "__main__":
    sys.exit(0 if main() else 1)
