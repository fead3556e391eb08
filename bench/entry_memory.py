"""What an entry of the log of `nsd serve` takes in memory, with its receipt: reads of one job over one connection.

    python3 bench/entry_memory.py [PROGRAM [READS]]

PROGRAM is the built program, crates/nsd/out/nsd if none is given. The server is sent READS reads (260,000 if no number is
given), 200 at a time, and all of them are answered before more are sent. The growth of its resident memory for each read is
printed. The lists of entries and receipts grow by doubling, so a number just below a power of two shows the least. The exit
status is 0 if all replies are equal.
"""

import pathlib
import re
import socket
import subprocess
import sys

TOP = pathlib.Path(__file__).resolve().parent.parent
JOB = (
    '{"Job":{"ID":"web","Priority":50,"TaskGroups":[{"Name":"g","Count":1,'
    '"Tasks":[{"Name":"t","Resources":{"CPU":100,"MemoryMB":300}}]}]}}'
)
PUT = f"PUT /v1/jobs HTTP/1.1\r\nX-Nomad-Token: root\r\nContent-Length: {len(JOB)}\r\n\r\n{JOB}".encode()
GET = b"GET /v1/job/web HTTP/1.1\r\nX-Nomad-Token: root\r\n\r\n"
AT_ONCE = 200


def resident(number):
    """The resident memory, in bytes, of the process with this number."""
    status = pathlib.Path(f"/proc/{number}/status").read_text(encoding="ascii")
    return int(re.search(r"^VmRSS:\s+(\d+) kB", status, re.M)[1]) * 1024


def received(file):
    """One response, head and body."""
    head = b""
    while not head.endswith(b"\r\n\r\n"):
        line = file.readline()
        if not line:
            sys.exit("the server closed the connection")
        head += line
    length = int(re.search(rb"Content-Length: (\d+)", head)[1])
    return head + file.read(length)


def main():
    program = sys.argv[1] if len(sys.argv) > 1 else TOP / "crates/nsd/out/nsd"
    reads = int(sys.argv[2]) if len(sys.argv) > 2 else 260_000
    words = ["serve", "--listen", "127.0.0.1:0", "--bootstrap", "root", "--connections", "1", "--log-limit", "10000000"]
    with subprocess.Popen([program, *words], stderr=subprocess.PIPE, stdout=subprocess.DEVNULL, text=True) as server:
        try:
            port = int(re.search(r"listening 127\.0\.0\.1:(\d+)", server.stderr.readline())[1])
            with socket.create_connection(("127.0.0.1", port)) as stream, stream.makefile("rb") as file:
                stream.sendall(PUT)
                if not received(file).startswith(b"HTTP/1.1 200"):
                    sys.exit("the job is not registered")
                first = b""
                # A reply shows the namespace's index, which rises once more when the job's evaluation ends.
                while b"X-Nomad-Index: 2\r\n" not in first:
                    stream.sendall(GET)
                    first = received(file)
                before = resident(server.pid)
                for sent in range(0, reads, AT_ONCE):
                    count = min(AT_ONCE, reads - sent)
                    stream.sendall(GET * count)
                    for _ in range(count):
                        if received(file) != first:
                            sys.exit("a read is answered otherwise than the first")
                grown = resident(server.pid) - before
        finally:
            server.kill()
    print(f"{reads} reads: {grown / reads:.0f} bytes for each entry of the log, with its receipt")


main()
