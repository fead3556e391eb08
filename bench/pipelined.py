"""Writes pipelined requests to a file, runs `./nsd pipe` on it and prints the requests per second.

First each of 500 jobs is registered. Then reads and registrations of these jobs follow, about as many of each, in an
order that is always the same. About every second registration changes its job.
"""

import json
import os
import random
import subprocess
import sys
import tempfile
import time

JOBS = 500
SECRET = "root"


def registration(job, count):
    group = {"Name": "g", "Count": count, "Tasks": [{"Name": "t"}]}
    body = json.dumps({"Job": {"ID": job, "TaskGroups": [group]}}, separators=(",", ":"))
    return (
        f"POST /v1/jobs HTTP/1.1\r\nX-Nomad-Token: {SECRET}\r\n"
        f"Content-Length: {len(body)}\r\n\r\n{body}"
    )


def read(job):
    return f"GET /v1/job/{job} HTTP/1.1\r\nX-Nomad-Token: {SECRET}\r\n\r\n"


def requests(number):
    draws = random.Random(1)
    counts = [1] * JOBS
    for place in range(number):
        if place < JOBS:
            yield registration(f"job-{place}", 1)
            continue
        job = draws.randrange(JOBS)
        if draws.random() < 0.5:
            yield read(f"job-{job}")
            continue
        if draws.random() < 0.5:
            counts[job] = counts[job] % 1000 + 1
        yield registration(f"job-{job}", counts[job])


def replies_of_success(path):
    """The number of replies with status 200. Bodies are JSON without line ends, so this text occurs only where a reply
    begins."""
    with open(path, "rb") as output:
        return output.read().count(b"HTTP/1.1 200 OK\r\n")


def run(number, folder):
    source = os.path.join(folder, "requests")
    target = os.path.join(folder, "replies")
    with open(source, "w", encoding="ascii", newline="") as file:
        file.writelines(requests(number))
    with open(source, "rb") as given, open(target, "wb") as taken:
        start = time.perf_counter()
        status = subprocess.run(
            ["./nsd", "pipe", "--bootstrap", SECRET], stdin=given, stdout=taken
        ).returncode
        seconds = time.perf_counter() - start
    served = replies_of_success(target)
    print(f"{number} requests, {os.path.getsize(source)} bytes, {os.path.getsize(target)} bytes of replies")
    print(f"{seconds:.3f} s, {number / seconds:.0f} requests a second")
    if status != 0 or served != number:
        print(f"status {status}, {served} replies of status 200", file=sys.stderr)
        return 1
    return 0


def main():
    number = int(sys.argv[1]) if len(sys.argv) > 1 else 100_000
    if not os.path.exists("nsd"):
        print("there is no ./nsd here: build the program first", file=sys.stderr)
        return 2
    with tempfile.TemporaryDirectory() as folder:
        return run(number, folder)


if __name__ == "__main__":
    sys.exit(main())
