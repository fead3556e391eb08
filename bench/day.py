"""Runs examples/day.sh against a new server, and compares what it prints with examples/day.txt.

    python3 bench/day.py [PROGRAM]   crates/nsd/out/nsd if none is given

Differences are printed, and the exit status is then 1.
"""

import difflib
import os
import re
import subprocess
import sys
import tempfile

sys.dont_write_bytecode = True

from conversations import TOP


def printed(program, folder):
    """What the script of the day prints, and its exit status."""
    path = os.path.join(folder, "day.log")
    with open(path, "wb") as log:
        words = [program, "serve", "--listen", "127.0.0.1:0", "--bootstrap", "root", "--rotate", "1"]
        server = subprocess.Popen(words, stdout=log, stderr=subprocess.PIPE)
    try:
        at = re.match(rb"listening (\S+)\n", server.stderr.readline())[1].decode()
        where = {**os.environ, "NSD_AT": f"http://{at}", "NSD": program}
        ran = subprocess.run(["sh", os.path.join(TOP, "examples/day.sh"), path], env=where, stdout=subprocess.PIPE, timeout=120, check=False)
        return ran.stdout.decode(), ran.returncode
    finally:
        server.kill()
        server.wait()


def main(words):
    program = os.path.abspath(words[0] if words else os.path.join(TOP, "crates/nsd/out/nsd"))
    with open(os.path.join(TOP, "examples/day.txt"), encoding="utf-8") as file:
        wanted = file.read()
    with tempfile.TemporaryDirectory() as folder:
        found, status = printed(program, folder)
    for line in difflib.unified_diff(wanted.splitlines(), found.splitlines(), "examples/day.txt", "printed", lineterm=""):
        print(line)
    print(f"{len(found.splitlines())} lines were printed, {'as' if found == wanted else 'not as'} examples/day.txt has them")
    return 0 if found == wanted and status == 0 else 1


if __name__ == "__main__":
    sys.exit(main(sys.argv[1:]))
