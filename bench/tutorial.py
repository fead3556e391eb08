"""Runs the lines of a page that call curl, one after the other, and compares what they answer with what the page shows.

    python3 bench/tutorial.py 127.0.0.1:4646               docs/TUTORIAL.md, against a server that runs there
    python3 bench/tutorial.py 127.0.0.1:4646 README.md     another page
    python3 bench/tutorial.py crates/nsd/out/nsd           the whole page by that program, its start and its log too

A server has to be a new one each time, with the secret `root`. In a block of the page whose first line is a command, each line is one,
but for those that begin by `# `: they are what the command above answers. `# ask again until it says:` above them says that they
come only after a while, within 10 seconds here. Texts that the server draws, and how many steps it made, differ each time.

What differs otherwise is printed, and the exit status is then 1.
"""

import os
import re
import select
import subprocess
import sys
import tempfile
import time

sys.dont_write_bytecode = True

from conversations import TOP

PAGE = "docs/TUTORIAL.md"
PLACE = "127.0.0.1:4646"
AGAIN = "# ask again until it says:"
DONE = "---- done ----"
SECONDS = 10
COMMAND = re.compile(r"curl |while curl |wait$|\./nsd |grep |[a-z]+=")
DRAWN = re.compile(r"[0-9a-f]{8}-[0-9a-f]{4}-4[0-9a-f]{3}-[89ab][0-9a-f]{3}-[0-9a-f]{12}")
COUNTED = re.compile(r"^(settled |premise fails at |)\d+$")


class Command:
    """A line for the shell, the lines that it has to answer, and whether that may take a while."""

    def __init__(self, line):
        self.line, self.told, self.is_again = line, [], False

    def is_told(self, lines):
        return [alike(line) for line in lines] == [alike(line) for line in self.told]


def alike(line):
    return COUNTED.sub(r"\1*", DRAWN.sub("*", line))


def read(page):
    with open(os.path.join(TOP, page), encoding="utf-8") as file:
        return file.read()


def indented(text):
    """The blocks of lines that are indented by four spaces."""
    for block in re.findall(r"(?:^(?: {4}.*)?\n)+", text, re.M):
        lines = [line[4:] for line in block.strip("\n").split("\n")]
        if any(lines):
            yield lines


def commands(lines):
    """The commands of a block. Empty: the block has no commands."""
    found = []
    for line in lines if COMMAND.match(lines[0]) else []:
        if line == AGAIN:
            found[-1].is_again = True
        elif line.startswith("# "):
            found[-1].told.append(line[2:])
        elif line:
            found.append(Command(line))
    return found


def blocks(text):
    """The blocks of commands of a page."""
    return [found for lines in indented(text) if (found := commands(lines))]


def needs_program(block):
    """Whether the block starts or ends a server, or reads a log."""
    return any("./nsd " in command.line or command.line == "wait" or command.line.endswith(".log") for command in block)


class Shell:
    """A shell that runs one line after the other."""

    def __init__(self, folder, **more):
        self.bash = subprocess.Popen(
            ["bash"],
            cwd=folder,
            env={**os.environ, **more},
            stdin=subprocess.PIPE,
            stdout=subprocess.PIPE,
            stderr=subprocess.STDOUT,
        )
        self.rest = b""

    def write(self, text):
        self.bash.stdin.write(text.encode())
        self.bash.stdin.flush()

    def line(self, until):
        """The next line. None: no line comes in time."""
        while b"\n" not in self.rest:
            left = max(0, until - time.monotonic())
            if not select.select([self.bash.stdout], [], [], left)[0]:
                return None
            more = os.read(self.bash.stdout.fileno(), 65536)
            if not more:
                return None
            self.rest += more
        line, self.rest = self.rest.split(b"\n", 1)
        return line.decode()

    def run(self, command):
        """The lines that the command prints until it ends, or until its time is over."""
        self.write(f"{command.line}\nprintf '\\n%s\\n' '{DONE}'\n")
        until, lines = time.monotonic() + 10 * SECONDS, []
        while (line := self.line(until)) != DONE:
            if line is None:
                return lines
            lines.append(line)
        # A program in the background prints later.
        while command.line.endswith("&") and len([*filter(None, lines)]) < len(command.told):
            if (line := self.line(until)) is None:
                break
            lines.append(line)
        return [*filter(None, lines)]

    def end(self):
        self.bash.stdin.close()
        self.bash.wait()


def answer(shell, command):
    """The lines that the command prints, run again for a while if it may take a while."""
    until = time.monotonic() + SECONDS
    lines = shell.run(command)
    while command.is_again and not command.is_told(lines) and time.monotonic() < until:
        time.sleep(0.05)
        lines = shell.run(command)
    return lines


def compare(shell, page, block):
    """How many commands of the block print something else than the page shows."""
    faults, early = 0, []
    for command in block:
        lines = early + answer(shell, command)
        # The loop ends with an error of curl, which is not always the same. The server may already have printed how it ended.
        if command.line.startswith("while curl "):
            early = [line for line in lines if not line.startswith("curl: ")]
            continue
        early = []
        if not command.is_told(lines):
            print("\n".join([f"{page}: {command.line}", "  is to answer", *command.told, "  and answers", *lines]))
            faults += 1
    return faults


def main(place, page=PAGE):
    is_program = os.path.exists(place)
    with tempfile.TemporaryDirectory() as folder:
        text = read(page)
        if is_program:
            os.symlink(os.path.abspath(place), os.path.join(folder, "nsd"))
        else:
            text = text.replace(PLACE, place)
        shell = Shell(folder)
        run = [block for block in blocks(text) if is_program or not needs_program(block)]
        faults = sum(compare(shell, page, block) for block in run)
        shell.end()
    print(f"{page}: {sum(map(len, run))} lines were run, {faults} differ")
    return 1 if faults else 0


if __name__ == "__main__":
    if len(sys.argv) not in (2, 3):
        sys.exit(__doc__)
    sys.exit(main(*sys.argv[1:]))
