"""The stored input and output of `crates/plays`.

Both consist of parts, in the same order. A part begins with a line `=== KIND ..`, and ends before the line feed before the next
one. Parts of the kind `serve` come first, which `bench/conversations.py` writes, then those of `bench/logs.py`, and last the
scripts, which are written by hand.
"""

import os

TOP = os.path.dirname(os.path.dirname(os.path.abspath(__file__)))
MARK = "\n=== "
WRITTEN_TOGETHER = (("serve",), ("log", "alone", "rounds"), ("script",))


def path_of(name):
    return os.path.join(TOP, "crates", "plays", name)


def is_of(part, kinds):
    return part.split(" ", 1)[0] in kinds


def stored(name, kinds):
    """The parts of these kinds in this file, without the mark."""
    with open(path_of(name), encoding="utf-8", newline="") as file:
        _, *parts = ("\n" + file.read()).split(MARK)
    return [part for part in parts if is_of(part, kinds)]


def put(name, kinds, parts):
    """Replaces the parts of these kinds in this file with these parts."""
    together = [parts if group == kinds else stored(name, group) for group in WRITTEN_TOGETHER]
    text = "".join(MARK + part for group in together for part in group)
    with open(path_of(name), "w", encoding="utf-8", newline="") as file:
        file.write(text.removeprefix("\n"))


class Parts:
    """The input of parts, and what is printed for it."""

    def __init__(self):
        self.given, self.printed = [], []

    def add(self, head, given, printed, status, errors=""):
        self.given.append(f"{head}\n{given}")
        self.printed.append(f"{head}\n{printed}\nstatus {status}\n{errors}".removesuffix("\n"))

    def put(self, kinds):
        put("stdin", kinds, self.given)
        put("stdout", kinds, self.printed)
