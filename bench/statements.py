"""Compares what two commits state: contracts, definitions, laws and stored lines.

    python3 bench/statements.py REV [REV]            what the second commit, or the work tree, states differently from the first
    python3 bench/statements.py --moved REV [REV]    the same if crates were merged: a statement is named without its crate, and
                                                     of a path only the last name counts

A statement is a function's signature with its clauses, a type's declaration, a definition of `specs`, or a section of a stored input
or output. Each is named by its crate and its name, not by its file, so that a mere move is no change. It prints a line for each
statement that is gone, new or changed, and last the counts. Proofs, bodies and comments are no statements.
"""

import collections
import os
import re
import subprocess
import sys

TOP = os.path.dirname(os.path.dirname(os.path.abspath(__file__)))
ITEM = re.compile(r"^\s*(pub(\([a-z]+\))? )?(const |unsafe )?(fn|struct|enum|trait|impl|ghost)\b")
CLAUSE = re.compile(r"^\s*(ensures|requires)\b")
ENDS = ("{", "}", ";")


def files_of(rev):
    """The files of the commit, or of the work tree, by path."""
    if rev is None:
        listed = subprocess.run(["git", "ls-files"], cwd=TOP, capture_output=True, text=True, check=True).stdout.split("\n")
        paths = [it for it in listed if is_read(it) and os.path.isfile(f"{TOP}/{it}")]
        return {it: open(f"{TOP}/{it}", encoding="utf-8", newline="").read() for it in paths}
    listed = subprocess.run(["git", "ls-tree", "-r", rev], cwd=TOP, capture_output=True, text=True, check=True).stdout.split("\n")
    blobs = [(line.split()[2], line.split("\t")[1]) for line in listed if line and is_read(line.split("\t")[1])]
    asked = "".join(f"{blob}\n" for blob, _ in blobs).encode()
    given = subprocess.run(["git", "cat-file", "--batch"], cwd=TOP, input=asked, capture_output=True, check=True).stdout
    files, at = {}, 0
    for _, path in blobs:
        line = given.index(b"\n", at)
        size = int(given[at:line].split()[2])
        files[path] = given[line + 1 : line + 1 + size].decode("utf-8")
        at = line + 2 + size
    return files


def is_read(path):
    parts = path.split("/")
    return parts[0] == "crates" and (path.endswith(".rt") or parts[2] == "specs" or parts[2] in ("stdin", "stdout"))


def bare(text):
    """The text without comments, layout and the attributes that are no statements."""
    lines = [re.sub(r"^\s*(//|--|#\[|ghost use |use ).*", "", line) for line in text.split("\n")]
    return [line for line in lines if line.strip()]


def rust_statements(crate, text):
    """The signatures with their clauses, and the declarations of types, of a source file."""
    lines, found, within = bare(text), [], ""
    at = 0
    while at < len(lines):
        head = ITEM.match(lines[at])
        if not head:
            at += 1
            continue
        taken, kind = [lines[at]], head.group(4)
        while not is_whole(kind, taken) and at + 1 < len(lines):
            at += 1
            if lines[at].strip() in ("{", "{}"):
                break
            taken.append(lines[at])
        statement = " ".join(" ".join(taken).split())
        if kind in ("impl", "trait"):
            within = statement.rstrip(" {")
        elif kind in ("struct", "enum") and lines[at].rstrip().endswith("{"):
            while at + 1 < len(lines) and lines[at].strip() != "}":
                at += 1
                statement += " " + " ".join(lines[at].split())
        outer = within if kind in ("fn", "ghost") and lines[at].startswith("    ") else ""
        found.append((f"{crate}: {outer} {statement}".replace("  ", " ").rstrip(" {")))
        at += 1
    return found


def is_whole(kind, taken):
    """Whether the last of these lines ends the statement, or opens its body. A clause may take several lines, and a body opens
    on its own line after the clauses."""
    line, text = taken[-1].rstrip(), " ".join(taken)
    if kind == "ghost" or kind == "fn" and any(CLAUSE.match(it) for it in taken):
        return line.endswith(";") and text.count("{") == text.count("}")
    return line.endswith(ENDS)


def definitions(crate, text):
    """The definitions of a file of `specs`, each from its first line to the next one that is not indented."""
    found, taken = [], []
    for line in [re.sub(r"\s*--.*", "", it) for it in text.split("\n")]:
        if line[:1].strip() and taken:
            found.append(" ".join(taken))
            taken = []
        if line.strip() and not line.startswith(("use ", "pub use ", "pub mod ", "mod ")):
            taken.append(" ".join(line.split()))
    return [f"{crate}: {it}" for it in [*found, *([" ".join(taken)] if taken else [])]]


def sections(crate, kind, text):
    """The sections of stored lines, without the word for their kind."""
    return [f"stored {kind}: " + re.sub(r"^(serve|log|script) ", "", it) for it in ("\n" + text).split("\n=== ")]


def statements(rev):
    found = collections.Counter()
    for path, text in files_of(rev).items():
        _, crate, part = path.split("/")[:3]
        if part in ("stdin", "stdout"):
            found.update(sections(crate, part, text))
        elif path.endswith(".antt"):
            found.update(definitions(crate, text))
        elif not crate.endswith("_tests"):
            found.update(rust_statements(crate, text))
    return found


def moved(found):
    """The statements without their crates. Of a path only the last name is left."""
    told = collections.Counter()
    for it, count in found.items():
        told[re.sub(r"\b(?:\w+::)+(?=\w)", "", it.split(": ", 1)[1])] += count
    return told


def main():
    asked = sys.argv[1:]
    is_moved = asked[:1] == ["--moved"]
    first, second = (asked[is_moved:] + [None])[:2]
    before, after = statements(first), statements(second)
    if is_moved:
        before, after = moved(before), moved(after)
    gone, new = before - after, after - before
    for mark, which in (("-", gone), ("+", new)):
        for it in sorted(which):
            print(mark, it[:300].replace("\n", "\\n"))
    print(f"{sum(before.values())} statements before, {sum(after.values())} after; {sum(gone.values())} gone or changed, {sum(new.values())} new or changed")


main()
