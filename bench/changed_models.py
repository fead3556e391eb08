"""Changes the definitions of the model, one place at a time, and prints the changes that no law notices.

    python3 bench/changed_models.py 300               300 changes, drawn with a fixed seed from all that it can make
    python3 bench/changed_models.py --seed 7 300      others
    python3 bench/changed_models.py --list 300        prints them, and checks none

A change turns a test around, swaps `and` with `or` or `<` with `<=`, takes the next status of the same kind, adds one to a number,
empties a member, leaves a filter out, or says of something that it is itself in place of what it is, in one line of
`crates/ns_types/specs`. The definitions, the lemmas and the laws are copied into a folder of their own, and all laws of `ns_laws`
are checked there from their source, over each change by itself. The check ends at the first proof that fails, after some 50
seconds; the first check, over the definitions as they are, takes some minutes. RT_JOBS says how many run side by side.

A change that is printed leaves all laws proved: either it means the same as before, or the laws have a hole. Reading tells which. A
change that is refused is no sign that a law is false over it: the proof looks at the definition, and that is all. Prints last how
many were refused, how many left no definition, and how many no law noticed; the exit status is 1 if a check gave no verdict.
"""

import argparse
import collections
import concurrent.futures
import os
import pathlib
import random
import re
import shutil
import subprocess
import sys
import tempfile

import wrong_bodies
import wrong_models

SPECS = f"crates/{wrong_models.CHANGED}/specs"
PRELUDE = "use Rattle.std.specs.Prelude.{{{}}}"
SKIPPED = ("use ", "abbrev ", "unfoldable ", "--", "module", "pub ")

# What stands on the right side of a definition, and what takes its place.
SWAPS = [
    (r" && ", " || "), (r" \|\| ", " && "), (r"\bnot \(", "("), (r"\bif (.+?) then", r"if not (\1) then"),
    (r"(?<![\w.])true(?![\w.])", "false"), (r"(?<![\w.])false(?![\w.])", "true"),
    (r"\bnat_lt\b", "nat_le"), (r"\bnat_le\b", "nat_lt"), (r" \+ 1\b", " + 2"), (r" - 1\b", " - 2"),
    (r"^filter \(.*\) (\S+)$", r"\1"), (r"\b(?:first_each \S+|sorted_names|reverse) ", ""),
    (r"(\S+) \+\+ (\S+|\([^()]*\)) ∷ \[\]", r"\2 ∷ \1"),
    (r"\(([^()≡]+) ≡ [^()≡]+\)", r"(\1 ≡ \1)"), (r" < ", " ≤ "), (r" ≤ ", " < "),
]
# A line of a record that gives a member its value, and what it would be without one.
MEMBER = re.compile(r"( +)(\w+) = (.+);$")
EMPTY = {
    "0": "create_index modify_index version nacks tries place places evaluation_number allocation_number index release priority",
    "None": "previous follower quota kept",
    "[]": "infeasible stops committed dropped victims made placements evictions",
    "false": "stop escapes has_dropped has_committed is_refused feasible",
}
# What a changed line may need of std that its file does not name yet.
WORDS = {"||": "◌||◌", "&&": "◌&&◌", "∷": "◌∷◌", "<": "◌<◌", "≤": "◌≤◌"}
WORDS |= {word: word for word in ("[]", "not", "nat_le", "nat_lt", "None", "true", "false")}

Change = collections.namedtuple("Change", "file line old new")


def variants():
    """The variants without a value of each enum of the model, by its name."""
    found = {}
    for file in pathlib.Path(f"crates/{wrong_models.CHANGED}/src").glob("*.rt"):
        for name, body in re.findall(r"pub enum (\w+) \{(.*?)\n\}", file.read_text(), re.S):
            found[name] = re.findall(r"^ +(\w+),$", body, re.M)
    return found


def swapped(right):
    """The right side of a definition, with one of the swaps in one place."""
    for pattern, other in SWAPS:
        for place in re.finditer(pattern, right):
            yield right[: place.start()] + place.expand(other) + right[place.end() :]


def renamed(right, enums):
    """The same with the next variant in the place of one."""
    for place in re.finditer(r"\b(\w+)\.(\w+)\b", right):
        names = enums.get(place[1], [])
        if place[2] in names and len(names) > 1:
            following = names[(names.index(place[2]) + 1) % len(names)]
            yield right[: place.start(2)] + following + right[place.end() :]


def emptied(line):
    """A line of a record whose member has no value."""
    member = MEMBER.match(line)
    for empty, names in EMPTY.items():
        if member and member[2] in names.split() and member[3] != empty:
            yield f"{member[1]}{member[2]} = {empty};"
    number = re.fullmatch(r"(\w.* = |  +\w+ = )(\d+)(;?)", line)
    if number:
        yield f"{number[1]}{int(number[2]) + 1}{number[3]}"


def changes():
    """Every change that can be made, in the order of the files."""
    enums = variants()
    for file in sorted(pathlib.Path(SPECS).rglob("*.antt")):
        for place, line in enumerate(file.read_text().split("\n")):
            head = re.match(r"\S.*? = ", line)
            if line.startswith(SKIPPED) or line.strip().startswith(("--", "pub ")) or not (head or line.startswith(" ")):
                continue
            left, right = (line[: head.end()], line[head.end() :]) if head else ("", line)
            others = [*(left + it for it in swapped(right)), *(left + it for it in renamed(right, enums)), *emptied(line)]
            yield from (Change(str(file), place, line, other) for other in dict.fromkeys(others) if other != line)


def shown(change):
    return f"{change.file}:{change.line + 1}\n  {change.old.strip()}\n  {change.new.strip()}"


def make(change, tree):
    """Makes the change in the tree, and names what it needs."""
    file = pathlib.Path(tree, change.file)
    lines = file.read_text().split("\n")
    lines[change.line] = change.new
    uses = "\n".join(line for line in lines if line.startswith("use "))
    words = set(re.findall(r"\|\||&&|[∷<≤]|\[\]|\w+", change.new))
    lacking = [name for word, name in WORDS.items() if word in words and not re.search(rf"[{{ ]{re.escape(name)}[,}}]", uses)]
    if lacking:
        first = next(place for place, line in enumerate(lines) if line.startswith("use "))
        lines.insert(first, PRELUDE.format(", ".join(lacking)))
    file.write_text("\n".join(lines))


def copied(source, target):
    """Copies what was checked before: the checker replaces such a file, and changes none."""
    return os.link(source, target) if source.endswith(".oantt") else shutil.copy2(source, target)


def verdict(change, room, number):
    """`refused`, `no definition`, `unnoticed`, or the last line of a check that says none of these."""
    own = f"{room}/{number}"
    shutil.copytree(f"{room}/kept", f"{own}/kept", copy_function=copied)
    shutil.copytree(f"{room}/tree", f"{own}/tree")
    make(change, f"{own}/tree")
    words = [*wrong_models.command(f"{own}/tree", f"{own}/kept", []), "--jobs", "1"]
    last, found = "", None
    with subprocess.Popen(words, cwd=f"{own}/tree", stdout=subprocess.PIPE, stderr=subprocess.STDOUT, text=True) as check:
        for last in check.stdout:
            if ": error" in last:
                found = "no definition" if change.file in last else "refused"
                check.kill()
                break
    shutil.rmtree(own)
    if last.startswith("logic=not-proved"):
        found = "refused"
    return found or ("unnoticed" if check.returncode == 0 else last)


def try_all(chosen, room):
    wrong_models.copy(f"{room}/tree")
    os.makedirs(f"{room}/kept")
    words = [*wrong_models.command(f"{room}/tree", f"{room}/kept", []), "--jobs", str(os.cpu_count())]
    check = subprocess.run(words, cwd=f"{room}/tree", capture_output=True, text=True)
    if check.returncode:
        print(f"the laws are not proved as they stand:\n{check.stdout[-2000:]}")
        return 1
    counts = collections.Counter()
    with concurrent.futures.ThreadPoolExecutor(int(os.environ.get("RT_JOBS") or os.cpu_count())) as pool:
        for change, found in zip(chosen, pool.map(lambda it: verdict(chosen[it], room, it), range(len(chosen)))):
            known = found in ("refused", "no definition", "unnoticed")
            counts[found if known else "no verdict"] += 1
            if found not in ("refused", "no definition"):
                print(f"{shown(change)}\n  {found.strip()}", flush=True)
    print(", ".join(f"{counts[it]} {it}" for it in ("refused", "no definition", "unnoticed", "no verdict")))
    return 1 if counts["no verdict"] else 0


def main():
    os.chdir(wrong_bodies.TOP)
    words = argparse.ArgumentParser()
    words.add_argument("--seed", type=int, default=1)
    words.add_argument("--list", action="store_true")
    words.add_argument("count", type=int)
    words = words.parse_args()
    made = list(changes())
    chosen = random.Random(words.seed).sample(made, min(words.count, len(made)))
    if words.list:
        for change in chosen:
            print(shown(change))
        print(f"{len(chosen)} of {len(made)} changes")
        return 0
    with tempfile.TemporaryDirectory(prefix="changed-models-") as room:
        return try_all(chosen, room)


if __name__ == "__main__":
    sys.exit(main())
