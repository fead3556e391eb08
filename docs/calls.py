"""Checks that each call which docs/DECISIONS.md names under "Calls by other names" stands where its table says.

    python3 docs/calls.py         the table of docs/DECISIONS.md
    python3 docs/calls.py PAGE    the table of another page, over the crates of the working directory

In the column `Here` a path comes in code format, and behind it, each in code format too, come the names that stand in that file:
`name` is a function at the margin, `Type::name` one in an `impl` or a `trait` of that type, and `Type` a struct, an enum or a trait. A file
has a name behind it; a folder, such as a crate's, stands alone. All else of a cell, as the comma between two names, is not looked at, nor
are the other two columns.

What is missing is printed, and so is a line that can't be read. Then comes `N calls, all found`, where N counts the names, or how many of
them are missing, and then the exit status is 1.
"""

import re
import sys
from functools import lru_cache
from pathlib import Path

ROOT = Path(__file__).resolve().parent.parent
PAGE = ROOT / "docs" / "DECISIONS.md"
SECTION = "## Calls by other names"
HEAD = ["Asked for", "Here", "What differs"]
NAME = re.compile(r"(?:(\w+)::)?(\w+)")
MODIFIED = r"(?:pub(?:\(\w+\))? )?(?:const |unsafe )*"
FUNCTION = re.compile(rf"(?m)^{MODIFIED}fn (\w+)")
METHOD = re.compile(rf"(?m)^ +{MODIFIED}fn (\w+)")
TYPE = re.compile(rf"(?m)^{MODIFIED}(?:struct|enum|trait) (\w+)")
# A block begins at the margin, and ends at the next brace there.
BLOCK = re.compile(rf"(?ms)^{MODIFIED}(?:impl|trait)\b([^{{]*)\{{(.*?)^\}}")


def rows_of(text):
    """The cells of each line of the section's table, without its head."""
    lines = iter(text.split("\n"))
    if SECTION not in lines:
        sys.exit(f"no section `{SECTION}`")
    rows = []
    for line in lines:
        if line.startswith("## "):
            break
        if line.startswith("|"):
            rows.append([cell.strip() for cell in line.strip().strip("|").split("|")])
    if rows[:1] != [HEAD] or len(rows) < 3:
        sys.exit(f"no table with the head {' | '.join(HEAD)}")
    return rows[2:]


def owner_of(head):
    """The type of an `impl`, or the name of a trait: `<L: Ledger> Seated for SharedSeat<'_, L>` gives `SharedSeat`."""
    head, nested = head.replace("->", ""), None
    while nested != head:
        nested, head = head, re.sub(r"<[^<>]*>", "", head)
    found = re.match(r"\s*(?:\S+ for )?&?(\w+)", head)
    return found[1] if found else None


@lru_cache(maxsize=None)
def names_in(file):
    """All that a file has, each as the table names it."""
    text = file.read_text(encoding="utf-8")
    names = set(FUNCTION.findall(text)) | set(TYPE.findall(text))
    for head, body in BLOCK.findall(text):
        names |= {f"{owner_of(head)}::{name}" for name in METHOD.findall(body)}
    return names


def faults_of(top, row):
    """What is wrong with a line of the table, and how many names it has."""
    if len(row) != len(HEAD) or not all(row):
        return [f"not three cells: {' | '.join(row)}"], 0
    asked, here, _ = row
    faults, places = [], []
    for code in re.findall(r"`([^`]*)`", here):
        if "/" in code:
            places.append((code, []))
        elif places and NAME.fullmatch(code):
            places[-1][1].append(code)
        else:
            faults.append(f"{asked}: `{code}` is no path, and no name behind one")
    for path, names in places:
        file = top / path
        if not file.exists():
            faults.append(f"{asked}: no {path}")
        elif file.is_file() and not names:
            faults.append(f"{asked}: no name behind {path}")
        known = names_in(file) if file.is_file() else set()
        faults += [f"{asked}: no {name} in {path}" for name in names if name not in known]
    if not places:
        faults.append(f"{asked}: no path")
    return faults, sum(len(names) for _, names in places)


def main():
    words = sys.argv[1:]
    if len(words) > 1 or words and words[0].startswith("-"):
        sys.exit(__doc__)
    page, top = (Path(words[0]), Path.cwd()) if words else (PAGE, ROOT)
    missing, calls = [], 0
    for row in rows_of(page.read_text(encoding="utf-8")):
        faults, count = faults_of(top, row)
        missing += faults
        calls += count
    for fault in missing:
        print(fault)
    print(f"{calls} calls, {len(missing)} missing" if missing else f"{calls} calls, all found")
    return 1 if missing else 0


if __name__ == "__main__":
    sys.exit(main())
