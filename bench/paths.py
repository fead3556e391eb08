"""Compares the table of paths in docs/API.md with the definition that the program's own table is proved to follow.

    python3 bench/paths.py   prints each path and method that only one of them has; the exit status is 0 if there is none

The definition is `pattern_of` and `methods_of` in `crates/ns_request/specs/Endpoints.antt`. The rows of the page are those that begin
with a path in code quotes and go on with its methods. `POST` and `PUT` are one method there: a write.
"""

import pathlib
import re
import sys

TOP = pathlib.Path(__file__).resolve().parent.parent
DEFINED = TOP / "crates/ns_request/specs/Endpoints.antt"
PAGE = TOP / "docs/API.md"
WORDS = {"GET": "get", "POST": "write", "PUT": "write", "DELETE": "delete"}


def defined():
    """Each path of the definition with each method that it has."""
    text = DEFINED.read_text(encoding="utf-8")
    patterns = dict(re.findall(r'^pattern_of Endpoint\.(\w+) = codes "([^"]+)"$', text, re.M))
    methods = dict(re.findall(r"^methods_of Endpoint\.(\w+) = (\w+)$", text, re.M))
    sets = {name: re.findall(r"(\w+) = true", body) for name, body in re.findall(r"^(\w+) = record \{([^}]*)\}$", text, re.M)}
    if not patterns or patterns.keys() != methods.keys():
        sys.exit(f"{DEFINED.name}: the table was not found, or not each path has its methods")
    return {(re.sub(r"\{(\w+)\}", r":\1", path), method) for name, path in patterns.items() for method in sets[methods[name]]}


def shown():
    """Each path of the page with each method that its row names."""
    found = set()
    for paths, methods in re.findall(r"^\| (`/v1/[^|]*) \| (`[A-Z][^|]*) \|", PAGE.read_text(encoding="utf-8"), re.M):
        words = re.findall(r"`(\w+)`", methods)
        if ("POST" in words) != ("PUT" in words):
            sys.exit(f"docs/API.md: {paths} has one of POST and PUT")
        for path in re.findall(r"`([^`]+)`", paths):
            for word in words:
                found.add((path, WORDS[word]))
    return found


def main():
    here, there = defined(), shown()
    for path, method in sorted(here - there):
        print(f"docs/API.md lacks {method} of {path}")
    for path, method in sorted(there - here):
        print(f"docs/API.md has {method} of {path}, which no path has")
    sys.exit(1 if here != there else 0)


main()
