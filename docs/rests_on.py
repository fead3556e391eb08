"""Lists the definitions that a law rests on, by name and file.

    python3 docs/rests_on.py ns_audit::laws::struck_run ns_pipe::connection::pipe
    python3 docs/rests_on.py --unused crates/ns_types/specs ns_audit::laws::struck_run ns_pipe::connection::pipe
    python3 docs/rests_on.py --check docs/READING.md ns_audit::laws::struck_run ns_pipe::connection::pipe
    python3 docs/rests_on.py --unused crates/ns_types/specs ns_laws

A law is a function, given by its crate, its module and its name; a crate by itself stands for all its public functions. What
is listed is what its `ensures` and `requires` name, what the definitions of these names name, and so on: definitions in
`specs`, and the Rust types that they speak of with the `impl Model` that says what a contract sees of a type. The search ends
at std and the crates of the kit, whose words come last. With `--unused FOLDER` the definitions in that folder follow on which
none of the laws rests. With `--check PAGE` the rows of the page's tables, each of a file, its lines and the letters of the laws
(`a` the first, `b` the second) that rest on it, are compared with what was found; of a file of Rust the lines of its types are
counted. `--write` in place of `--check` also mends the numbers and letters of the rows that are there.

Names are resolved by the `use` lines of each file. A bound variable that has the name of a definition counts as that
definition, so a list may be too long. What an `impl` gives for a ghost member of a trait is not followed, and proofs are not
read: the prover judges those.
"""

import re
import signal
import sys
from collections import defaultdict
from functools import lru_cache
from pathlib import Path

ROOT = Path(__file__).resolve().parent.parent
CRATES = ROOT / "crates"
WORD = r"[^\W\d][\w']*"
TOKEN = re.compile(rf"{WORD}(?:\.{WORD})*|[^\s\w(){{}}\[\];,.]+")
ANTT_HEAD = re.compile(rf"(?:(?:abbrev|unfoldable|pub|record|data)\s+)*({WORD}|[◌\S]*◌[◌\S]*)(?=[\s({{:]|$)")
RUST_HEAD = re.compile(rf"(?:pub(?:\(\w+\))?\s+)?(?:struct|enum|const|trait|type)\s+({WORD})")
RUST_MODEL = re.compile(rf"impl\b[^{{]*?\bModel for ({WORD})")


class Item:
    """A definition, or a Rust type or constant: its lines in a file, and the text in which it names others."""

    def __init__(self, file, name, lines, text):
        self.file, self.name, self.lines, self.text = file, name, lines, text


class Source:
    """A file: its items by name, the lines that its `use` lines and items take, and what each name stands for."""

    def __init__(self):
        self.items, self.aliases, self.length = {}, {}, 0


def without_comments(text, mark):
    return re.sub(rf"{mark}[^\n]*", "", text)


def used_names(text, keyword):
    """Gives each `use` as a path, the name in it (None: the whole module), and the local name."""
    use = rf"(?m)^\s*{keyword}\s+([\w.]+?)(?:\.\{{([^}}]*)\}})?(?:\s+as\s+(\S+?))?;?\s*$"
    for path, names, alias in re.findall(use, text):
        if not names:
            yield path, None, alias or path.split(".")[-1]
        for name in filter(None, (part.strip() for part in names.split(","))):
            old, _, new = name.partition(" as ")
            yield path, old.strip(), (new or old).strip()


@lru_cache(maxsize=None)
def antt_source(file):
    """The items begin at the margin, or two columns in for each `module` or `mutual` in which they stand."""
    source, text = Source(), without_comments(file.read_text(), "--")
    source.length = text.count("\n")
    for path, name, local in used_names(text, "use"):
        source.aliases[local] = (path, name)
    margins, current = [""], None
    uses = r"(?m)^use [^\n{]*(?:\{[^}]*\}[^\n]*)?$"
    lines = re.sub(uses, lambda use: "\n" * use[0].count("\n"), text).split("\n")
    for number, line in enumerate(lines, 1):
        indent = re.match(" *", line)[0]
        if re.match(r"\s*module |(?:\w+ )?mutual$", line):
            margins, current = [margin for margin in margins if margin <= indent] + [indent + "  "], None
        elif line.strip() and not re.match("pub mod |infix", line):
            margins = [margin for margin in margins if margin <= indent]
            margin = margins[-1]
            if line.startswith(margin) and not line[len(margin)].isspace():
                head = ANTT_HEAD.match(line[len(margin):])
                if head and (current is None or head[1] != current.name):
                    current = source.items.get(head[1]) or Item(file, head[1], [number, number], "")
                    source.items.setdefault(head[1], current)
            if current:
                current.lines[1] = number
                current.text += line + "\n"
    for item in list(source.items.values()):
        if re.match(r"\s*(?:pub )?data\b", item.text):
            for names in re.findall(rf"(?m)^ +((?:{WORD} +)+):", item.text):
                for name in names.split():
                    source.items.setdefault(name, item)
    return source


@lru_cache(maxsize=None)
def rust_source(file):
    """Structs, enums, constants and traits, each with its `impl Model`. The items end at a closing brace at the margin."""
    source, text = Source(), without_comments(file.read_text(), "//")
    lines = text.split("\n")
    source.length = len(lines) - 1
    for path, name, local in used_names(re.sub(r"(?m)^\s+(?=ghost use)", "", text), "ghost use"):
        source.aliases[local] = (path, name)
    for path, name, local in used_names(text.replace("::", "."), "(?:pub )?use"):
        if name is None and "." in path:
            path, name = path.rsplit(".", 1)
        source.aliases[local] = (path, name)
    for number, line in enumerate(lines, 1):
        head = RUST_HEAD.match(line) or RUST_MODEL.match(line)
        if not head:
            continue
        last = number
        while not re.search(r"[;}]\s*$" if last == number else r"^\}|^\)?;", lines[last - 1]):
            last += 1
        block = re.sub(r"(?m)^\s*ghost use.*$", "", "\n".join(lines[number - 1:last]))
        if head[1] in source.items:
            source.items[head[1]].text += block
            source.items[head[1]].models = (number, last)
        else:
            source.items[head[1]] = Item(file, head[1], [number, last], block)
    return source


def source_of(file):
    return antt_source(file) if file.suffix == ".antt" else rust_source(file)


def rust_file(crate, parts):
    """The file of a module, or of the crate where there are no parts."""
    base = CRATES / crate / "src"
    found = [base / "/".join(parts[:-1]) / f"{parts[-1]}.rt", base / "/".join(parts) / "mod.rt"] if parts else [
        base / "lib.rt", base / "main.rt"]
    return next((file for file in found if file.exists()), None)


def resolve(file, path, name, depth=0):
    """What a `use` means: an item of the repository, or the words of a trusted crate."""
    parts = path.split(".")
    if parts[0] == "crate":
        parts[0] = file.relative_to(CRATES).parts[0]
    if parts[0] == "Rattle":
        parts = parts[1:]
    crate = parts[0]
    if file.suffix == ".rt" and not (CRATES / crate).exists():
        own = file.relative_to(CRATES).parts[0]
        if rust_file(own, parts):
            return item_in(rust_file(own, parts), name, depth)
    if not (CRATES / crate).exists():
        return f"{'.'.join(part for part in parts if part != 'specs')}: {name or '(module)'}"
    if "specs" in parts:
        parts = parts[parts.index("specs") + 1:]
        if parts[:1] == ["declared"]:
            parts = parts[1:]
            if parts[-1] == "TheConstants":
                return item_in(rust_file(crate, parts[:-1]), name, depth)
            parts = parts[:-1] if parts[-1] == "TheVariants" else parts
            return item_in(rust_file(crate, parts[:-1]), parts[-1], depth)
        target = CRATES / crate / "specs" / ("/".join(parts) + ".antt")
        return item_in(target if target.exists() else None, name, depth)
    return item_in(rust_file(crate, parts[1:]), name, depth)


def item_in(file, name, depth=0):
    if file is None or name is None or depth > 4:
        return None
    source = source_of(file)
    if name in source.items:
        return source.items[name]
    if name in source.aliases:
        return resolve(file, *source.aliases[name], depth + 1)
    return None


def named_in(file, text):
    """What the words of a text stand for in a file: by its own items, and by its `use` lines."""
    source = source_of(file)
    tokens = set(TOKEN.findall(text))
    words = {part for token in tokens for part in (token.split(".")[0], token)}
    operators = {name: [part for part in name.split("◌") if part] for name in source.aliases if "◌" in name}
    for name, parts in operators.items():
        if any(part in tokens for part in parts) or (name == "◌>>=◌" and "do" in tokens):
            words.add(name)
    found = set()
    for word in words:
        first, _, rest = word.partition(".")
        if word in source.items:
            found.add(source.items[word])
        elif word in source.aliases:
            found.add(resolve(file, *source.aliases[word]))
        elif rest and first in source.aliases and source.aliases[first][1] is None:
            found.add(resolve(file, source.aliases[first][0], rest.split(".")[0]))
    return found - {None}


def law(spelled):
    """The file of a law, and its signature with its clauses."""
    crate, *modules, name = spelled.split("::")
    file = rust_file(crate, modules)
    text = without_comments(file.read_text(), "//") if file else ""
    head = re.search(rf"(?m)^\s*(?:pub )?fn {name}\b", text)
    if not head:
        sys.exit(f"{spelled}: no such function")
    end = re.compile(r"(?m)^\s*\{(?!.*\}\s*$)|^\{\}").search(text, head.end())
    return file, text[head.start():end.start()]


def laws_of(crate):
    """The public functions of a crate, as laws."""
    top = CRATES / crate / "src"
    for file in sorted(top.rglob("*.rt")):
        modules = [part for part in file.relative_to(top).with_suffix("").parts if part not in ("lib", "mod")]
        for name in re.findall(r"(?m)^pub fn (\w+)", file.read_text()):
            yield "::".join([crate, *modules, name])


def rests_on(laws):
    waiting = [item for file, text in map(law, laws) for item in named_in(file, text)]
    found, trusted = set(), set()
    while waiting:
        item = waiting.pop()
        if isinstance(item, str):
            trusted.add(item)
        elif item not in found:
            found.add(item)
            waiting.extend(named_in(item.file, item.text))
    return found, trusted


def grouped(items):
    by_file = defaultdict(list)
    for item in items:
        by_file[item.file].append(item)
    return by_file


def lines_of(items):
    spans = {span for item in items for span in (tuple(item.lines), getattr(item, "models", None)) if span}
    return sum(last - first + 1 for first, last in spans)


def show(title, items):
    by_file = grouped(items)
    total = sum(source_of(file).length for file in by_file)
    print(f"{title}: {len(by_file)} files of {total} lines\n")
    for file in sorted(by_file):
        names = sorted(by_file[file], key=lambda item: item.lines)
        print(f"{file.relative_to(ROOT)}: {source_of(file).length} lines, {lines_of(names)} of them in {len(names)} items")
        for item in names:
            model = getattr(item, "models", None)
            print(f"    {item.lines[0]}-{item.lines[1]} {item.name}" + (f", model {model[0]}-{model[1]}" if model else ""))
    print()


def check(page, laws, mends):
    """Prints each row that is missing, or has another number or other letters, and says whether there was none."""
    wanted = {}
    for letter, one in zip("abcdefgh", laws):
        for file, items in grouped(rests_on([one])[0]).items():
            before = wanted.get(file, ("", set()))
            wanted[file] = (before[0] + letter, before[1] | set(items))
    text, right = page.read_text(), True
    row = r"(?m)^\| `(\S+\.(?:antt|rt))` \| (\d+ \| \w+) \|"
    rows = {CRATES / path: cells for path, cells in re.findall(row, text)}
    for file in sorted(rows.keys() | wanted.keys()):
        letters, items = wanted.get(file, ("none", set()))
        lines = lines_of(items) if file.suffix == ".rt" else source_of(file).length if items else 0
        path, cells = f"| `{file.relative_to(CRATES)}` |", f"{lines} | {letters}"
        if rows.get(file) != cells:
            right = False
            print(f"{path} {cells} | on the page: {rows.get(file, 'no row')}")
            text = text.replace(f"{path} {rows.get(file)} |", f"{path} {cells} |")
    if mends:
        page.write_text(text)
    return right


def main():
    signal.signal(signal.SIGPIPE, signal.SIG_DFL)
    words, option, place = sys.argv[1:], None, None
    if words[:1] in (["--unused"], ["--check"], ["--write"]) and len(words) > 2:
        option, place, words = words[0], Path(words[1]).resolve(), words[2:]
    if not words or words[0].startswith("-"):
        sys.exit(__doc__)
    words = [law for word in words for law in ([word] if "::" in word else laws_of(word))]
    if option in ("--check", "--write"):
        sys.exit(0 if check(place, words, option == "--write") else 1)
    found, trusted = rests_on(words)
    show("Definitions", [item for item in found if item.file.suffix == ".antt"])
    show("Rust types", [item for item in found if item.file.suffix == ".rt"])
    if place:
        items = {item for file in place.rglob("*.antt") for item in antt_source(file).items.values()}
        show(f"On these of {place.relative_to(ROOT)} none rests", items - found)
    print("Words of std and of the kit's crates")
    by_module = defaultdict(set)
    for word in trusted:
        module, _, name = word.partition(": ")
        by_module[module].add(name)
    for module in sorted(by_module):
        print(f"    {module}: {' '.join(sorted(by_module[module]))}")


if __name__ == "__main__":
    main()
