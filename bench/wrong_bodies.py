"""Tries the wrong bodies `wrong-bodies/CRATE/*.edit`, as the gate tries its own: the prover has to refuse each.

    python3 bench/wrong_bodies.py                those that changed since they were last tried, or whose crate or one below did
    python3 bench/wrong_bodies.py ns_work_log keyed  every one of these crates
    python3 bench/wrong_bodies.py --anew         every one, even if rt keeps the result of an earlier run on this machine
    python3 bench/wrong_bodies.py --standing     proves nothing, and takes a second: checks that each can be read and applied,
                                                 also those of the gate in `crates/CRATE/must-fail`

It copies the crates to be tried and those below them, as the files that git tracks stand in the work tree, into a folder of its own.
There `rt ci` tries them as if they were the gate's. It takes what a run of the gate proved on this machine, so after `rt ci` here each
crate is proved once more, for its edits, and no crate for those above it. RT_JOBS says how many run side by side.

`wrong-bodies/TRIED` has a line for each edit that was refused, with a sum of the edit, of its crate and of all crates below it.
It is written after each round of some crates. A refusal that, as rt says, shows little of a contract gives no line: such an
edit has to be mended. The edits that were not refused are printed with the reason, then `N refused, M not` over all edits; the
exit status is 0 if M is 0.
"""

import functools
import glob
import hashlib
import os
import re
import shutil
import signal
import subprocess
import sys
import tempfile

TOP = os.path.dirname(os.path.dirname(os.path.abspath(__file__)))
BODIES = "wrong-bodies"
TRIED = f"{BODIES}/TRIED"
LIST = "crates.txt"
PARTS = ("src", "specs", "proofs")
NAME = re.compile(r"[A-Za-z0-9_-][A-Za-z0-9_.-]*\.edit")
SAID = re.compile(r"rt: must-fail (\w+)/(\S+)\.edit: (.*)")
REFUSED = "refused, as it must be"
SAYS_LITTLE = f"{REFUSED} (only "
# A round ends with the crate that brings it to this many edits: enough for the processors, few enough to lose by a run that is cut off.
ROUND = 48
# How many of rt's last lines are shown where it fails.
LAST = 40


@functools.cache
def listed():
    """Each crate's line of crates.txt, lowest first."""
    with open(LIST, encoding="utf-8") as file:
        lines = [line.strip() for line in file]
    return {line.partition(":")[0].split()[0]: line for line in lines if line and not line.startswith("#")}


@functools.cache
def with_below(crate):
    """The crate and all crates that it stands on, without the libraries of the toolchain."""
    found = {crate}
    for word in listed()[crate].partition(":")[2].split():
        if word in listed():
            found |= with_below(word)
    return found


@functools.cache
def tracked():
    """For each crate the files that git tracks and that exist, without its wrong bodies."""
    found = {crate: [] for crate in listed()}
    ran = subprocess.run(["git", "ls-files", "-z", "crates"], check=True, capture_output=True, text=True)
    for path in sorted({*ran.stdout.split("\0")} - {""}):
        _, crate, part = (path + "//").split("/")[:3]
        if crate in found and part != "must-fail" and os.path.isfile(path):
            found[crate].append(path)
    return found


def bytes_of(path):
    with open(path, "rb") as file:
        return file.read()


@functools.cache
def sum_of_crate(crate):
    """A sum of what a proof of the crate reads: its line, and each file of src, specs and proofs."""
    files = [path for path in tracked()[crate] if path.split("/")[2] in PARTS]
    return hashlib.sha256(repr((listed()[crate], [(path, bytes_of(path)) for path in files])).encode()).hexdigest()


def crate_of(edit):
    return edit.partition("/")[0]


def sum_of(edit):
    """A sum of the edit, of its crate and of the crates below."""
    crates = sorted(with_below(crate_of(edit)))
    made = (bytes_of(f"{BODIES}/{edit}.edit"), [sum_of_crate(crate) for crate in crates])
    return hashlib.sha256(repr(made).encode()).hexdigest()[:16]


def edits():
    """The wrong bodies outside the gate, as CRATE/NAME."""
    found = glob.glob(f"{BODIES}/*/*.edit")
    return sorted(path.removeprefix(f"{BODIES}/").removesuffix(".edit") for path in found)


def read_tried():
    """The sums at which edits were refused."""
    if not os.path.isfile(TRIED):
        return {}
    with open(TRIED, encoding="utf-8") as file:
        lines = [line.split() for line in file]
    return {line[0]: line[1] for line in lines if len(line) == 3 and line[2] == "refused"}


def write_tried(tried):
    with open(f"{TRIED}.new", "w", encoding="utf-8") as file:
        file.writelines(f"{edit} {made} refused\n" for edit, made in sorted(tried.items()))
    os.replace(f"{TRIED}.new", TRIED)


def copy(crates, chosen, to):
    """Copies only these crates, with the chosen edits in place of their own."""
    for crate in crates:
        for path in tracked()[crate]:
            os.makedirs(os.path.dirname(f"{to}/{path}"), exist_ok=True)
            shutil.copyfile(path, f"{to}/{path}")
    for edit in chosen:
        crate, _, name = edit.partition("/")
        os.makedirs(f"{to}/crates/{crate}/must-fail", exist_ok=True)
        shutil.copyfile(f"{BODIES}/{edit}.edit", f"{to}/crates/{crate}/must-fail/{name}.edit")
    with open(f"{to}/{LIST}", "w", encoding="utf-8") as file:
        file.writelines(f"{line}\n" for crate, line in listed().items() if crate in crates)
    if os.path.isfile("HANDLES"):
        shutil.copyfile("HANDLES", f"{to}/HANDLES")


def rt(words, room):
    """Runs rt on the copy, and returns its status and the lines that it prints. If this is cut off, rt is ended and nothing of
    it is left."""
    how = {"stdin": subprocess.DEVNULL, "stdout": subprocess.PIPE, "stderr": subprocess.STDOUT, "text": True, "errors": "replace"}
    where = {"cwd": f"{room}/tree", "env": {**os.environ, "TMPDIR": f"{room}/tmp"}, "start_new_session": True}
    with subprocess.Popen(["rt", *words], **how, **where) as ran:
        try:
            said = ran.communicate()[0]
        except BaseException:
            os.killpg(ran.pid, signal.SIGTERM)
            raise
    return ran.returncode, said.splitlines()


def rounds(chosen):
    """The edits in rounds of whole crates, lowest first."""
    gathered = []
    for crate in listed():
        gathered += [edit for edit in chosen if crate_of(edit) == crate]
        if len(gathered) >= ROUND:
            yield gathered
            gathered = []
    if gathered:
        yield gathered


def told(lines):
    """What rt says of each edit, with the lines of the compiler that it shows below."""
    found, last = {}, None
    for line in lines:
        it = SAID.match(line)
        if it:
            last = f"{it[1]}/{it[2]}"
            found[last] = it[3]
        elif line.startswith("rt: "):
            last = None
        elif last:
            found[last] += f"\n    {line}"
    return found


def note(chosen, said, sums, tried):
    """Records which of these edits were refused, and returns why the others were not."""
    why = {}
    for edit in chosen:
        word = said.get(edit, "NOT TRIED: its crate, or one below it, is not proved as it stands")
        if word.startswith(REFUSED) and not word.startswith(SAYS_LITTLE):
            tried[edit] = sums[edit]
        else:
            why[edit] = word
            tried.pop(edit, None)
    write_tried(tried)
    return why


def try_in(room, chosen, more, sums, tried):
    """Tries the edits on a copy, and returns why each that was not refused was not."""
    crates = {crate for edit in chosen for crate in with_below(crate_of(edit))}
    print(f"{len(chosen)} wrong bodies to try; their crates and those below are {len(crates)}", flush=True)
    os.makedirs(f"{room}/tmp")
    copy(crates, chosen, f"{room}/tree")
    why = {}
    for part in rounds(chosen):
        _, lines = rt(["ci", *more, *dict.fromkeys(map(crate_of, part))], room)
        said = told(lines)
        if not said:
            print("\n".join(lines[-LAST:]))
        missed = note(part, said, sums, tried)
        print(f"{len(part)} tried, {len(part) - len(missed)} refused: {' '.join(dict.fromkeys(map(crate_of, part)))}", flush=True)
        why |= missed
    return why


def try_all(names, more):
    """Tries the edits that are to be tried, and returns the exit status."""
    every = edits()
    sums = {edit: sum_of(edit) for edit in every if crate_of(edit) in listed()}
    tried = {edit: made for edit, made in read_tried().items() if sums.get(edit) == made}
    chosen = [edit for edit in sums if (crate_of(edit) in names if names else more or edit not in tried)]
    why = {}
    if chosen:
        with tempfile.TemporaryDirectory(prefix="wrong-bodies-") as room:
            why = try_in(room, chosen, more, sums, tried)
    write_tried(tried)
    left = [edit for edit in every if edit not in tried]
    for edit in left:
        print(f"{edit}: {why.get(edit, 'not tried as it and its crates stand')}")
    print(f"{len(tried)} refused, {len(left)} not")
    return 1 if left else 0


def applied(text, folder):
    """Applies an edit to a crate's files by rt's rules, and returns why that fails, or None."""
    path, old, texts, was = "", None, {}, {}
    for line in text.split("\n"):
        if line.startswith("file: ") and old is None:
            path = line.removeprefix("file: ").strip()
            if os.path.normpath(path) != path or not path.startswith(tuple(f"{part}/" for part in PARTS)):
                return f"its `file:` names nothing below src, specs or proofs: {path}"
        elif line.startswith("old: ") and old is None and path:
            old = line.removeprefix("old: ")
        elif line.startswith("new:") and old:
            if path not in texts:
                if not os.path.isfile(f"{folder}/{path}"):
                    return f"there is no file {path}"
                texts[path] = was[path] = bytes_of(f"{folder}/{path}").decode()
            if texts[path].count(old) != 1:
                return f"its `old:` stands {texts[path].count(old)} times in {path}: {old.strip()}"
            texts[path] = texts[path].replace(old, line.removeprefix("new:").removeprefix(" "))
            old = None
        elif line.strip():
            return f"a line is none of `file: `, `old: `, `new: `, or not in that order: {line.strip()}"
    if old is not None:
        return f"an `old:` has no `new:`: {old.strip()}"
    return "it changes nothing" if texts == was else None


def fault_of(path):
    """Why this file is no wrong body of its crate, or None."""
    crate = path.split("/")[1]
    if crate not in listed():
        return f"{LIST} has no crate {crate}"
    if not os.path.isfile(path) or not NAME.fullmatch(os.path.basename(path)):
        return "a wrong body is a file whose name is of letters, digits, `_`, `-` and `.`, and ends in .edit"
    try:
        return applied(bytes_of(path).decode(), f"crates/{crate}")
    except ValueError as error:
        return f"it, or a file that it names, is no UTF-8: {error}"


def standing():
    """Prints each wrong body that does not stand, and returns the exit status."""
    paths = sorted(path for place in (f"{BODIES}/*/*", "crates/*/must-fail/*") for path in glob.glob(place, include_hidden=True))
    faults = [(path, why) for path in paths for why in [fault_of(path)] if why]
    for path, why in faults:
        print(f"{path}: {why}")
    print(f"{len(faults)} do not stand" if faults else f"{len(paths)} wrong bodies stand")
    return 1 if faults else 0


def main():
    os.chdir(TOP)
    words = sys.argv[1:]
    names = [word for word in words if not word.startswith("-")]
    if words == ["--standing"]:
        return standing()
    lacking = [name for name in names if not os.path.isdir(f"{BODIES}/{name}")]
    odd = [word for word in words if word not in ("--anew", *names)]
    if lacking or odd:
        print(f"{(odd + lacking)[0]}: neither a flag nor a crate with wrong bodies in {BODIES}", file=sys.stderr)
        return 2
    # (a copy is removed however the run is ended)
    signal.signal(signal.SIGTERM, lambda *_: sys.exit(143))
    return try_all(names, ["--anew"] if "--anew" in words else [])


if __name__ == "__main__":
    sys.exit(main())
