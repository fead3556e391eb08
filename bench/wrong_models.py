"""Tries the wrong models `wrong-models/*.edit`: each plants a mistake in the definitions, and makes the law false that it names.

    python3 bench/wrong_models.py                      every one
    python3 bench/wrong_models.py deny_is_forgotten    these
    python3 bench/wrong_models.py --standing           proves nothing, and takes a second: checks that each can be read and applied

An edit has a line `law: MODULE::LAW` of `ns_laws`, a line `why:` that says in words what would break the law, and then the lines
of a wrong body, for files of `crates/ns_types`. The definitions, the lemmas and the laws are copied into a folder of their own and
checked there, from their source. First each named law has to be proved over the definitions as they are. Then each edit is applied
by itself: its definitions have to be accepted, and the law must not be proved. Some 30 seconds each; RT_JOBS says how many run side
by side.

A refusal shows that the proof of the law depends on the definition. It does not show that the law is false over the changed one: a
proof can fail there although the law holds. Read `why:` for that. Prints each law that is proved all the same, then `N refused, M
not`; the exit status is 0 if M is 0.
"""

import concurrent.futures
import glob
import os
import pathlib
import re
import shutil
import subprocess
import sys
import tempfile

import wrong_bodies

MODELS = "wrong-models"
CHANGED, CRATES = "ns_types", ("ns_types", "ns_audit", "ns_laws")
SECONDS = 900
DONE = re.compile(r"^only=(\d+) proved=(\d+)", re.M)


def names():
    return sorted(os.path.basename(path).removesuffix(".edit") for path in glob.glob(f"{MODELS}/*.edit"))


def parts(name):
    """The law that an edit names, why the law would be false, and the edit itself as a wrong body."""
    words, body = {"law": "", "why": ""}, []
    for line in wrong_bodies.bytes_of(f"{MODELS}/{name}.edit").decode().split("\n"):
        word, colon, rest = line.partition(": ")
        if word in words and colon:
            words[word] = rest.strip()
        else:
            body.append(line)
    return words["law"], words["why"], "\n".join(body)


def fault_of(name):
    """Why this file is no wrong model, or None."""
    law, why, body = parts(name)
    module, _, call = law.rpartition("::")
    source = f"crates/ns_laws/src/{module.replace('::', '/')}.rt"
    if not os.path.isfile(source) or f"pub fn {call}()" not in pathlib.Path(source).read_text():
        return f"there is no such law: {law}"
    return wrong_bodies.applied(body, f"crates/{CHANGED}") if why else "it has no `why:`"


def standing():
    faults = [(name, why) for name in names() for why in [fault_of(name)] if why]
    for name, why in faults:
        print(f"{MODELS}/{name}.edit: {why}")
    print(f"{len(faults)} do not stand" if faults else f"{len(names())} wrong models stand")
    return 1 if faults else 0


def copy(to):
    for crate in CRATES:
        for path in wrong_bodies.tracked()[crate]:
            os.makedirs(os.path.dirname(f"{to}/{path}"), exist_ok=True)
            shutil.copyfile(path, f"{to}/{path}")


def apply(body, tree):
    """Applies an edit that stands, and returns the files that it changed."""
    path, old, changed = None, None, set()
    for line in body.split("\n"):
        word, _, rest = line.partition(": ")
        if word == "file":
            path = pathlib.Path(tree) / "crates" / CHANGED / rest.strip()
            changed.add(str(path))
        elif word == "old":
            old = rest
        elif word in ("new", "new:"):
            path.write_text(path.read_text().replace(old, rest))
    return changed


def command(tree, kept, laws):
    """The command that checks these laws from the source of the tree, and keeps in the folder `kept` what it checked."""
    kit = pathlib.Path(subprocess.run(["rt", "doc"], check=True, capture_output=True, text=True).stdout.strip()).parent
    words = [f"{kit}/bin/rattle", "check", "--crate-name", CRATES[-1], f"crates/{CRATES[-1]}/src/lib.rt", "-L", f"dependency={kit}/rlibs"]
    ported = ["std"]
    for crate in CRATES[:-1]:
        below = wrong_bodies.listed()[crate].partition(":")[2].split()
        ported += [it for it in below if it not in CRATES]
        words += ["--lib", f"{crate}:{','.join(['std', *below])}=crates/{crate}/src/lib.rt"]
    for it in ported:
        words += ["--extern", f"{it}={kit}/rlibs/{it}.rlib"]
    words += ["--antt-project", f"{kit}/rattle/logic/antt-project.json", "--logic-built", f"{kit}/logic_built"]
    return [*words, "--incremental", kept, *(word for law in laws for word in ("--only", law))]


def checked(tree, kept, laws):
    """How many of these laws are proved, or None if the check does not say, and what it prints."""
    ran = subprocess.run(command(tree, kept, laws), cwd=tree, capture_output=True, text=True, timeout=SECONDS)
    said = ran.stdout + ran.stderr
    found = DONE.search(said)
    return int(found[2]) if found else None, said


def tried(name, room):
    """Why this wrong model is not refused, or None."""
    law, _, body = parts(name)
    own = f"{room}/{name}"
    shutil.copytree(f"{room}/kept", f"{own}/kept")
    copy(f"{own}/tree")
    changed = apply(body, f"{own}/tree")
    proved, said = checked(f"{own}/tree", f"{own}/kept", [law])
    shutil.rmtree(own)
    errors = [line for line in said.split("\n") if ": error: " in line]
    if any(os.path.relpath(path, f"{own}/tree") in line for path in changed for line in errors):
        return f"its definitions are refused themselves: {errors[0]}"
    if proved is None or (not proved and not errors):
        return f"no verdict: {said[-300:]}"
    return f"{law} is proved all the same" if proved else None


def try_all(chosen, room):
    laws = sorted({parts(name)[0] for name in chosen})
    copy(f"{room}/tree")
    os.makedirs(f"{room}/kept")
    proved, said = checked(f"{room}/tree", f"{room}/kept", laws)
    if proved != len(laws):
        print(f"the laws are not proved as they stand:\n{said[-2000:]}")
        return 1
    print(f"{len(laws)} laws are proved as they stand; {len(chosen)} wrong models to try", flush=True)
    with concurrent.futures.ThreadPoolExecutor(int(os.environ.get("RT_JOBS") or os.cpu_count())) as pool:
        why = dict(zip(chosen, pool.map(lambda name: tried(name, room), chosen)))
    left = {name: word for name, word in why.items() if word}
    for name, word in left.items():
        print(f"{name}: {word}")
    print(f"{len(chosen) - len(left)} refused, {len(left)} not")
    return 1 if left else 0


def main():
    os.chdir(wrong_bodies.TOP)
    words = sys.argv[1:]
    if words == ["--standing"]:
        return standing()
    lacking = [word for word in words if word not in names()]
    if lacking:
        print(f"{lacking[0]}: there is no such wrong model in {MODELS}", file=sys.stderr)
        return 2
    if standing():
        return 1
    with tempfile.TemporaryDirectory(prefix="wrong-models-") as room:
        return try_all(words or names(), room)


if __name__ == "__main__":
    sys.exit(main())
