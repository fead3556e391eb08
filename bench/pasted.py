"""Compares what the pages of docs/ show with the stored conversations, whose replies the tests compare with the program's.

    python3 bench/pasted.py

- Each block of a page that runs `./nsd` is run by a shell, with a program in its place that keeps its input. That input has to
  be the one of a stored conversation, with the same secret, and driven if the block says so; or a stored log, or the requests
  of a log that is shown.
- Each other block, and each short text, that is JSON or rules has to be a body, a line of one, or the rules of a policy, in a
  stored conversation; in a line that begins with a quote, the parts between ` .. `. Texts of tokens are drawn, so any will do.
- Each response that is shown has to be one of a stored conversation.
- The lines of `README.md` and `docs/TUTORIAL.md` that call curl are run by a shell, with a curl in its place that keeps its
  arguments and answers what a stored conversation says. They have to be the requests of that conversation, in order, and the
  answers have to be those that the page shows.
- Each method of the table of paths has to get 200 there or in a script, and 403.
- Each refusal of the table has to be one of a stored conversation, except those that no request by hand reaches.

What fails is printed, and the exit status is then 1.
"""

import json
import os
import re
import subprocess
import sys
import tempfile

sys.dont_write_bytecode = True
# A stored document nests 1,000 deep.
sys.setrecursionlimit(10_000)

import plays
from conversations import TOP, conversations, reply, request, stored
from logs import stored_parts
from tutorial import Shell, blocks, needs_program

PAGES = ["README.md", "docs/API.md", "docs/ISOLATION.md", "docs/MODEL.md"]
KEEPER = '#!/bin/sh\nprintf "%s\\n" "$*" >> "$KEPT/words"\ncat > "$KEPT/$(wc -l < "$KEPT/words")"\n'
CURLED = {"README.md": "root 1 driven the_first_screen", "docs/TUTORIAL.md": "root 1 driven two_tenants_from_nothing"}
CURL = """#!/bin/sh
count=$(ls "$KEPT" | grep -c ^asked)
printf '%s\\n' "$@" > "$KEPT/asked-$count"
cat "$KEPT/body-$count"
case "$*" in
*http_code*) cat "$KEPT/status-$count" ;;
*-w*) echo ;;
esac
"""
NOT_REACHED = {"full", "log full", "out of memory"}
DRAWN = re.compile(r"[0-9a-f]{8}-[0-9a-f]{4}-4[0-9a-f]{3}-[89ab][0-9a-f]{3}-[0-9a-f]{12}")


def read(path):
    with open(os.path.join(TOP, path), encoding="utf-8") as file:
        return file.read()


def indented(text):
    """The blocks of lines that are indented by four spaces."""
    for block in re.findall(r"(?:^(?: {4}.*)?\n)+", text, re.M):
        lines = [line[4:] for line in block.strip("\n").split("\n")]
        if any(lines):
            yield "\n".join(lines)


def cell(row, place):
    return row.split(" | ")[place]


def rows(text, columns):
    """The rows of the table with these column heads."""
    at = text.index(f"| {columns} |\n")
    table = text[at:].split("\n\n")[0].split("\n")
    return [line.strip("| ") for line in table[2:]]


class Stored:
    """The requests and replies of the stored conversations."""

    def __init__(self):
        self.inputs, self.texts, self.outputs, self.answers = set(), set(), "", set()
        for name, pairs, _ in conversations(stored()):
            secret, _, title = name.split(" ", 2)
            words = f"pipe --bootstrap {secret}" + (" --drive" if title.startswith("driven ") else "")
            self.inputs.add((words, "".join(request(*asked) for asked, _ in pairs)))
            for asked, told in pairs:
                self.add(asked, told)

        for part in stored_parts().given:
            head, given = part.split("\n", 1)
            self.inputs.add((words_of(head.split(" ")), given))
            self.texts |= set(given.split("\n"))

    def add(self, asked, told):
        (method, target, *_), _, body = asked
        (status, *_), said = told
        self.outputs += reply(*told)
        self.answers.add((method, target, status, "" if status == "200" else said))
        self.texts |= {DRAWN.sub("*", text) for text in [body, said, *said.split("\n"), rules_in(body)]}

    def add_scripts(self):
        for part in plays.stored("stdout", ("script",)):
            for method, target, status in re.findall(r"^([A-Z]+) (\S+).*\n(\d{3}) ", part, re.M):
                self.answers.add((method, target, status, ""))


def words_of(head):
    """The arguments for the program that a stored log with this head is for."""
    if head[0] == "alone":
        return " ".join(["alone", head[1], "--from", *head[2:-1]])
    return "pipe --bootstrap root" + (" --drive" if head[1] == "driven" else "") + " --print log"


def rules_in(body):
    try:
        document = json.loads(body)
    except ValueError:
        return ""
    rules = document.get("Rules") if isinstance(document, dict) else None
    return rules.strip("\n") if isinstance(rules, str) else ""


def pasted(block, before):
    """The arguments and the input of each call of the program in this block."""
    with tempfile.TemporaryDirectory() as folder:
        os.symlink(os.path.join(TOP, "examples"), os.path.join(folder, "examples"))
        with open(os.path.join(folder, "nsd"), "w", encoding="utf-8") as file:
            file.write(KEEPER)
        os.chmod(os.path.join(folder, "nsd"), 0o755)
        script = "\n".join([*before, block])
        subprocess.run(["bash", "-c", script], cwd=folder, env={**os.environ, "KEPT": folder}, check=True)
        with open(os.path.join(folder, "words"), encoding="utf-8") as file:
            words = file.read().split("\n")[:-1]
        for number, text in enumerate(words, 1):
            with open(os.path.join(folder, str(number)), encoding="utf-8", newline="") as file:
                yield text, file.read()


def shell_faults(page, blocks, functions, known):
    for block in blocks:
        # Left out are lines that run the tests, that wait for a reply, or that start a server on a port.
        left_out = ("coproc", "./nsd serve")
        if "./nsd " not in block or any(word in block for word in left_out) or re.search(r"^rt ", block, re.M):
            continue
        for words, given in pasted(block, functions):
            # A log that another line of the block would have written is not there.
            is_unwritten = words.startswith("alone ") and given == ""
            if not is_unwritten and (words, given) not in known.inputs:
                yield f"{page}: no stored conversation is nsd {words} over\n{given}"


def shown_texts(text, blocks):
    """The texts that are shown: the JSON lines of blocks and the short texts in a line that are JSON, and the blocks of
    rules."""
    for block in blocks:
        if "./nsd" in block or block.startswith("HTTP/"):
            continue
        if block.startswith("#"):
            yield block
        yield from (line for line in block.split("\n") if re.match(r'[{\[]["{]|"', line))
    for short in re.findall(r'`([{\[]["{][^`]*)`', text):
        try:
            json.loads(short)
        except ValueError:
            continue
        yield short


def text_faults(page, text, blocks, known):
    for shown in shown_texts(text, blocks):
        parts = ".*".join(re.escape(part) for part in shown.split(" .. "))
        is_cut = shown.startswith('"') and re.search(parts, known.outputs)
        if not is_cut and DRAWN.sub("*", shown) not in known.texts:
            yield f"{page}: no stored conversation says {shown}"


def response_faults(page, blocks, known):
    outputs = known.outputs.replace("\r\n", "\n")
    for block in blocks:
        response = re.search(r"^HTTP/(.|\n)*", block, re.M)
        if response and response[0] not in outputs:
            yield f"{page}: no stored conversation is answered\n{response[0]}"


def curled(words):
    """The request that curl makes with these arguments: its method, target and tokens, and its body."""
    method, tokens, body, target = "GET", [], "", ""
    words = iter(words)
    for word in words:
        if word == "-H":
            tokens.append(next(words).removeprefix("X-Nomad-Token: "))
        elif word == "-d":
            method, body = "POST", next(words)
        elif word == "-w":
            next(words)
        elif not word.startswith("-"):
            target = "/" + word.split("/", 3)[3]
    return [method, target, *tokens], body


def curl_faults(page, title):
    [pairs] = [pairs for name, pairs, _ in conversations(stored()) if name == title]
    with tempfile.TemporaryDirectory() as folder:

        def keep(name, text):
            with open(os.path.join(folder, name), "w", encoding="utf-8") as file:
                file.write(text)

        keep("curl", CURL)
        os.chmod(os.path.join(folder, "curl"), 0o755)
        for number, (_, (words, body)) in enumerate(pairs):
            keep(f"body-{number}", body)
            keep(f"status-{number}", f" {words[0]}\n")
        shell = Shell(folder, KEPT=folder, PATH=f"{folder}:{os.environ['PATH']}")
        for block in blocks(read(page)):
            for command in [] if needs_program(block) else block:
                if not command.is_told(lines := shell.run(command)):
                    yield f"{page}: {command.line}\nshows\n" + "\n".join([*command.told, "in place of", *lines])
        shell.end()
        count = len([name for name in os.listdir(folder) if name.startswith("asked-")])
        if count != len(pairs):
            yield f"{page}: calls curl {count} times, and {title} has {len(pairs)} requests"
        for number, ((words, _, body), _) in enumerate(pairs[:count]):
            with open(os.path.join(folder, f"asked-{number}"), encoding="utf-8") as file:
                asked = curled(file.read().split("\n")[:-1])
            if asked != (words, body):
                yield f"{page}: call {number} of curl is {asked}, and {title} has {words, body}"


def path_faults(text, known):
    for row in rows(text, "Path | Method | What | Right | Answers"):
        for path in re.findall(r"`([^`]*)`", cell(row, 0)):
            pattern = re.compile(re.sub(r":\w+", "[^/?]+", path) + r"(\?.*)?")
            for method in re.findall(r"`([^`]*)`", cell(row, 1)):
                got = {status for asked, target, status, _ in known.answers if asked == method and pattern.fullmatch(target)}
                yield from (f"no stored {method} {path} is answered {status}" for status in sorted({"200", "403"} - got))


def refusal_faults(text, known):
    for row in rows(text, "Status | Text | When"):
        status, said = cell(row, 0), re.search(r"`(.*?)`", cell(row, 1))[1]
        told = [text for _, _, given, text in known.answers if given == status]
        if said not in NOT_REACHED and not any(text.startswith(said) for text in told):
            yield f"no stored request is answered {status} {said}"


def faults():
    known = Stored()
    known.add_scripts()
    functions = [block for block in indented(read("docs/API.md")) if block.startswith("ask()")]
    for page in PAGES:
        text = read(page)
        blocks = list(indented(text))
        yield from shell_faults(page, blocks, functions, known)
        yield from text_faults(page, text, blocks, known)
        yield from response_faults(page, blocks, known)
    for page, title in CURLED.items():
        yield from curl_faults(page, title)
    yield from path_faults(read("docs/API.md"), known)
    yield from refusal_faults(read("docs/API.md"), known)


def main():
    found = list(faults())
    for fault in found:
        print(fault)
    return 1 if found else 0


if __name__ == "__main__":
    sys.exit(main())
