"""Sends mutated heads, documents, rules, targets and logs to `nsd pipe` and `nsd alone`, and checks the replies.

    python3 bench/hostile.py                        100,000 inputs, seed 1
    python3 bench/hostile.py --seed 7 --count 5000  another seed, and this many inputs
    python3 bench/hostile.py --only head            only one kind, as many as that run has of it
    python3 bench/hostile.py --limit 600            seconds for a run of the program, in place of 60
    python3 bench/hostile.py --program PATH         another program than crates/nsd/out/nsd

The same seed and count make the same inputs. Of each hundred 45 are documents, 25 rules, 20 targets, 6 heads and 4 logs. No run of the
program may crash or take longer than the limit.

Each request has to be answered once, by docs/API.md: `bench/answers.py` and `bench/documents.py` read its tables and rules a
second time, and say which refusal comes before the state is read, and which ones the state may give. Before anything is sent,
they are tried on the stored conversations, whose replies were written by hand. Two requests whose answers are known follow each
input: a policy is read, and a job is registered once more in its own namespace, where the numbers count up whatever was refused
before. The text of a policy that was put is read, too. For each fourth connection the log is printed as well, and `nsd alone`
has to find it a run. A mutated log has to be refused at the first changed line, or replayed up to it as before.

The last line has the counts and `ok`, or the first input that failed, which is then stored under /tmp. The exit status is 1 there.
"""

import argparse
import json
import os
import random
import re
import subprocess
import sys
import tempfile
import time
from collections import Counter

sys.dont_write_bytecode = True

import documents
import mutations
from answers import DONE, MISSING, Answer, Reading, answer_to, decoded, given, mistake, replies_of
from plays import TOP, stored

IN_A_RUN = 200
SHARES = {"document": 45, "rules": 25, "target": 20, "head": 6, "log": 4}
MAKERS = {"document": mutations.document_request, "rules": mutations.rules_request, "target": mutations.target_request,
    "head": mutations.head_bytes}

# ---- the requests whose answers are known

READ = ("GET", "/v1/acl/policy/zz-kept", b"root", b"")
KEPT = b'{"Description":"kept","Name":"zz-kept","Rules":""}'
AGAIN = ("POST", "/v1/jobs?namespace=zz-follow", b"root", json.dumps(mutations.JOB).encode())
TOKEN = b"X-Nomad-Token: root\r\n"


def sent(method, target, document):
    return mutations.request(method, target, TOKEN, document if isinstance(document, bytes) else json.dumps(document).encode())


FOLLOWING = sent(READ[0], READ[1], READ[3]) + sent(AGAIN[0], AGAIN[1], AGAIN[3])
LAID_OUT = [
    ("PUT", "/v1/node/pool/zz-pool", {}), ("PUT", "/v1/namespace/default", {"NodePoolConfiguration": {"Allowed": ["default"]}}),
    ("PUT", "/v1/namespace/zz-follow", {"NodePoolConfiguration": {"Default": "zz-pool", "Allowed": ["zz-pool"]}}),
    ("PUT", "/v1/acl/policy/zz-kept", {"Description": "kept", "Rules": ""}),
    ("PUT", "/v1/node/pool/east", {}), ("PUT", "/v1/node/pool/west", {}),
    ("PUT", "/v1/quota/qa", {"Limits": [{"RegionLimit": {"CPU": 1000, "MemoryMB": 9000}}]}),
    ("PUT", "/v1/namespace/ta", {"Quota": "qa", "NodePoolConfiguration": {"Default": "east", "Allowed": ["east"]}}),
    ("PUT", "/v1/namespace/tb", {"NodePoolConfiguration": {"Default": "west", "Allowed": ["west"]}}),
    ("PUT", "/v1/node/pool/east/node/n1", {"CPU": 1000, "MemoryMB": 9000}),
    ("PUT", "/v1/node/pool/west/node/n1", {"CPU": 1000, "MemoryMB": 9000}),
]
SETUP = b"".join(sent(*one) for one in LAID_OUT)


class Known:
    """The answers that are known. With a driven worker a blocked evaluation follows the evaluation of each registration, since
    the pool has no node, so indexes and numbers go up by two."""

    def __init__(self, is_driven):
        self.step = 2 if is_driven else 1
        self.registered = self.laid_out = 0
        # By name: the document as it is shown, None if there is no policy, UNSURE if that is not known.
        self.policies = {}

    def __call__(self, request):
        if self.laid_out < len(LAID_OUT):
            self.laid_out += 1
            return Answer([DONE], body=b"{}")
        if request == READ:
            return Answer([DONE], body=KEPT)
        if request != AGAIN:
            return self.of_a_policy(request)
        number = self.registered * self.step + 1
        self.registered += 1
        body = '{"EvalCreateIndex":%d,"EvalID":"00000000-0000-0001-0000-%012x","JobModifyIndex":1}' % (number, number)
        return Answer([DONE], body=body.encode(), index=str(number).encode())


    def of_a_policy(self, request):
        """The answer to a request about a policy: a read shows what was put last, and a policy that does not exist is not
        found."""
        method, target, _, body = request
        pairs, answer = given("/v1/acl/policy/<policy>", target.partition("?")[0]), answer_to(*request)
        if not pairs or DONE not in answer.pairs:
            return None
        name = decoded(pairs[0][1])
        was = self.policies.get(name)
        if method in ("PUT", "POST"):
            is_sure = answer.pairs[0] == DONE
            self.policies[name] = shown(name, documents.parsed_object(body)) if is_sure else UNSURE
            return None
        if method == "DELETE":
            self.policies[name] = None
        if was == UNSURE:
            return None
        if was is None:
            return Answer([MISSING])
        return Answer([DONE], body=b"{}" if method == "DELETE" else was)


UNSURE = "unsure"


def shown(name, document):
    """The body of a read of the policy."""
    return mutations.compact({"Description": document.get("Description") or "", "Name": name, "Rules": document["Rules"]}).encode()


# ---- runs


class Wrong(Exception):
    pass


def last_line(printed):
    return (printed.splitlines() or [""])[-1]


class Program:
    def __init__(self, path, limit):
        self.path, self.limit, self.runs = path, limit, 0

    def run(self, words, data):
        self.runs += 1
        try:
            done = subprocess.run([self.path, *words], input=data, capture_output=True, timeout=self.limit, check=False)
        except subprocess.TimeoutExpired:
            raise Wrong(f"{' '.join(words)}: no end within {self.limit} seconds") from None
        if done.returncode not in (0, 1, 2, 3):
            raise Wrong(f"{' '.join(words)}: status {done.returncode}, {done.stderr[-200:]}")
        return done


def judged(program, data, is_driven, counts):
    """Serves the bytes, and raises Wrong where the replies are not those of docs/API.md."""
    words = ["pipe", "--bootstrap", "root", *(["--drive"] if is_driven else [])]
    done = program.run(words, data)
    expected = Reading(data, Known(is_driven))
    if done.returncode not in expected.statuses:
        raise Wrong(f"status {done.returncode}, not {expected.statuses}; {len(expected.answers)} requests")
    if done.stderr != (b"read fault\n" if done.returncode == 3 else b""):
        raise Wrong(f"standard error: {done.stderr[-200:]}")
    try:
        replies = replies_of(done.stdout)
    except ValueError as fault:
        raise Wrong(str(fault)) from None
    if len(replies) != len(expected.answers):
        raise Wrong(f"{len(replies)} replies to {len(expected.answers)} requests")
    for place, (reply, (answer, closes)) in enumerate(zip(replies, expected.answers)):
        if wrong := mistake(reply, answer, closes):
            asked = expected.requests[place]
            raise Wrong(f"reply {place}: {wrong}: {reply.status} {reply.body[:200]}, may be {answer.pairs}; asked {str(asked)[:1500]}")
        counts[reply.status] += 1


def logged(program, data, is_driven):
    """Checks that the log of the same connection is a run."""
    words = ["pipe", "--bootstrap", "root", "--print", "log", *(["--drive"] if is_driven else [])]
    log = program.run(words, data).stdout
    said = program.run(["alone", "zz-follow", "--from", str(len(LAID_OUT))], log)
    last = last_line(said.stdout.decode())
    if last != "same" and not re.fullmatch(r"premise fails at [0-9]+", last):
        raise Wrong(f"the log of the connection: {last}")


# ---- cases


def chance(seed, kind, place):
    return random.Random(f"{seed} {kind} {place}")


def ends(data):
    """Whether the connection closes, or ends inside a request."""
    reading = Reading(data)
    return reading.statuses == [3] or reading.answers[-1][1]


def connection(seed, kind, first, number):
    """A connection with inputs of this kind, each followed by the known requests, and the place of the next input. A head that
    ends the connection is its last input."""
    data, place = SETUP, first
    while place < min(first + IN_A_RUN, number):
        data += MAKERS[kind](chance(seed, kind, place)) + FOLLOWING
        place += 1
        if kind == "head" and ends(data):
            break
    return data, place


def connections(program, seed, kind, number, counts):
    run = place = 0
    while place < number:
        first, (data, place) = place, connection(seed, kind, place, number)
        is_driven = run % 3 == 2
        try:
            judged(program, data, is_driven, counts)
            if run % 4 == 0:
                logged(program, data, is_driven)
            run += 1
        except Wrong as wrong:
            raise Wrong(f"{kind} {first}{' driven' if is_driven else ''}: {wrong}; input in {kept(data)}") from None


def kept(data):
    with tempfile.NamedTemporaryFile(prefix="hostile-", delete=False) as file:
        file.write(data)
    return file.name


class Log:
    """A stored log for which `nsd alone` says `same`, with what it prints for each entry."""

    def __init__(self, head, text, printed):
        _, self.namespace, self.first, *rest = head.split(" ")
        self.lists = rest[:-1]
        self.text = text
        self.printed = printed.removesuffix("same\n")
        self.lines = text.split("\n")

    def words(self):
        return ["alone", self.namespace, "--from", self.first, *self.lists]

    def chunks(self):
        """What is printed for each own entry, by its place."""
        found, rest, place = {}, self.printed, 0
        for line in filter(lambda line: line.startswith("{"), self.lines):
            told = json.loads(line)
            chunk = f"{place} {told['Status']} {told['Body']}\n"
            if place >= int(self.first) and rest.startswith(chunk):
                found[place], rest = chunk, rest.removeprefix(chunk)
            place += 1
        return found

    def printed_before(self, entries):
        """What is printed for the own entries among the first `entries`."""
        return "".join(chunk for place, chunk in self.chunks().items() if place < entries)


def stored_logs():
    given = {part.split("\n", 1)[0]: part.split("\n", 1)[1] for part in stored("stdin", ("alone",))}
    logs = []
    for part in stored("stdout", ("alone",)):
        head, printed = part.split("\n", 1)
        if printed.endswith("same\n\nstatus 0"):
            logs.append(Log(head, given[head], printed.removesuffix("\nstatus 0")))
    return logs


HEADER = re.compile(r"nsd-log 3 (?:0|[1-9][0-9]*) [!-~]{1,64}")


def is_surely_bad(line, is_first):
    """Whether no server writes this line, whatever came before it."""
    try:
        text = line.decode()
    except UnicodeDecodeError:
        return True
    if is_first or text.startswith("nsd-log"):
        return HEADER.fullmatch(text) is None or (is_first and not text.startswith("nsd-log 3 0 "))
    try:
        told = json.loads(text)
        return mutations.compact(told) != text or sorted(told) != ["Body", "Index", "Status", "Step"]
    except (ValueError, TypeError, RecursionError):
        return True


def step_of(line):
    try:
        return json.loads(line)["Step"]
    except (ValueError, TypeError, KeyError, RecursionError):
        return None


def judged_log(program, log, data):
    """What `nsd alone` says of a changed log. Raises Wrong if it may not say so."""
    done = program.run(log.words(), data)
    printed = done.stdout.decode(errors="replace")
    # After the last line feed comes a line that was cut, or nothing.
    given, was = data.split(b"\n"), log.text.encode().split(b"\n")[:-1]
    pairs = enumerate(zip(given[:-1], was))
    same = next((place for place, (line, before) in pairs if line != before), min(len(given) - 1, len(was)))
    entries = sum(line.startswith(b"{") for line in was[:same])
    before = log.printed_before(entries)
    if same == len(given) - 1 > 0 and given[-1] == b"":
        if (done.returncode, printed) != (0, before + "same\n"):
            raise Wrong(f"a log that was cut behind a line: {done.returncode} {printed[-300:]}, not {before[-300:]} and same")
        return "same"
    if found := re.fullmatch(r"bad log line ([0-9]+)\n", printed):
        return bad_line(done, int(found[1]), same, given)
    if is_surely_bad(given[same], same == 0) or given[-1] != b"":
        raise Wrong(f"line {same + 1} is bad, or the last one is cut, and the log is taken: {printed[-300:]}")
    is_answer = step_of(given[same]) is not None and step_of(given[same]) == step_of((was + [b""])[same])
    sure = None if not is_answer else f"{'differs' if entries in log.chunks() else 'not a run'} at {entries}"
    return replayed(done, printed, before, entries, sure)


def bad_line(done, line, same, given):
    if done.returncode != 2:
        raise Wrong(f"a bad log line, with status {done.returncode}")
    if line < same + 1 or (line > same + 1 and is_surely_bad(given[same], same == 0)):
        raise Wrong(f"bad log line {line}, where line {same + 1} is the first that was changed")
    return "bad log line"


def replayed(done, printed, before, entries, sure):
    """What is said of a log without a bad line. If the reply of a step was changed, and not the step, the last line has to be
    `sure`."""
    last = last_line(printed)
    found = re.fullmatch(r"(same|differs at|premise fails at|not a run at)(?: ([0-9]+))?", last)
    if not found or done.returncode != (0 if last == "same" else 1):
        raise Wrong(f"status {done.returncode}, and the last line is {last[:300]}")
    if found[2] and int(found[2]) < entries:
        raise Wrong(f"{last}, where the first {entries} entries are as before")
    if not printed.startswith(before):
        raise Wrong(f"what is printed of the first {entries} entries is not as before: {printed[:300]}")
    if sure and printed != before + sure + "\n":
        raise Wrong(f"{last}, and not {sure}")
    return found[1]


def logs(program, seed, number, counts):
    known = stored_logs()
    for place in range(number):
        rng = chance(seed, "log", place)
        log = rng.choice(known)
        data = mutations.changed_log(rng, log.text)
        try:
            counts[judged_log(program, log, data)] += 1
        except Wrong as wrong:
            raise Wrong(f"log {place}: {' '.join(log.words())}: {wrong}; input in {kept(data)}") from None


def second_reading():
    """Checks that the second reading of docs/API.md allows each stored reply. Those were written by hand. Returns how many
    there are."""
    replies = {part.split("\n", 1)[0]: part.split("\n", 1)[1] for part in stored("stdout", ("serve",))}
    tried = 0
    for part in stored("stdin", ("serve",)):
        head, text = part.split("\n", 1)
        words = head.split(" ")
        data = text.encode() + b" " * (int(words[4]) if words[3] == "spaces" else 0)
        written, status = re.fullmatch(r"(.*)\nstatus ([0-9])(?:\nread fault)?\n?", replies[head], re.DOTALL).groups()
        expected, found = Reading(data), replies_of(written.encode())
        if len(found) != len(expected.answers) or int(status) not in expected.statuses:
            raise Wrong(f"the second reading of {head}: {len(expected.answers)} requests, status {expected.statuses}")
        for reply, (answer, closes), asked in zip(found, expected.answers, expected.requests):
            # The rights of tokens that a conversation makes are not read here.
            if asked and asked[2] != b"root":
                continue
            if wrong := mistake(reply, answer, closes):
                raise Wrong(f"the second reading of {head}: {wrong}: {reply.status} {reply.body[:200]}")
            tried += 1
    return tried


def main():
    parser = argparse.ArgumentParser()
    parser.add_argument("--seed", type=int, default=1)
    parser.add_argument("--count", type=int, default=100_000)
    parser.add_argument("--only", choices=SHARES)
    parser.add_argument("--limit", type=int, default=60)
    parser.add_argument("--program", default=os.path.join(TOP, "crates", "nsd", "out", "nsd"))
    words = parser.parse_args()
    program, start, made = Program(words.program, words.limit), time.monotonic(), Counter()
    try:
        print(f"the second reading takes {second_reading()} replies that were written by hand", flush=True)
        for kind in [words.only] if words.only else SHARES:
            counts, number = Counter(), words.count * SHARES[kind] // 100
            if kind == "log":
                logs(program, words.seed, number, counts)
            else:
                connections(program, words.seed, kind, number, counts)
            made[kind] = number
            told = ", ".join(f"{count} times {what}" for what, count in sorted(counts.items(), key=str))
            print(f"{number} of kind {kind}: {told}", flush=True)
    except Wrong as wrong:
        print(f"seed {words.seed}: {wrong}")
        return 1
    seconds = time.monotonic() - start
    print(f"seed {words.seed}: {sum(made.values())} inputs in {program.runs} runs of the program, {seconds:.0f} s: ok")
    return 0


if __name__ == "__main__":
    sys.exit(main())
