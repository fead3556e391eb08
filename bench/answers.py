"""What the server may answer to the bytes of a connection, by docs/API.md and docs/DECISIONS.md.

`Reading` goes through the bytes as a connection reads them. For each request it says what the reply may be: one text if the
request is refused before the state is read, otherwise what the table of refusals allows for this command. This is a second
reading of those pages, in Python, for the scripts that send hostile input. It shares nothing with the program.
"""

import json
import re
from urllib.parse import unquote_to_bytes

import documents

HEAD, HEADERS, BODY = 16_384, 64, 1_048_576
PHRASES = {
    200: "OK",
    400: "Bad Request",
    403: "Forbidden",
    404: "Not Found",
    405: "Method Not Allowed",
    409: "Conflict",
    411: "Length Required",
    413: "Content Too Large",
    501: "Not Implemented",
    503: "Service Unavailable",
}
BAD_HEAD, NO_LENGTH, TOO_LARGE = (400, "bad request"), (411, "length required"), (413, "too large")
DENIED, MISSING, CONFLICT = (403, "Permission denied"), (404, "not found"), (409, "conflict")
IN_USE, FULL, NO_METHOD = (400, "in use"), (400, "full"), (405, "method not allowed")
NOT_SERVED, NOT_PERMITTED = (501, "not served"), (400, "node pool not permitted")
DONE = (200, None)


def bad_field(name):
    return (400, f"bad field: {name}")


# ---- the table of paths

W = "POST PUT"
NAMES = {"namespace": documents.NAMESPACE, "quota": documents.POOL, "pool": documents.POOL, "node": documents.POOL,
         "policy": documents.NAMESPACE, "job": documents.IDENT}


class Command:
    """One row: the refusals that the state may give, the document that it reads, and the parameter whose name the document may
    give."""

    def __init__(self, path, methods, refusals=(), kind="ask", reads=None, is_list_for_all=False, members=None):
        self.path, self.methods = path, methods.split()
        self.refusals, self.kind, self.reads = refusals, kind, reads
        self.is_list_for_all, self.members = is_list_for_all, members


REGISTERED = ["EvalCreateIndex", "EvalID", "JobModifyIndex"]
TOKEN = ["AccessorID", "Name", "Policies", "SecretID", "Type"]
PUT_NAMESPACE = (bad_field("Quota"), bad_field("Default"), bad_field("Allowed"), IN_USE, FULL)
NODE = "/v1/node/pool/<pool>/node/<node>"
COMMANDS = [
    Command("/v1/jobs", "GET", (MISSING,)),
    Command("/v1/jobs", W, (MISSING, NOT_PERMITTED, bad_field("NodePool"), CONFLICT, FULL), reads=documents.registration,
    members=REGISTERED),
    Command("/v1/job/<job>", "GET", (MISSING,)),
    Command("/v1/job/<job>", "DELETE", (MISSING,), members=REGISTERED),
    Command("/v1/job/<job>/evaluations", "GET", (MISSING,)),
    Command("/v1/job/<job>/allocations", "GET", (MISSING,)),
    Command("/v1/evaluations", "GET", (MISSING,)),
    Command("/v1/evaluation/<evaluation>", "GET", (MISSING,)),
    Command("/v1/allocations", "GET", (MISSING,)),
    Command("/v1/allocation/<allocation>", "GET", (MISSING,)),
    Command("/v1/allocation/<allocation>/stop", W, (MISSING, CONFLICT), members=["EvalID", "Index"]),
    Command("/v1/namespace/<namespace>", "GET", (MISSING,)),
    Command("/v1/quota/usage/<quota>", "GET", (MISSING,), members=["Name", "Used"]),
    Command("/v1/event/stream", "GET", (MISSING,)),
    Command("/v1/namespaces", "GET", kind="admin", is_list_for_all=True),
    Command("/v1/namespace", W, PUT_NAMESPACE, "admin", documents.namespace, members=[]),
    Command("/v1/namespace/<namespace>", W, PUT_NAMESPACE, "admin", documents.namespace, members=[]),
    Command("/v1/namespace/<namespace>", "DELETE", (MISSING, IN_USE), "admin", members=[]),
    Command("/v1/quotas", "GET", kind="admin"),
    Command("/v1/quota/<quota>", "GET", (MISSING,), "admin"),
    Command("/v1/quota", W, (FULL,), "admin", documents.quota, members=[]),
    Command("/v1/quota/<quota>", W, (FULL,), "admin", documents.quota, members=[]),
    Command("/v1/quota/<quota>", "DELETE", (MISSING, IN_USE), "admin", members=[]),
    Command("/v1/node/pools", "GET", kind="admin", is_list_for_all=True),
    Command("/v1/node/pools", W, (FULL,), "admin", documents.pool, members=[]),
    Command("/v1/node/pool/<pool>", "GET", (MISSING,), "node"),
    Command("/v1/node/pool/<pool>", W, (FULL,), "admin", documents.pool, members=[]),
    Command("/v1/node/pool/<pool>", "DELETE", (MISSING, IN_USE), "admin", members=[]),
    Command("/v1/node/pool/<pool>/nodes", "GET", (MISSING,), "node"),
    Command(NODE, W, (MISSING, IN_USE, FULL), "node", documents.node, members=[]),
    Command(NODE, "DELETE", (MISSING, IN_USE), "node", members=[]),
    Command(NODE + "/status", W, (MISSING,), "node", documents.status, members=[]),
    Command(NODE + "/eligibility", W, (MISSING,), "node", documents.eligibility, members=[]),
    Command(NODE + "/report", W, (MISSING, CONFLICT), "node", documents.report, members=[]),
    Command("/v1/acl/policy/<policy>", "GET", (MISSING,), "admin"),
    Command("/v1/acl/policy/<policy>", W, (FULL,), "admin", documents.policy, members=[]),
    Command("/v1/acl/policy/<policy>", "DELETE", (MISSING,), "admin", members=[]),
    Command("/v1/acl/token", W, (CONFLICT, FULL), "admin", documents.token, members=TOKEN),
    Command("/v1/acl/token/<accessor>", "DELETE", (MISSING, IN_USE), "admin", members=[]),
]


def given(pattern, path):
    """The values that the path has for the names in the pattern, as pairs. None: the path does not match."""
    wanted, parts = pattern.split("/"), path.split("/")
    if len(wanted) != len(parts):
        return None
    pairs = list(zip(wanted, parts))
    are_alike = all(part != "" if want.startswith("<") else want == part for want, part in pairs)
    return [(want[1:-1], part) for want, part in pairs if want.startswith("<")] if are_alike else None


def is_named(kind, text):
    if kind in NAMES:
        return NAMES[kind].fullmatch(text) is not None
    number = documents.uuid_number(text)
    ids = {"evaluation": documents.EVALUATION, "allocation": documents.ALLOCATION}
    return number is not None and (kind not in ids or number >> 64 == ids[kind])


def decoded(part):
    """The decoded part. None: it is no text."""
    try:
        return unquote_to_bytes(part).decode()
    except UnicodeDecodeError:
        return None


def parameters(query):
    """The first value of each parameter."""
    found = {}
    for pair in filter(None, query.split("&")):
        name, _, value = pair.replace("+", " ").partition("=")
        name, value = (unquote_to_bytes(text).decode(errors="replace") for text in (name, value))
        found.setdefault(name, value)
    return found


def is_not_served(method, path, asked):
    is_list = any(asked.get(name) for name in ("filter", "per_page", "next_token"))
    waits = method == "GET" and path != "/v1/event/stream" and asked.get("index", "") not in ("", "0")
    return asked.get("namespace") == "*" or is_list or waits


def parameter_fault(method, command, asked):
    if asked.get("namespace") and not documents.NAMESPACE.fullmatch(asked["namespace"]):
        return bad_field("namespace")
    if (method, command.path) == ("DELETE", "/v1/job/<job>") and asked.get("purge", "") not in ("true", "1", "false", "0", ""):
        return bad_field("purge")
    if command.path == "/v1/event/stream":
        index = asked.get("index", "0")
        if not re.fullmatch(r"[0-9]+", index) or int(index) >= 2**64:
            return bad_field("index")
    return None


class Answer:
    """What a reply may be: pairs of a status and a text, where None stands for any text. For 200 also the command, by which the
    members of the body and the index are judged, or the body and the index themselves."""

    def __init__(self, pairs, command=None, body=None, index=None):
        self.pairs, self.command, self.body, self.index = pairs, command, body, index


def by_the_state(command, token):
    if token not in (b"root", None):
        return [DENIED]
    if token is None:
        return [DONE] if command.is_list_for_all else [DENIED]
    return [DONE, *command.refusals]


def by_the_path(path):
    """The rows of the table for the path, each with the values that the path has for their names."""
    rows = [(command, given(command.path, path)) for command in COMMANDS]
    return [(command, pairs) for command, pairs in rows if pairs is not None]


def answer_to(method, target, token, body):
    """What the reply to a request may be. The token is the bytes of its header, or None if there is none."""
    path, _, query = target.partition("?")
    rows = by_the_path(path)
    if not rows:
        return Answer([MISSING])
    pairs = [(kind, decoded(part)) for kind, part in rows[0][1]]
    if not all(text is not None and is_named(kind, text) for kind, text in pairs):
        return Answer([MISSING])
    asked = parameters(query)
    if ("pool", "all") in pairs or is_not_served(method, path, asked):
        return Answer([NOT_SERVED])
    commands = [command for command, _ in rows if method in command.methods]
    if not commands:
        return Answer([NO_METHOD])
    return answer_of(method, commands[0], pairs, asked, token, body)


def answer_of(method, command, pairs, asked, token, body):
    faults = [None]
    if command.reads:
        faults = documents.faults_of(command.reads, body, pairs[-1][1] if pairs else None)
    answers = [(400, fault) for fault in faults if fault]
    if None in faults:
        fault = parameter_fault(method, command, asked)
        answers += [fault] if fault else by_the_state(command, token)
    return Answer(answers, command)


# ---- heads


class Head:
    def __init__(self, method, target, minor, headers, end):
        self.method, self.target, self.minor, self.headers, self.end = method, target, minor, headers, end

    def values(self, name):
        return [value for key, value in self.headers if key.lower() == name]

    def closes(self):
        words = [word.strip(b" \t").lower() for value in self.values(b"connection") for word in value.split(b",")]
        return self.minor == b"0" or b"close" in words

    def token(self):
        values = self.values(b"x-nomad-token")
        return values[0] if values and values[0] else None


TCHAR = rb"[!#$%&'*+.^_`|~0-9A-Za-z-]"
LINE = re.compile(rb"(" + TCHAR + rb"+) ([^\x00-\x20\x7f]+) HTTP/1\.([01])(?:\r\n|\n)")
FIELD = re.compile(rb"(" + TCHAR + rb"+):([\t\x20-\x7e\x80-\xff]*)(?:\r\n|\n)")
EMPTY = re.compile(rb"\r\n|\n")
# What may still become a first line, a header or the empty line after the headers, up to the end of the input.
VERSION = b"HTTP/1."
LINE_BEGUN = re.compile(
    rb"(?:\r|" + TCHAR + rb"*|" + TCHAR + rb"+ [^\x00-\x20\x7f]*|"
    + TCHAR + rb"+ (?P<target>[^\x00-\x20\x7f]+) (?P<version>[^\r]*)\r?)\Z"
)
FIELD_BEGUN = re.compile(rb"(?:\r|" + TCHAR + rb"+(?::[\t\x20-\x7e\x80-\xff]*\r?)?)?\Z")
CUT, BAD, LARGE = "cut", "bad", "large"


def is_version_begun(text):
    return text is None or VERSION.startswith(text) or re.fullmatch(rb"HTTP/1\.[01]", text) is not None


def line_begun(window, at):
    found = LINE_BEGUN.match(window, at)
    if not found or not is_version_begun(found["version"]) or not is_text(found["target"] or b""):
        return False
    return not (found[0].endswith(b"\r") and found["version"] is not None and len(found["version"]) < 8)


def is_text(target):
    try:
        target.decode()
    except UnicodeDecodeError:
        return False
    return True


def fields_behind(window, at):
    """The headers from `at` on, and the place after the empty line. Instead of the headers: CUT, BAD or LARGE."""
    headers = []
    while not (empty := EMPTY.match(window, at)):
        found = FIELD.match(window, at)
        if not found:
            return (CUT if FIELD_BEGUN.match(window, at) else BAD), None
        headers.append((found[1], found[2].strip(b" \t")))
        if len(headers) > HEADERS:
            return LARGE, None
        at = found.end()
    return headers, empty.end()


def head_at(data, at):
    """The head that begins at `at`, or CUT, BAD or LARGE."""
    window = data[at : at + HEAD]
    place = 0
    while empty := EMPTY.match(window, place):
        place = empty.end()
    found = LINE.match(window, place)
    if not found:
        state = CUT if line_begun(window, place) else BAD
    elif not is_text(found[2]):
        state = BAD
    else:
        state, end = fields_behind(window, found.end())
        if end:
            return Head(found[1], found[2].decode(), found[3], state, at + end)
    return LARGE if state == CUT and len(window) == HEAD else state


def body_length(head):
    """The length of the body, or the refusal."""
    lengths = head.values(b"content-length")
    is_chunked = bool(head.values(b"transfer-encoding"))
    if len(lengths) > 1 or (lengths and (is_chunked or not re.fullmatch(rb"[0-9]{1,20}", lengths[0]))):
        return BAD_HEAD
    if is_chunked:
        return NO_LENGTH
    length = int(lengths[0]) if lengths else 0
    return TOO_LARGE if length > BODY else length


# ---- a connection


class Reading:
    """The expected output for these bytes: for each request an answer and whether the connection closes, and then the exit
    status of `nsd pipe` (3 if the input ends inside a request)."""

    def __init__(self, data, known=None):
        """`known` returns the answer to a request whose answer is known, state included, and otherwise None."""
        self.answers, self.requests, self.statuses = [], [], [0]
        self.known = known
        at = 0
        while at is not None and at < len(data):
            at = self.request(data, at)

    def refused(self, pair):
        self.answers.append((Answer([pair]), True))
        self.requests.append(None)
        return None

    def cut(self):
        self.statuses = [3]
        return None

    def request(self, data, at):
        """The place after the request that begins at `at`, or None if nothing more is read."""
        head = head_at(data, at)
        if not isinstance(head, Head):
            return self.cut() if head == CUT else self.refused(BAD_HEAD if head == BAD else TOO_LARGE)
        length = body_length(head)
        if isinstance(length, tuple):
            return self.refused(length)
        end = head.end + length
        if end > len(data):
            return self.cut()
        request = (head.method.decode(), head.target, head.token(), data[head.end : end])
        self.requests.append(request)
        answer = (self.known and self.known(request)) or answer_to(*request)
        self.answers.append((answer, head.closes()))
        return None if head.closes() else end


REPLY = re.compile(
    rb"HTTP/1\.1 ([0-9]{3}) ([A-Za-z ]+)\r\nContent-Type: ([^\r\n]+)\r\n(?:X-Nomad-Index: (0|[1-9][0-9]*)\r\n)?"
    rb"Content-Length: (0|[1-9][0-9]*)\r\n(Connection: close\r\n)?\r\n"
)


class Reply:
    def __init__(self, data, at):
        """Raises ValueError where no reply begins there."""
        found = REPLY.match(data, at)
        if not found:
            raise ValueError("no reply")
        self.status, self.index = int(found[1]), found[4]
        self.phrase, self.type, self.closes = found[2].decode(), found[3].decode(), found[6] is not None
        self.end = found.end() + int(found[5])
        self.body = data[found.end() : self.end]
        if len(self.body) < int(found[5]):
            raise ValueError("a reply is cut")


def replies_of(data):
    replies, at = [], 0
    while at < len(data):
        replies.append(Reply(data, at))
        at = replies[-1].end
    return replies


def members_of(body):
    """The members of the body. None: it is no JSON object."""
    try:
        value = json.loads(body)
    except ValueError:
        return None
    return sorted(value) if isinstance(value, dict) else None


def is_body_of(command, body):
    if command is None:
        return True
    if command.members is not None:
        return members_of(body) == command.members
    if command.path == "/v1/event/stream":
        return all(members_of(line) == ["Events", "Index"] for line in body.splitlines())
    try:
        json.loads(body)
    except ValueError:
        return False
    return True


def mistake(reply, answer, closes):
    """What is wrong with the reply, or None."""
    if reply.phrase != PHRASES.get(reply.status) or reply.closes != closes:
        return "a wrong first line, or a wrong close"
    if reply.type != ("application/json" if reply.status == 200 else "text/plain; charset=utf-8"):
        return "a wrong type"
    if reply.status != 200:
        is_right = (reply.status, reply.body.decode(errors="replace")) in answer.pairs and reply.index is None
        return None if is_right else "a refusal that is not in the table"
    if DONE not in answer.pairs:
        return "it is served, and should be refused"
    if answer.body is not None:
        is_right = reply.body == answer.body and reply.index == answer.index
        return None if is_right else "another answer than the one that is known"
    if (reply.index is not None) != (answer.command.kind == "ask"):
        return "a wrong index"
    return None if is_body_of(answer.command, reply.body) else "a body that is none of this command"
