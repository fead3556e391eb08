"""Hostile input, made at random from valid input: documents, rules, targets, heads and logs. Each call takes a
`random.Random`."""

import json

JOB = {"Job": {"ID": "web", "TaskGroups": [{"Name": "g", "Tasks": [{"Name": "t"}]}]}}
FULL_JOB = {
    "Job": {
        "ID": "api", "Namespace": "ta", "Type": "batch", "Priority": 80, "NodePool": "east",
        "Constraints": [{"LTarget": "${attr.os}", "RTarget": "linux", "Operand": "="},
        {"LTarget": "${node.class}", "RTarget": "", "Operand": "!="}],
        "TaskGroups": [
            {"Name": "g", "Count": 2, "EphemeralDisk": {"SizeMB": 10},
            "Tasks": [{"Name": "t", "Resources": {"CPU": 5, "MemoryMB": 7}}, {"Name": "u"}]},
            {"Name": "h", "Count": 0, "Constraints": [], "Tasks": [{"Name": "t", "Resources": {"CPU": 1}}]},
        ],
    },
    "EnforceIndex": False, "JobModifyIndex": 0,
}
ALLOCATION = "00000000-0000-0002-0000-000000000001"
EVALUATION = "00000000-0000-0001-0000-000000000001"
POOLS = {"Default": "east", "Allowed": ["east", "west"], "Denied": []}
NODE = "/v1/node/pool/east/node/n1"
DOCUMENTS = [
    ("POST", "/v1/jobs", JOB), ("PUT", "/v1/jobs?namespace=ta", JOB), ("POST", "/v1/jobs", FULL_JOB),
    ("POST", "/v1/jobs?namespace=tb", FULL_JOB),
    ("POST", "/v1/namespace", {"Name": "tc", "Description": "a", "Quota": "qa", "NodePoolConfiguration": POOLS}),
    ("PUT", "/v1/namespace/tb", {"Name": "tb", "NodePoolConfiguration": {"Denied": ["east"], "Default": "west"}}),
    ("PUT", "/v1/namespace/ta", {"Quota": "qa", "NodePoolConfiguration": POOLS}),
    ("POST", "/v1/quota", {"Name": "qb", "Description": "b", "Limits": [{"Region": "global", "RegionLimit": {"CPU": 5, "MemoryMB": -1,
    "DiskMB": 0}}]}),
    ("PUT", "/v1/quota/qa", {"Limits": [{"RegionLimit": {"CPU": 1000, "MemoryMB": 1024}}]}),
    ("POST", "/v1/node/pools", {"Name": "north", "Description": "c"}), ("PUT", "/v1/node/pool/west", {"Name": "west", "Description": ""}),
    ("PUT", NODE, {"NodeClass": "large", "Attributes": {"os": "linux", "unique.id": "7"}, "CPU": 4000, "MemoryMB": 8192, "DiskMB": 5000}),
    ("POST", NODE + "/status", {"Status": "ready"}), ("PUT", NODE + "/eligibility", {"Eligibility": "eligible"}),
    ("POST", NODE + "/report", {"Namespace": "ta", "ID": ALLOCATION, "ClientStatus": "running"}),
    ("PUT", "/v1/acl/policy/p", {"Description": "d", "Name": "x", "Rules": 'namespace "ta" { policy = "read" }'}),
    ("POST", "/v1/acl/token", {"Name": "e", "Type": "client", "Policies": ["p", "q"]}),
]


class Raw:
    """A text that is written into a document as it is."""

    def __init__(self, text):
        self.text = text


class Members(list):
    """An object as pairs, so that it may have a member twice."""


RAW = [Raw(text) for text in (
    "-0", "1.0", "5e0", "1e999", "-1e999", "01", "+1", ".5", "1.", "0x1", "NaN", "Infinity", "nul", "True", "'a'", '"\\ud800"',
    '"\\ud83d\\ude00"',
    '"\\u0000"', '"\\x41"', '"a\nb"', '"a', "[1,]", '{"a":1,}', "{1:2}", "[1 2]", "/**/1", "9" * 25, "-" + "9" * 25, "1e-999",
    "[" * 200 + "]" * 200,
    "[" * 126 + "]" * 126, "{" * 50, '"' + "\\u0061" * 128 + '"')]
NUMBERS = [0, 1, -1, 2, 16, 17, 50, 100, 101, 300, 1000, 1001, 2**31 - 1, 2**31, 2**53, 2**53 + 1, -(2**63), 2**63, 2**64 - 1, 2**64]
TEXTS = [
    "", "a", " ", "a b", "a/b", "a.b", "a_b", "a*", "*", "all", "default", "ta", "tb", "east", "west", "qa", "n1", "p", "web",
    "service", "batch", "system", "global",
    "client", "management", "ready", "down", "eligible", "complete", "lost", "x" * 128, "x" * 129, "x" * 256, "x" * 257, "é" * 128, "é",
    "\x7f", "\x01", "😀",
    "${attr.}", "${attr.os", "${node.unique.name}", "=", "!=", ALLOCATION, EVALUATION, "{" + ALLOCATION + "}", "urn:uuid:" + ALLOCATION,
    ALLOCATION.replace("-", ""), ALLOCATION.upper()]
OTHERS = [None, True, False, [], {}, [[]], {"a": None}, [None], [{}], [{}, {}], ["a", "a"], [7], {"Name": "a"}]
MEMBERS = [
    "Job", "ID", "Namespace", "Type", "Priority", "NodePool", "Constraints", "Periodic", "ParameterizedJob", "TaskGroups", "Name",
    "Count", "Tasks", "Resources", "CPU",
    "MemoryMB", "DiskMB", "SizeMB", "EphemeralDisk", "EnforceIndex", "JobModifyIndex", "Quota", "NodePoolConfiguration", "Default",
    "Allowed", "Denied", "Limits",
    "Region", "RegionLimit", "Attributes", "NodeClass", "Status", "Eligibility", "ClientStatus", "Description", "Rules", "Policies",
    "LTarget", "RTarget", "Operand"]


def paired(value):
    if isinstance(value, dict):
        return Members((name, paired(inner)) for name, inner in value.items())
    return [paired(inner) for inner in value] if isinstance(value, list) else value


def any_value(rng):
    kind = rng.randrange(8)
    if kind < 2:
        return rng.choice(NUMBERS)
    if kind < 5:
        return rng.choice(TEXTS)
    if kind < 6:
        return rng.choice(RAW)
    return paired(rng.choice(OTHERS)) if kind < 7 else paired(rng.choice(DOCUMENTS)[2])


def places_in(value):
    """Each list and object in the value, with each place in it."""
    if isinstance(value, list):
        for place, inner in enumerate(value):
            yield value, place
            yield from places_in(inner[1] if isinstance(value, Members) else inner)


def changed_member(rng, rows, place):
    name, value = rows[place]
    kind = rng.randrange(5)
    if kind < 2:
        rows[place] = (name, any_value(rng))
    elif kind == 2:
        rows[place] = (rng.choice([*MEMBERS, name.lower(), name + " ", ""]), value)
    elif kind == 3:
        rows.insert(rng.randrange(len(rows) + 1), (name, any_value(rng)))
    else:
        rows.insert(rng.randrange(len(rows) + 1), (rng.choice(MEMBERS), any_value(rng)))


def changed_document(rng, value):
    """Changes one place of a document."""
    places = list(places_in(value))
    if not places:
        return any_value(rng)
    rows, place = rng.choice(places)
    kind = rng.randrange(6)
    if kind == 0:
        del rows[place]
    elif kind == 1:
        rows.insert(place, rows[place])
    elif kind == 2:
        rows[place:] = [rows[place]] * rng.choice((16, 17, 64, 65))
    elif isinstance(rows, Members):
        changed_member(rng, rows, place)
    else:
        rows[place] = any_value(rng)
    return value


def space(rng):
    return rng.choice(["", "", "", "", "", " ", "\n", "\t\r\n", "  "])


def quoted(rng, text):
    if rng.randrange(20) == 0:
        return '"' + "".join(f"\\u{ord(mark):04x}" if ord(mark) < 0x10000 else mark for mark in text) + '"'
    return json.dumps(text, ensure_ascii=rng.randrange(4) == 0)


def written(rng, value):
    """The value as JSON, sometimes with spaces and escapes."""
    if isinstance(value, Raw):
        return value.text
    if isinstance(value, Members):
        inner = (f"{quoted(rng, name)}{space(rng)}:{written(rng, one)}" for name, one in value)
        return "{" + (space(rng) + ",").join(inner) + space(rng) + "}"
    if isinstance(value, list):
        return "[" + ",".join(written(rng, one) for one in value) + space(rng) + "]"
    return space(rng) + (quoted(rng, value) if isinstance(value, str) else json.dumps(value))


PIECES = [b"", b"\x00", b"\xff", b"\xc3", b"\xed\xa0\x80", b"\xef\xbb\xbf", b'"', b"\\", b"{", b"}", b"[", b"]", b",", b":", b" ",
    b"\n", b"\r\n", b"\r", b"%", b"%00",
          b"%ff", b"%2F", b"+", b"&", b"=", b"?", b"*", b"#", b"//", b"0", b"9" * 21, b"-1", b"1e9", b"true", b"null", b"${",
          b"\\u0000", b"\\ud800", b"A" * 300]


def changed_bytes(rng, data):
    """Changes a few bytes at one place."""
    at = rng.randrange(len(data) + 1)
    end = min(len(data), at + rng.choice((0, 1, 1, 2, 5, 20)))
    kind = rng.randrange(6)
    if kind == 0:
        return data[:at]
    if kind == 1:
        return data[:end] + data[at:]
    if kind == 2:
        return data[:at] + bytes([rng.randrange(256)]) + data[end:]
    if kind == 3:
        return data[:at] + data[end:]
    return data[:at] + rng.choice(PIECES) + data[end:]


def document_body(rng, value):
    value = paired(value)
    for _ in range(rng.choice((0, 1, 1, 1, 2, 3))):
        value = changed_document(rng, value)
    body = written(rng, value).encode("utf-8", "surrogatepass")
    return changed_bytes(rng, body) if rng.randrange(5) == 0 else body


def long_body(rng):
    """A body that is about as long as one may be, and is deep or wide."""
    size = 1_048_576
    shapes = [b'{"x":' + b"[" * (size - 6), b'{"x":[' + b"1," * (size // 2 - 4) + b"1]}",
        b'{"x":"' + b"\\u0041" * ((size - 8) // 6) + b'"}',
              b'{"a":' * (size // 5), b" " * size, b'{"x":[' + b"[]," * ((size - 10) // 3) + b"[]]}",
              b'{"Job":{"ID":"' + b"x" * (size - 20) + b'"}}']
    return rng.choice(shapes)


# ---- rules

RULES = [
    "", "# all\n", 'namespace "default" { policy = "read" }',
    'namespace "web-*" {\n  policy = "read"\n  capabilities = ["submit-job", "list-jobs",]\n}\n',
    'node_pool "web" { policy = "write" capabilities = ["read","delete"] }',
    'quota "a" "b" { x = 007 y = [[], [1, "a"], true] z { namespace "a*b" {} } }',
    '// a\nnamespace"a"{policy="scale"}node_pool"a_*"{capabilities=["deny"]}', "x = 1 y = true z = [[[[1]]]]",
    '{"namespace":{"ta":{"policy":"write"}}}',
    '{"namespace":{"web-*":{"policy":"read","capabilities":["submit-job"]}},"node_pool":{"web":{"policy":"read"}},"other":[{}]}',
    "x{x{x{x{x{x{x{}}}}}}}"]
WORDS = ["namespace", "node_pool", "policy", "capabilities", "true", "false", "x", "a-b", '"a"', '"a*"', '"*"', '"a*b"', '"read"',
    '"write"', '"deny"', '"scale"',
         '"list-jobs"', '"delete"', '"${a}"', '"\\""', "{", "}", "[", "]", "=", ",", "7", "007", "-1", " ", "\n", "#", "//", "# a\n",
         "\r", "é", '"é"', '""', ":", "1.5", "null"]


def rules_text(rng):
    text = rng.choice(RULES)
    for _ in range(rng.choice((0, 1, 1, 2, 3))):
        at = rng.randrange(len(text) + 1)
        text = text[:at] + rng.choice(WORDS) + text[at + rng.choice((0, 0, 1, 2, 6)) :]
    kind = rng.randrange(40)
    if kind == 0:
        depth = rng.choice((15, 16, 17, 18, 1_000))
        return "x{" * depth + text + "}" * depth
    if kind == 1:
        depth = rng.choice((16, 17, 127, 128, 5_000))
        return text + " x=" + "[" * depth + "]" * rng.choice((depth, depth - 1, depth + 1))
    if kind == 2:
        return text + " " * (rng.choice((65_535, 65_536, 65_537)) - len(text.encode()))
    return text.replace('"', rng.choice(WORDS), 1) if kind == 3 else text


# ---- targets

TARGETS = [
    "/v1/jobs", "/v1/job/web", "/v1/job/web/evaluations", "/v1/job/web/allocations", "/v1/evaluations", "/v1/evaluation/" + EVALUATION,
    "/v1/allocations",
    "/v1/allocation/" + ALLOCATION, "/v1/allocation/" + ALLOCATION + "/stop", "/v1/namespace/ta", "/v1/quota/usage/qa",
    "/v1/event/stream", "/v1/namespaces",
    "/v1/namespace", "/v1/quotas", "/v1/quota/qa", "/v1/quota", "/v1/node/pools", "/v1/node/pool/east", "/v1/node/pool/east/nodes",
    NODE, NODE + "/status",
    NODE + "/eligibility", NODE + "/report", "/v1/acl/policy/p", "/v1/acl/token", "/v1/acl/token/" + ALLOCATION,
    "/v1/acl/token/00000000-0000-0000-0000-000000000000",
    "/v1/nothing", "/v1", "/", "*", "http://a/v1/jobs", "/v1/jobs/", "//v1/jobs"]
METHODS = ["GET", "GET", "GET", "GET", "POST", "PUT", "DELETE", "DELETE", "HEAD", "PATCH", "OPTIONS", "get", "BREW"]
PARTS = ["web", "api", "none", "%ff", "a%20b", "a%2Fb", "%77eb", "%zz", "%", "%4", "all", "%61ll", "a_b", "a.b", "~", "é", "%c3%a9",
    "x" * 128, "x" * 129, "", ".", "..",
         "east", "qa", "ta", "n1", "p", ALLOCATION, EVALUATION, ALLOCATION.replace("-", ""), "{" + ALLOCATION + "}",
         "urn:uuid:" + ALLOCATION, "0" * 32]
QUERIES = [
    "namespace=ta", "namespace=", "namespace=*", "namespace=%2A", "namespace=a%2Fb", "namespace=a+b", "namespace=t%61",
    "namespace=none", "namespace", "name%73pace=ta",
    "prefix=w", "prefix=%ff", "prefix=00000000-", "purge=true", "purge=1", "purge=x", "purge=", "index=0", "index=", "index=1",
    "index=00", "index=x", "index=-1", "index=+1",
    "index=18446744073709551615", "index=18446744073709551616", "index=" + "0" * 40 + "1", "filter=a", "filter=", "per_page=1",
    "next_token=a", "region=west", "&&", "=a", "a=b=c",
    "namespace=tb&namespace=ta", "%", "%zz=1", "x" * 2_000]


def changed_target(rng, target):
    path = target.partition("?")[0]
    if rng.randrange(3) == 0:
        parts = path.split("/")
        parts[rng.randrange(len(parts))] = rng.choice(PARTS)
        path = "/".join(parts)
    queries = [rng.choice(QUERIES) for _ in range(rng.choice((0, 0, 1, 1, 2, 3)))]
    target = path + ("?" + "&".join(queries) if queries else "")
    return (target or "/").replace("#", "").replace(" ", "")


def secret(rng):
    """The header of a token, or no header."""
    kind = rng.randrange(20)
    if kind == 0:
        return b""
    if kind == 1:
        return b"X-Nomad-Token: " + rng.choice((b"other", b"root2", b"a b", b"x" * 65, b"\xff", b"")) + b"\r\n"
    return b"x-nomad-TOKEN:root \r\n" if kind == 2 else b"X-Nomad-Token: root\r\n"


def request(method, target, token, body):
    return method.encode() + b" " + target.encode() + b" HTTP/1.1\r\n" + token + b"Content-Length: %d\r\n\r\n" % len(body) + body


def document_request(rng):
    method, target, value = rng.choice(DOCUMENTS)
    if rng.randrange(6) == 0:
        target = changed_target(rng, target)
    body = long_body(rng) if rng.randrange(3_000) == 0 else document_body(rng, value)
    return request(method, target, secret(rng), body)


def rules_request(rng):
    """A request that puts a policy, and one that reads it."""
    document, target = {"Rules": rules_text(rng)}, "/v1/acl/policy/" + rng.choice("pqr")
    put = request("PUT", target, secret(rng), json.dumps(document, ensure_ascii=False).encode())
    return put + request("GET", target, b"X-Nomad-Token: root\r\n", b"")


def target_request(rng):
    target = changed_target(rng, rng.choice(TARGETS))
    body = rng.choice((b"", b"", b"{}", b"7", document_body(rng, rng.choice(DOCUMENTS)[2])))
    return request(rng.choice(METHODS), target, secret(rng), body)


# ---- heads

LINES = [
    b"Content-Length: 0", b"Content-Length: 2", b"Content-Length: +5", b"Content-Length: -1", b"Content-Length:", b"Content-Length: 5 ",
    b"Content-Length: 1, 1",
    b"Content-Length: 0x5", b"Content-Length: " + b"0" * 20, b"Content-Length: " + b"0" * 21, b"Content-Length: 1048576",
    b"Content-Length: 1048577",
    b"Content-Length: 18446744073709551616", b"CONTENT-LENGTH: 7", b"Transfer-Encoding: chunked", b"transfer-encoding:",
    b"Connection: close", b"Connection: a, CLOSE ,b",
    b"Connection: closed", b"Connection: keep-alive", b"X-Nomad-Token: root", b"X-Nomad-Token:", b"X-Nomad-Token: other",
    b"Expect: 100-continue", b"Host: a", b"Host: b", b"A: \xff",
    b"A: \x00", b"A: \x07", b"A : b", b" A: b", b"\tb", b"A", b": b", b"A\xc3: b", b"A:b:c", b"A: " + b"x" * 8_000,
    b"A: " + b"x" * 17_000, b"", b"A: b\rB: c", b"A: b\nB: c"]
FIRST = [b"GET /v1/jobs HTTP/1.1", b"GET /v1/jobs HTTP/1.0", b"POST /v1/jobs HTTP/1.1", b"GET  /v1/jobs HTTP/1.1",
    b"GET /v1/jobs  HTTP/1.1", b"GET /v1/jobs HTTP/1.2", b"GET /v1/jobs",
         b"GET /v1/jobs HTTP/2.0", b"GET /v1/jobs http/1.1", b"GET /v1/jobs HTTP/1.1 ", b" GET /v1/jobs HTTP/1.1",
         b"G(T /v1/jobs HTTP/1.1", b"GET /v1/\xff HTTP/1.1", b"GET /v1/\xc3\xa9 HTTP/1.1",
         b"GET\t/v1/jobs HTTP/1.1", b"\r\n\r\nGET /v1/jobs HTTP/1.1", b"\nGET /v1/jobs HTTP/1.1", b"\rGET /v1/jobs HTTP/1.1",
         b"GET /" + b"a" * 16_000 + b" HTTP/1.1", b"*", b"\x16\x03\x01\x02\x00",
         b"PRI * HTTP/2.0", b"GET /v1/job/web?namespace=ta HTTP/1.1"]


def head_bytes(rng):
    lines = [b"X-Nomad-Token: root"] * rng.randrange(2) + [rng.choice(LINES) for _ in range(rng.choice((0, 0, 1, 1, 3)))]
    rng.shuffle(lines)
    if rng.randrange(30) == 0:
        lines += [b"A: b"] * (rng.choice((63, 64, 65, 66)) - len(lines))
    if rng.randrange(30) == 0:
        lines.append(b"B: " + b"y" * (rng.choice((16_384, 16_385)) - 300 - rng.randrange(60)))
    end = b"\n" if rng.randrange(8) == 0 else b"\r\n"
    first = rng.choice(FIRST) if rng.randrange(5) == 0 else rng.choice(METHODS).encode() + b" /v1/jobs HTTP/1.1"
    head = end.join([first, *lines]) + end + end
    if rng.randrange(4) == 0:
        head = changed_bytes(rng, head)
    return head + rng.choice((b"", b"", b"", b"", b"", b"{}", b"abcde", b"\r\n", b"x" * 300))


# ---- logs


def compact(value):
    return json.dumps(value, separators=(",", ":"), sort_keys=True, ensure_ascii=False)


def changed_entry(rng, line):
    """A changed entry, written as the program would write it. In half of the cases only the reply is changed."""
    try:
        told = json.loads(line)
    except ValueError:
        return line + "0"
    if rng.randrange(2) == 0:
        other = {"Status": rng.choice((200, 400, 403, 404, 409, 503, 0)), "Index": rng.choice((None, 0, 1, 2, 2**64 - 1)),
            "Body": rng.choice(("{}", "[]", "", "not found", "é\n\"\\\x01"))}
        name = rng.choice(sorted(other))
        return compact({**told, name: other[name]})
    value = paired(told)
    changed_document(rng, value)
    try:
        return compact(json.loads(written(rng, value)))
    except (ValueError, RecursionError):
        return line + " "


def changed_log(rng, text):
    lines = text.split("\n")
    at = rng.randrange(len(lines))
    kind = rng.randrange(11)
    if kind < 4:
        lines[at] = changed_entry(rng, lines[at])
    elif kind == 4:
        del lines[at]
    elif kind == 5:
        lines.insert(rng.randrange(len(lines)), lines[at])
    elif kind == 6:
        other = rng.randrange(len(lines))
        lines[at], lines[other] = lines[other], lines[at]
    elif kind == 7:
        lines.insert(at, rng.choice(("", "nsd-log 3 %d root" % max(at - 1, 0), "nsd-log 3 0 root", "nsd-log 1 root", "{}", "[" * 1_000,
            "x" * 100_000, "\x00")))
    elif kind == 8:
        return "\n".join(lines[:at]).encode() + b"\n"
    elif kind == 9:
        lines[at] += rng.choice(("\r", " ", "\t", "\x00"))
    else:
        return changed_bytes(rng, text.encode())
    return "\n".join(lines).encode("utf-8", "surrogatepass")
