"""Writes the conversations in the stored input and output of `crates/plays` from the exchanges in `bench/conversations/*.txt`.

A conversation begins with `=== SECRET STEP NAME`: the bootstrap secret, by how much each draw is greater than the one
before, and what the conversation shows. Then come its exchanges:

    > METHOD TARGET [TOKEN] [HTTP/1.0]  a request, with its body, if it has one, on the next line
    + HEADER: VALUE                     headers of its own, which it then has in place of `Content-Length: 0`; `+` alone: none. One
                                        that is a `Content-Length` stands in place of the one that is counted, too
    < STATUS [@INDEX] [close]           the reply, with its body on the next line
    < STATUS @INDEX lines               the same with a line feed after each line of its body
    & read fault                        at the end: a line feed follows the last request, and no other one

Where `spaces N` stands before NAME, N spaces follow the last request and belong to its body. They are not stored.
`((TEXT N times))` in a header or a body, also of a reply, stands for the text N times, one after another. If it is the
whole header, it stands for N headers.

Replies are written down by hand, from docs/API.md, and never taken from the program. Lengths are counted here.
"""

import glob
import os
import re
import sys

sys.dont_write_bytecode = True

from plays import TOP, Parts

PHRASES = {
    "200": "OK",
    "400": "Bad Request",
    "403": "Forbidden",
    "404": "Not Found",
    "405": "Method Not Allowed",
    "409": "Conflict",
    "411": "Length Required",
    "413": "Content Too Large",
    "501": "Not Implemented",
}


ENDS_INSIDE = "& read fault"
REPEATED = re.compile(r"\(\((.+?) (\d+) times\)\)")


def repeated(text):
    return REPEATED.sub(lambda found: found[1] * int(found[2]), text)


def headers_of(line):
    found = REPEATED.fullmatch(line)
    return [found[1]] * int(found[2]) if found else [repeated(line)]


def request(words, headers, body, spaces=0):
    versions = [word for word in words if word.startswith("HTTP/")] or ["HTTP/1.1"]
    method, target, *tokens = [word for word in words if not word.startswith("HTTP/")]
    lines = [f"{method} {target} {versions[0]}"]
    lines += [f"X-Nomad-Token: {token}" for token in tokens]
    lines += filter(None, headers)
    if (body or not headers) and not any(header.lower().startswith("content-length:") for header in headers):
        lines.append(f"Content-Length: {len(body.encode()) + spaces}")
    return "\r\n".join(lines) + "\r\n\r\n" + body


def reply(words, body):
    status = words[0]
    kind = "application/json" if status == "200" else "text/plain; charset=utf-8"
    lines = [f"HTTP/1.1 {status} {PHRASES[status]}", f"Content-Type: {kind}"]
    lines += [f"X-Nomad-Index: {word[1:]}" for word in words[1:] if word.startswith("@")]
    lines.append(f"Content-Length: {len(body.encode())}")
    if "close" in words[1:]:
        lines.append("Connection: close")
    return "\r\n".join(lines) + "\r\n\r\n" + body


def blocks(text, mark):
    """The blocks that begin with a line with this mark: the rest of that line, and the lines after it."""
    for block in ("\n" + text).split("\n" + mark + " ")[1:]:
        head, *lines = block.split("\n")
        yield head, lines


def exchange(head, lines):
    """The words, headers and body of a request, and the words and body of its reply."""
    place = next(at for at, line in enumerate(lines) if line.startswith("< "))
    asked, answered = lines[:place], lines[place + 1 :]
    headers = [header for line in asked if line.startswith("+") for header in headers_of(line[2:])]
    body = repeated("".join(line for line in asked if not line.startswith("+")))
    words = lines[place][2:].split()
    ended = "\n" if "lines" in words else ""
    told = repeated("".join(line + ended for line in answered if line and line != ENDS_INSIDE))
    return (head.split(), headers, body), (words, told)


def conversations(paths):
    """For each conversation: its first line, its exchanges, and whether it ends inside a request."""
    for path in paths:
        with open(path, encoding="utf-8") as file:
            text = file.read()
        for name, lines in blocks(text, "==="):
            pairs = [exchange(head, rest) for head, rest in blocks("\n".join(lines), ">")]
            yield name, pairs, ENDS_INSIDE in lines


def spaces_of(name):
    """How many spaces follow the last request, from the name."""
    words = name.split(" ")
    return int(words[3]) if words[2] == "spaces" else 0


def sent(name, pairs):
    """The requests, without the spaces that follow the last."""
    *firsts, last = [asked for asked, _ in pairs]
    return "".join(request(*asked) for asked in firsts) + request(*last, spaces_of(name))


def assembled(paths):
    parts = Parts()
    for name, pairs, is_cut in conversations(paths):
        given, replies = sent(name, pairs), "".join(reply(*told) for _, told in pairs)
        if is_cut:
            parts.add(f"serve {name}", given + "\n", replies, 3, "read fault\n")
        else:
            parts.add(f"serve {name}", given, replies, 0)
    return parts


def stored():
    return sorted(glob.glob(os.path.join(TOP, "bench", "conversations", "*.txt")))


def main():
    assembled(stored()).put(("serve",))
    return 0


if __name__ == "__main__":
    sys.exit(main())
