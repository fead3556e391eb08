"""What the server says of a document and of a text of rules before it reads its state, by docs/API.md and docs/DECISIONS.md.

This is a second reading of those pages, in Python, for the scripts that send hostile input. It shares nothing with the program.
"""

import json
import re

NAMESPACE = re.compile(r"[A-Za-z0-9-]{1,128}")
POOL = re.compile(r"[A-Za-z0-9_-]{1,128}")
IDENT = re.compile(r"[!-~]{1,128}")
UUID = re.compile(r"(?:[0-9A-Fa-f]{32}|(?P<open>\{)?(?:urn:uuid:(?!.*\}))?[0-9A-Fa-f]{8}(?:-[0-9A-Fa-f]{4}){3}-[0-9A-Fa-f]{12}(?(open)\}))")
MOST = 2_147_483_647
DEPTH = 127
EVALUATION, ALLOCATION = 1, 2


class BadJson(Exception):
    pass


class BadField(Exception):
    """A member with a bad value. The text is the name of the member."""


# ---- JSON


def depth_of(text):
    """How deep arrays and objects nest. If the text is no JSON, the number means nothing."""
    depth = most = 0
    bare = re.sub(r'"(?:[^"\\]|\\.)*"', "", text, flags=re.DOTALL)
    for mark in re.findall(r"[\[\]{}]", bare):
        depth += 1 if mark in "[{" else -1
        most = max(most, depth)
    return most


def whole_number(text):
    """The number. A number that is not a whole one within 64 bits is a float."""
    number = int(text) if len(text) < 400 else float("inf")
    if text == "-0" or not -(2**63) <= number < 2**64:
        return real_number(text)
    return number


def real_number(text):
    number = float(text)
    if number in (float("inf"), float("-inf")):
        raise BadJson
    return number


def no_constant(_):
    raise BadJson


def members_of(pairs):
    """The members as a dict. The last value of a member that is given twice counts, but the earlier one has to be text, too."""
    json.dumps(pairs, ensure_ascii=False).encode()
    return dict(pairs)


def parsed(text):
    """The value of a JSON text."""
    if depth_of(text) > DEPTH:
        raise BadJson
    try:
        value = json.loads(
            text,
            parse_int=whole_number,
            parse_float=real_number,
            parse_constant=no_constant,
            object_pairs_hook=members_of,
        )
        json.dumps(value, ensure_ascii=False).encode()
    except (ValueError, RecursionError):
        raise BadJson from None
    return value


def parsed_object(body):
    try:
        value = parsed(body.decode())
    except UnicodeDecodeError:
        raise BadJson from None
    if not isinstance(value, dict):
        raise BadJson
    return value


# ---- members


REQUIRED = object()


def member(document, name, kind, default=REQUIRED, accepts=lambda value: True):
    """The member, which has to be of this kind and accepted, or the default if it is absent."""
    value = document.get(name)
    if value is None:
        if default is REQUIRED:
            raise BadField(name)
        return default
    if not isinstance(value, kind) or (isinstance(value, bool) and kind is not bool) or not accepts(value):
        raise BadField(name)
    return value


def number(document, name, least, most, default=REQUIRED):
    return member(document, name, int, default, lambda value: least <= value <= most)


def is_short(text):
    return len(text.encode()) <= 256


def text(document, name, default=""):
    return member(document, name, str, default, is_short)


def one_of(document, name, words, default=REQUIRED):
    return member(document, name, str, default, lambda value: value in words)


def is_pool(name):
    return POOL.fullmatch(name) is not None and name != "all"


def name_or_empty(document, name, is_name):
    return member(document, name, str, "", lambda value: value == "" or is_name(value))


def each_object(document, name, least, most, read):
    """Reads the objects of a list in turn, of which there have to be `least` to `most`. An entry that is no object is a mistake
    when its turn comes."""
    for entry in member(document, name, list, [], lambda value: least <= len(value) <= most) or missing(name, least):
        if not isinstance(entry, dict):
            raise BadField(name)
        read(entry)


def missing(name, least):
    """The list of a member that is absent: empty, if it may be empty."""
    if least > 0:
        raise BadField(name)
    return []


def names(document, name, most, is_name):
    """The list of names, none of them twice. None: the member is absent."""
    entries = member(document, name, list, None, lambda value: len(value) <= most)
    if entries is None:
        return None
    if not all(isinstance(entry, str) and is_name(entry) for entry in entries) or len(set(entries)) < len(entries):
        raise BadField(name)
    return entries


def distinct(seen):
    """Returns a function that accepts each name once."""

    def accepts(name):
        is_new = IDENT.fullmatch(name) is not None and name not in seen
        seen.add(name)
        return is_new

    return accepts


# ---- documents


def is_target(value):
    is_attribute = value.startswith("${attr.") and value.endswith("}")
    return is_short(value) and (value in ("${node.class}", "${node.unique.name}") or is_attribute)


def constraint(entry):
    member(entry, "LTarget", str, accepts=is_target)
    member(entry, "RTarget", str, accepts=is_short)
    one_of(entry, "Operand", ("=", "!="))


def no_constraints(entry):
    member(entry, "Constraints", list, [], lambda value: value == [])


def task(seen):
    def read(entry):
        member(entry, "Name", str, accepts=distinct(seen))
        no_constraints(entry)
        resources = member(entry, "Resources", dict, {})
        number(resources, "CPU", 1, MOST, 100)
        number(resources, "MemoryMB", 1, MOST, 300)

    return read


def group(seen):
    def read(entry):
        member(entry, "Name", str, accepts=distinct(seen))
        number(entry, "Count", 0, 1_000, 1)
        no_constraints(entry)
        number(member(entry, "EphemeralDisk", dict, {}), "SizeMB", 1, MOST, 300)
        each_object(entry, "Tasks", 1, 16, task(set()))

    return read


def absent(document, name):
    if document.get(name) is not None:
        raise BadField(name)


def registration(document, _):
    job = member(document, "Job", dict)
    member(job, "ID", str, accepts=IDENT.fullmatch)
    name_or_empty(job, "Namespace", NAMESPACE.fullmatch)
    one_of(job, "Type", ("service", "batch"), "service")
    number(job, "Priority", 1, 100, 50)
    name_or_empty(job, "NodePool", is_pool)
    each_object(job, "Constraints", 0, 16, constraint)
    absent(job, "Periodic")
    absent(job, "ParameterizedJob")
    each_object(job, "TaskGroups", 1, 16, group(set()))
    member(document, "EnforceIndex", bool, False)
    number(document, "JobModifyIndex", 0, 2**64 - 1, 0)


def own_name(document, path_name, is_name):
    """Reads the member `Name`. If the path has a name, it has to be absent or the same."""
    if path_name is None:
        member(document, "Name", str, accepts=is_name)
    else:
        member(document, "Name", str, path_name, lambda value: value == path_name)


def namespace(document, path_name):
    own_name(document, path_name, NAMESPACE.fullmatch)
    text(document, "Description")
    name_or_empty(document, "Quota", POOL.fullmatch)
    pools = member(document, "NodePoolConfiguration", dict, {})
    default = name_or_empty(pools, "Default", is_pool) or "default"
    allowed = names(pools, "Allowed", 1_000, is_pool)
    denied = names(pools, "Denied", 1_000, is_pool)
    if denied and (allowed is not None or default in denied):
        raise BadField("Denied")


def limit(entry):
    one_of(entry, "Region", ("global",), "global")
    limits = member(entry, "RegionLimit", dict, {})
    for name in ("CPU", "MemoryMB", "DiskMB"):
        number(limits, name, -1, 2**53, 0)


def quota(document, path_name):
    own_name(document, path_name, POOL.fullmatch)
    text(document, "Description")
    each_object(document, "Limits", 0, 1, limit)


def pool(document, path_name):
    own_name(document, path_name, is_pool)
    text(document, "Description")


def node(document, _):
    text(document, "NodeClass")
    attributes = {key: value for key, value in member(document, "Attributes", dict, {}).items() if value is not None}
    are_texts = all(isinstance(value, str) and is_short(key) and is_short(value) for key, value in attributes.items())
    if not are_texts or len(attributes) > 64:
        raise BadField("Attributes")
    number(document, "CPU", 1, MOST)
    number(document, "MemoryMB", 1, MOST)
    number(document, "DiskMB", 1, MOST, 100_000)


def status(document, _):
    one_of(document, "Status", ("ready", "down"))


def eligibility(document, _):
    one_of(document, "Eligibility", ("eligible", "ineligible"))


def uuid_number(value):
    """The number of the UUID. None: it is no UUID."""
    if UUID.fullmatch(value) is None:
        return None
    return int(re.sub(r"urn:uuid:|[{}-]", "", value), 16)


def is_id(kind):
    return lambda value: (uuid_number(value) or 0) >> 64 == kind


def report(document, _):
    member(document, "Namespace", str, accepts=NAMESPACE.fullmatch)
    member(document, "ID", str, accepts=is_id(ALLOCATION))
    one_of(document, "ClientStatus", ("running", "complete", "failed"))


def policy(document, _):
    text(document, "Description")
    rules = member(document, "Rules", str, accepts=lambda value: len(value.encode()) <= 65_536)
    if not are_rules(rules):
        raise BadField("Rules")


def token(document, _):
    text(document, "Name")
    one_of(document, "Type", ("client", "management"), "client")
    names(document, "Policies", 64, NAMESPACE.fullmatch)


# ---- rules


PATTERNS = {
    "namespace": re.compile(r"[A-Za-z0-9-]{1,128}|[A-Za-z0-9-]{0,127}\*"),
    "node_pool": re.compile(r"[A-Za-z0-9_-]{1,128}|[A-Za-z0-9_-]{0,127}\*"),
}
POLICIES = {"namespace": ("read", "write", "deny", "scale"), "node_pool": ("read", "write", "deny")}
POOL_CAPABILITIES = ("read", "write", "deny", "delete")
BLANK = " \t\r\n"
PART = re.compile(
    r'(?P<blank>[ \t\r\n]+|(?:#|//)[^\n]*)|(?P<word>[A-Za-z_][A-Za-z0-9_-]*)|(?P<digits>[0-9]+)'
    r'|"(?P<string>(?:(?!\$\{)[^"\\\n])*)"|(?P<mark>[{}=\[\],])'
)


class NoRules(Exception):
    pass


class Unsure(Exception):
    """The page leaves it open whether the text is valid: a word that begins with `true` or `false`, in place of a value, may be
    two parts."""


def are_capabilities(kind, entries):
    if not isinstance(entries, list) or not all(isinstance(entry, str) for entry in entries):
        return False
    return kind == "namespace" or all(entry in POOL_CAPABILITIES for entry in entries)


def is_rule(kind, pattern, given_policy, capabilities):
    """Whether the rule is valid. The policy and the capabilities are None if they are absent."""
    is_policy = given_policy is None or (isinstance(given_policy, str) and given_policy in POLICIES[kind])
    has_capabilities = capabilities is None or are_capabilities(kind, capabilities)
    return PATTERNS[kind].fullmatch(pattern) is not None and is_policy and has_capabilities


def are_json_rules(text_of_rules):
    try:
        whole = parsed(text_of_rules)
    except BadJson:
        return False
    kinds = [(kind, whole.get(kind)) for kind in PATTERNS if whole.get(kind) is not None]
    if not all(isinstance(blocks, dict) for _, blocks in kinds):
        return False
    given = [(kind, pattern, block) for kind, blocks in kinds for pattern, block in blocks.items() if block is not None]
    return all(
        isinstance(block, dict) and is_rule(kind, pattern, block.get("policy"), block.get("capabilities"))
        for kind, pattern, block in given
    )


def parts_of(text_of_rules):
    """Pairs of a kind and a text, without blanks and comments."""
    at, parts = 0, []
    while at < len(text_of_rules):
        found = PART.match(text_of_rules, at)
        if not found:
            raise NoRules
        kind = found.lastgroup
        if kind != "blank":
            parts.append((kind, found[kind]))
        at = found.end()
    return parts


def value_behind(parts, at):
    """A value, and the place after it. Lists are read without recursion, and the values in an inner list may be of any kind."""
    kind, part = parts[at]
    if kind in ("string", "digits"):
        return (part if kind == "string" else 0), at + 1
    if kind == "word":
        if part not in ("true", "false"):
            raise Unsure if part.startswith(("true", "false")) else NoRules
        return part == "true", at + 1
    if part != "[":
        raise NoRules
    return list_behind(parts, at + 1)


def list_behind(parts, at):
    """The list whose opening bracket was read, and the place after it."""
    open_lists = [[]]
    is_due = True
    while open_lists:
        kind, part = parts[at]
        if (kind, part) == ("mark", "]"):
            done, is_due, at = open_lists.pop(), False, at + 1
            if open_lists:
                open_lists[-1].append(done)
        elif not is_due:
            if (kind, part) != ("mark", ","):
                raise NoRules
            is_due, at = True, at + 1
        elif (kind, part) == ("mark", "["):
            open_lists.append([])
            at += 1
        else:
            value, at = value_behind(parts, at)
            open_lists[-1].append(value)
            is_due = False
    return done, at


class Block:
    def __init__(self, word, labels):
        self.word, self.labels = word, labels
        self.found = {}
        self.is_broken = False

    def add(self, word, value):
        if word in ("policy", "capabilities"):
            self.is_broken |= word in self.found
            self.found[word] = value

    def is_right(self):
        """Whether the block is valid as a block at the top."""
        if self.word not in PATTERNS:
            return True
        if self.is_broken or len(self.labels) != 1:
            return False
        given = self.found.get("policy")
        capabilities = self.found.get("capabilities")
        return is_rule(self.word, self.labels[0], given, capabilities)


def block_behind(parts, at, word):
    """The block whose word was read, up to its opening brace, and the place after that."""
    labels = []
    while parts[at][0] == "string":
        labels.append(parts[at][1])
        at += 1
    if parts[at] != ("mark", "{"):
        raise NoRules
    return Block(word, labels), at + 1


def are_blocks(parts):
    parts = [*parts, ("end", "")]
    open_blocks, at = [], 0
    while parts[at][0] != "end":
        kind, part = parts[at]
        if (kind, part) == ("mark", "}") and open_blocks:
            block = open_blocks.pop()
            if not open_blocks and not block.is_right():
                return False
            at += 1
        elif kind != "word":
            return False
        elif parts[at + 1] == ("mark", "="):
            value, at = value_behind(parts, at + 2)
            if open_blocks:
                open_blocks[-1].add(part, value)
        else:
            if open_blocks and part in ("policy", "capabilities"):
                open_blocks[-1].is_broken = True
            block, at = block_behind(parts, at + 1, part)
            open_blocks.append(block)
            if len(open_blocks) > 16:
                return False
    return not open_blocks


def are_rules(text_of_rules):
    if text_of_rules.lstrip(BLANK).startswith("{"):
        return are_json_rules(text_of_rules)
    try:
        return are_blocks(parts_of(text_of_rules))
    except NoRules:
        return False


def faults_of(read, body, path_name):
    """The texts that may refuse a document: the refusal has to be one of them. None among them: the document may be
    accepted."""
    try:
        read(parsed_object(body), path_name)
    except BadJson:
        return ["bad json"]
    except BadField as fault:
        return [f"bad field: {fault}"]
    except Unsure:
        return ["bad field: Rules", None]
    return [None]
