"""Writes the logs in the stored input and output of `crates/plays`, and `examples/two-lists.log`.

A part begins with one of these lines:

    === log NAME                 requests over one connection, and the log of them; no worker is driven
    === log driven NAME          the same, and a worker is driven after each request
    === alone NS FROM NAME       a log, and what `nsd alone NS --from FROM` prints of it; `--pool POOL` and `--quota QUOTA` may
                                 come before NAME, each any number of times, as `nsd alone` takes them
    === rounds NS FROM TIMES NAME    requests, then `--- again` and requests that are made TIMES times, with a driven worker;
                                 how many lines `nsd alone` prints of their log, and the last of them

Logs and what is printed for them are written here by the rules of docs/ISOLATION.md and docs/MODEL.md, and never taken from the
program. Replies to the requests of `examples/neighbours.http` are those of `bench/conversations/isolation.txt`, and those to
the requests of docs/TUTORIAL.md are those of `bench/conversations/tutorial.txt`, which are written by hand.
"""

import json
import os
import sys

sys.dont_write_bytecode = True

from conversations import conversations
from plays import TOP, Parts

UUID = "0a0a0a0a-0a0a-4a0a-8a0a-0a0a0a0a0a0"


def compact(value):
    return json.dumps(value, separators=(",", ":"), sort_keys=True)


def head(start, secret="root"):
    return f"nsd-log 3 {start} {secret}"


def log_of(lines):
    return "\n".join([head(0), *lines]) + "\n"


def with_heads(lines, place, *heads):
    """The log with these lines before the entry at the place."""
    return log_of([*lines[:place], *heads, *lines[place:]])


# ---- entries


def entry(step, body="{}", index=None, status=200):
    return compact({"Body": body, "Index": index, "Status": status, "Step": step})


def admin(do, args, secret="root"):
    return {"Args": args, "Do": do, "Kind": "Admin", "Secret": secret}


def ask(ns, do, args, secret="root"):
    return {"Args": args, "Do": do, "Kind": "Ask", "Ns": ns, "Secret": secret}


def node(pool, do, args, secret="root"):
    return {"Args": args, "Do": do, "Kind": "Node", "Pool": pool, "Secret": secret}


def work(kind, ns, worker, **more):
    return {"Kind": kind, "Ns": ns, "Worker": worker, **more}


def ident(kind, number):
    return "00000000-0000-%04d-0000-%012d" % (kind, number)


def put_pool(name, description=""):
    return admin("PutPool", {"Doc": {"Description": description, "Name": name}})


def put_quota(name, cpu, memory, secret="root"):
    limit = {"Region": "global", "RegionLimit": {"CPU": cpu, "DiskMB": 0, "MemoryMB": memory}}
    return admin("PutQuota", {"Doc": {"Description": "", "Limits": [limit], "Name": name}}, secret)


def put_namespace(name, default, allowed, quota="", description="", secret="root"):
    pools = {"Allowed": allowed, "Default": default, "Denied": []}
    doc = {"Description": description, "Name": name, "NodePoolConfiguration": pools, "Quota": quota}
    return admin("PutNamespace", {"Doc": doc}, secret)


def put_node(pool, name, cpu=1000, memory=1024, secret="root"):
    doc = {"Attributes": {}, "CPU": cpu, "DiskMB": 100000, "MemoryMB": memory, "NodeClass": ""}
    return node(pool, "PutNode", {"Doc": doc, "Name": name}, secret)


def put_policy(name, rules):
    return admin("PutPolicy", {"Doc": {"Description": "", "Name": name, "Rules": rules}})


def token_given(policies):
    doc = {"AccessorID": UUID + "8", "Name": "", "Policies": policies, "SecretID": UUID + "1", "Type": "client"}
    return entry(admin("CreateToken", {"Doc": doc}), compact(doc))


def refused(step, status, text):
    return entry(step, text, None, status)


def denied(step):
    return refused(step, 403, "Permission denied")


def groups(count, cpu, memory):
    task = {"Name": "t", "Resources": {"CPU": cpu, "MemoryMB": memory}}
    return [{"Count": count, "EphemeralDisk": {"SizeMB": 300}, "Name": "g", "Tasks": [task]}]


def register(ns, job, count, cpu, memory, secret="root", pool=""):
    doc = {"Constraints": [], "ID": job, "NodePool": pool, "Priority": 50, "TaskGroups": groups(count, cpu, memory), "Type": "service"}
    return ask(ns, "Register", {"Doc": doc, "Enforce": None}, secret)


def registered(index, number):
    return compact({"EvalCreateIndex": index, "EvalID": ident(1, number), "JobModifyIndex": index})


def list_jobs(ns, secret="root"):
    return ask(ns, "ListJobs", {"Prefix": ""}, secret)


def took(ns, worker, number):
    return entry(work("Dequeue", ns, worker, Eval=number), compact({"Took": ident(1, number)}))


def looked(ns, worker, number):
    return entry(work("Snap", ns, worker), compact({"Snapped": ident(1, number)}))


def handed_in(ns, worker, number):
    return entry(work("Submit", ns, worker), compact({"Queued": ident(1, number)}))


def applied(ns, worker, allocations):
    made = compact({"Committed": [ident(2, number) for number in allocations], "Dropped": []})
    return entry(work("Apply", ns, worker), made)


def finished(ns, worker, follower=""):
    return entry(work("Finish", ns, worker), compact({"Follower": follower, "Status": "complete"}))


def driven(ns, number, allocations, follower=""):
    """The steps of the driven worker for an evaluation. Without allocations it submits no plan."""
    plan = [handed_in(ns, 0, number), applied(ns, 0, allocations)] if allocations else []
    return [took(ns, 0, number), looked(ns, 0, number), *plan, finished(ns, 0, follower)]


def changed(log, place, **members):
    """The log, with other members in the entry at this place."""
    return [*log[:place], compact({**json.loads(log[place]), **members}), *log[place + 1 :]]


def step_changed(log, place, **members):
    """The log, with other members in the step at this place."""
    return changed(log, place, Step={**json.loads(log[place])["Step"], **members})


# ---- what is stored


class Logs(Parts):
    def alone(self, name, log, printed, status, ns="ta", first=8, lists=""):
        """Adds a replay. `lists` are words: `--pool` or `--quota`, each followed by a name."""
        text = log if isinstance(log, str) else log_of(log)
        head = " ".join(["alone", ns, str(first), *lists.split(), name])
        self.add(head, text, printed, status)

    def fault(self, name, log, own, fault, ns="ta", first=8, lists=""):
        """Adds a replay that prints the lines of the own entries at these places, and then the fault."""
        self.alone(name, log, lines_of(log, own) + fault + "\n", 1, ns, first, lists)

    def same(self, name, log, own, ns="ta", first=8, lists=""):
        self.alone(name, log, lines_of(log, own) + "same\n", 0, ns, first, lists)

    def bad(self, name, text, line):
        self.alone(name, text, f"bad log line {line}\n", 2)

    def logged(self, name, requests, log, status=0, errors=""):
        self.add(f"log {name}", requests, log_of(log), status, errors)


def lines_of(log, places):
    answers = [(place, json.loads(log[place])) for place in places]
    return "".join(f"{place} {told['Status']} {told['Body']}\n" for place, told in answers)


SETUP = [
    entry(step)
    for step in [
        put_pool("east"),
        put_pool("west"),
        put_quota("qa", 1000, 1024),
        put_namespace("default", "default", ["default"]),
        put_namespace("ta", "east", ["east"], "qa"),
        put_namespace("tb", "west", ["west"]),
        put_node("east", "n1"),
        put_node("west", "n1"),
    ]
]
LISTED = entry(list_jobs("ta"), "[]", 0)
LISTS = [*SETUP, LISTED, entry(register("tb", "x", 1, 400, 256), registered(1, 1), 1), LISTED]
ROUNDS = [
    *SETUP,
    entry(register("tb", "x", 1, 400, 256), registered(1, 1), 1),
    entry(register("ta", "web", 1, 400, 256), registered(1, 1), 1),
    took("tb", 1, 1),
    took("ta", 0, 1),
    looked("ta", 0, 1),
    looked("tb", 1, 1),
    handed_in("tb", 1, 1),
    handed_in("ta", 0, 1),
    applied("tb", 1, [1]),
    applied("ta", 0, [1]),
    finished("ta", 0),
    finished("tb", 1),
    entry(ask("ta", "QuotaUsage", {"Name": "qa"}), compact({"Name": "qa", "Used": {"CPU": 400, "DiskMB": 300, "MemoryMB": 256}}), 3),
]
OWN = [9, 11, 12, 15, 17, 18, 20]


def before(place):
    return [own for own in OWN if own < place]


def lists(parts):
    """Two lists of jobs, and a stranger's registration between them."""
    parts.alone("replay_alone", LISTS, "8 200 []\n10 200 []\nsame\n", 0)
    parts.alone("replay_alone_altered", changed(LISTS, 10, Body="[1]"), "8 200 []\ndiffers at 10\n", 1)
    parts.fault("hostile_logs", [*LISTS, took("tb", 0, 7)], [8, 10], "not a run at 11")
    parts.alone("replay_alone_from_the_beginning", LISTS, "premise fails at 4\n", 1, first=0)
    parts.same("nothing_after_the_base", LISTS, [], first=11)
    parts.same("a_base_of_all", LISTS, [], first=99)
    parts.same("the_other_tenant", LISTS, [9], ns="tb")
    parts.same("a_namespace_that_is_not_there", LISTS, [], ns="nobody")
    parts.same("the_first_namespace", LISTS, [], ns="default")
    parts.fault("the_first_namespace_of_every_pool", LISTS, [], "premise fails at 0", ns="default", first=0)


def answers(parts):
    """A round of each of two tenants, with each member of each reply altered."""
    parts.same("a_round_of_each", ROUNDS, OWN)
    parts.same("the_same_for_the_other", ROUNDS, [8, 10, 13, 14, 16, 19], ns="tb")
    for place in range(8, 21):
        told = json.loads(ROUNDS[place])
        fault = f"differs at {place}" if place in OWN else f"not a run at {place}"
        index = 7 if told["Index"] is None else told["Index"] + 1
        for name, members in [("body", {"Body": told["Body"] + " "}), ("index", {"Index": index}), ("status", {"Status": 400})]:
            log = changed(ROUNDS[: place + 2], place, **members)
            parts.fault(f"altered_{name}_at_{place}", log, before(place), fault)
    for place in (0, 4, 7):
        log = changed(ROUNDS[:9], place, Body="[]")
        parts.fault(f"altered_body_at_{place}_of_the_base", log, [], f"not a run at {place}")


def steps(parts):
    """Each member of a step altered; steps that are left out, doubled or too early."""

    def altered(name, place, own, fault, **members):
        parts.fault(name, step_changed(ROUNDS, place, **members), own, fault)

    altered("asked_by_nobody", 9, [], "differs at 9", Secret=None)
    altered("asked_by_a_stranger", 9, [], "differs at 9", Secret="stranger")
    altered("asked_with_an_empty_secret", 9, [], "differs at 9", Secret="")
    altered("asked_elsewhere", 9, [], "not a run at 9", Ns="tb")
    altered("asked_in_no_namespace", 9, [], "not a run at 9", Ns="")
    altered("taken_by_another_worker", 11, [9, 11], "differs at 12", Worker=2)
    altered("taken_by_a_worker_too_many", 11, [9], "differs at 11", Worker=64)
    altered("another_evaluation_taken", 11, [9], "differs at 11", Eval=2)
    altered("looked_for_another_namespace", 12, [9, 11], "not a run at 12", Ns="tb")
    altered("another_quota_asked", 20, before(20), "differs at 20", Args={"Name": "qb"})
    parts.fault("in_turn_alone_only", [*ROUNDS[:10], ROUNDS[11]], [9], "not a run at 10")
    parts.fault("an_own_step_left_out", [*ROUNDS[:12], *ROUNDS[13:]], [9, 11], "differs at 14")
    parts.fault("a_step_of_another_left_out", [*ROUNDS[:10], *ROUNDS[11:]], [9], "not a run at 10")
    parts.fault("a_step_twice", [*ROUNDS[:13], ROUNDS[12]], [9, 11, 12], "differs at 13")


def without(members, name):
    return {other: value for other, value in members.items() if other != name}


def bad_lines(parts):
    """Lines that no server writes: cut, in other bytes, with members that are missing or of another kind."""
    lines = [head(0), *ROUNDS]
    for place, line in enumerate(lines):
        parts.bad(f"cut_in_line_{place + 1}", "\n".join([*lines[:place], line[: len(line) // 2]]) + "\n", place + 1)
    parts.bad("no_line_feed_at_the_end", log_of(LISTS)[:-1], 12)
    parts.bad("an_empty_line", log_of(LISTS) + "\n", 13)
    parts.bad("no_line_at_all", "", 1)
    for version in ("1", "2", "2 0", "4 0", "9", "9 0"):
        parts.bad(f"version_{version}".replace(" ", "_"), log_of(LISTS).replace("nsd-log 3 0 ", f"nsd-log {version} "), 1)
    told = json.loads(ROUNDS[9])
    step = told["Step"]

    def bad(name, line):
        parts.bad(name, log_of([*ROUNDS[:9], line]), 11)

    for member in ("Body", "Index", "Status", "Step"):
        bad(f"no_{member}".lower(), compact(without(told, member)))
    for member in ("Args", "Do", "Kind", "Ns", "Secret"):
        bad(f"no_{member}_of_the_step".lower(), compact({**told, "Step": without(step, member)}))
    for member in ("Constraints", "ID", "NodePool", "Priority", "TaskGroups", "Type"):
        args = {"Doc": without(step["Args"]["Doc"], member), "Enforce": None}
        bad(f"no_{member}_of_the_job".lower(), compact({**told, "Step": {**step, "Args": args}}))
    kinds = [("Kind", "Admin"), ("Kind", "Nap"), ("Do", "Registers"), ("Do", "Finish"), ("Secret", 1), ("Ns", 1), ("Args", None), ("Args", [])]
    for member, value in kinds:
        bad(f"{member}_that_is_{value}".lower(), compact({**told, "Step": {**step, member: value}}))
    for member, value in [("Status", "200"), ("Status", 65536), ("Index", "1"), ("Index", -1), ("Body", None)]:
        bad(f"{member}_that_is_{value!r}".lower(), compact({**told, member: value}))
    order = {member: told[member] for member in ("Index", "Body", "Status", "Step")}
    bad("members_in_another_order", json.dumps(order, separators=(",", ":")))
    bad("a_space_between", json.dumps(told, sort_keys=True))
    no_disk(parts, bad, told)


def no_disk(parts, bad, told):
    """Lines in which the disk of a group, a node or a limit is missing or has no size, and lines in which a task has a disk."""
    step = told["Step"]
    document = step["Args"]["Doc"]
    [group] = document["TaskGroups"]
    [task] = group["Tasks"]
    groups_of = [
        ("no_disk_of_a_group", without(group, "EphemeralDisk")),
        ("no_size_of_a_disk", {**group, "EphemeralDisk": {}}),
        ("a_disk_of_no_size", {**group, "EphemeralDisk": {"SizeMB": 0}}),
        ("a_disk_with_another_member", {**group, "EphemeralDisk": {"SizeMB": 300, "Sticky": False}}),
        ("a_disk_of_a_task", {**group, "Tasks": [{**task, "Resources": {**task["Resources"], "DiskMB": 300}}]}),
    ]
    for name, other in groups_of:
        args = {"Doc": {**document, "TaskGroups": [other]}, "Enforce": None}
        bad(name, compact({**told, "Step": {**step, "Args": args}}))
    offer = json.loads(ROUNDS[6])["Step"]["Args"]
    line = step_changed(ROUNDS, 6, Args={**offer, "Doc": without(offer["Doc"], "DiskMB")})
    parts.bad("no_disk_of_a_node", log_of(line), 8)
    quota = json.loads(ROUNDS[2])["Step"]["Args"]["Doc"]
    [limit] = quota["Limits"]
    limits = [{**limit, "RegionLimit": without(limit["RegionLimit"], "DiskMB")}]
    parts.bad("no_disk_of_a_limit", log_of(step_changed(ROUNDS, 2, Args={"Doc": {**quota, "Limits": limits}})), 4)


def segments(parts):
    """Logs in segments: each segment begins with the number of entries so far and the same secret. Places count on through all
    segments."""
    own = lines_of(LISTS, [8, 10]) + "same\n"
    parts.alone("in_segments_of_6_and_5", with_heads(LISTS, 6, head(6)), own, 0)
    parts.alone("a_segment_of_no_entries", with_heads(LISTS, 6, head(6), head(6)), own, 0)
    parts.alone("a_segment_of_one_entry", log_of([*LISTS[:6], head(6), LISTS[6], head(7), *LISTS[7:]]), own, 0)
    parts.alone("a_segment_that_begins_behind_the_base", with_heads(LISTS, 9, head(9)), own, 0)
    parts.alone("no_entries_after_the_last_head", with_heads(LISTS, 11, head(11)), own, 0)
    parts.alone("two_heads_before_all_entries", with_heads(LISTS, 0, head(0)), own, 0)
    altered = with_heads(changed(LISTS, 10, Body="[1]"), 9, head(9))
    parts.alone("an_altered_reply_of_the_second_segment", altered, lines_of(LISTS, [8]) + "differs at 10\n", 1)
    parts.bad("a_segment_left_out", log_of([*LISTS[:4], head(6), *LISTS[6:]]), 6)
    parts.bad("a_segment_twice", log_of([*LISTS[:6], head(0), *LISTS[:6], head(6), *LISTS[6:]]), 8)
    parts.bad("a_first_head_that_starts_later", head(1) + "\n" + "\n".join(LISTS) + "\n", 1)
    heads = [
        ("an_earlier_start", head(5)),
        ("a_later_start", head(7)),
        ("a_start_with_a_nought_in_front", head("06")),
        ("a_start_with_a_sign", head("+6")),
        ("no_start", "nsd-log 3 root"),
        ("another_secret", head(6, "toor")),
        ("a_secret_and_more", head(6, "root2")),
        ("a_head_of_the_first_version", "nsd-log 1 root"),
        ("a_head_of_another_version", "nsd-log 4 6 root"),
        ("a_head_that_is_cut", "nsd-log 3 6"),
        ("a_space_behind_the_head", head(6) + " "),
    ]
    for name, line in heads:
        parts.bad(f"a_segment_with_{name}", with_heads(LISTS, 6, line), 8)


def administrators(parts):
    """Requests of administrators about others and about a tenant, and those that break a premise."""

    def after(name, between, own, fault=None):
        """Adds a replay of the set-up, these steps and a list. The steps at the places `own` and the list are own steps with
        the same replies. With a fault the list is not reached."""
        log = [*SETUP, *between, LISTED]
        if fault is None:
            parts.same(name, log, [*own, 8 + len(between)])
        else:
            parts.fault(name, log, own, f"premise fails at {fault}")

    read = 'namespace "%s" { policy = "read" }'
    after("a_quota_of_another", [entry(put_quota("qb", 5, 5))], [])
    after("its_quota_raised", [entry(put_quota("qa", 2000, 1024))], [8])
    after("its_quota_put_as_it_was", [entry(put_quota("qa", 1000, 1024))], [8])
    after("its_quota_shared", [entry(put_namespace("tb", "west", ["west"], "qa"))], [], 8)
    after("its_pool_shared", [entry(put_namespace("tb", "west", ["west", "east"]))], [], 8)
    after("a_namespace_of_every_pool", [entry(put_namespace("tc", "west", None))], [], 8)
    after("a_namespace_of_other_pools", [entry(put_namespace("tc", "west", []))], [])
    after("its_record_put_as_it_was", [entry(put_namespace("ta", "east", ["east"], "qa"))], [8])
    after("its_description_changed", [entry(put_namespace("ta", "east", ["east"], "qa", "a"))], [8])
    after("its_pool_described", [entry(put_pool("east", "a"))], [8])
    after("a_pool_of_another_described", [entry(put_pool("west", "a"))], [])
    after("a_policy_of_nobody", [entry(put_policy("p", read % "ta"))], [8])
    after("a_policy_for_those_without_a_token", [entry(put_policy("anonymous", read % "ta"))], [8])
    after("a_token_with_a_right_there", [entry(put_policy("p", read % "t*")), token_given(["p"])], [8, 9])
    after("a_policy_that_a_token_has", [token_given(["p"]), entry(put_policy("p", read % "ta"))], [8, 9])
    after("a_token_with_a_right_elsewhere", [entry(put_policy("p", read % "tb")), token_given(["p"])], [8, 9])
    pool_rule = 'node_pool "east" { policy = "read" }'
    after("a_token_with_a_right_on_its_pool", [entry(put_policy("p", pool_rule)), token_given(["p"])], [8, 9])
    after("a_stranger_is_refused", [denied(list_jobs("ta", "stranger"))], [8])
    given = [*SETUP, entry(put_policy("p", read % "ta")), token_given(["p"]), LISTED]
    taken = [*given, entry(admin("DeletePolicy", {"Name": "p"})), LISTED]
    parts.same("a_right_of_the_base_taken_away", taken, [10, 11, 12], first=10)
    with_token = [*given[:10], entry(list_jobs("ta", UUID + "1"), "[]", 0)]
    parts.same("asked_with_a_token_of_the_base", with_token, [10], first=10)
    shared = entry(put_namespace("tb", "west", ["west"], "qa"), "[]")
    parts.fault("shared_and_logged_otherwise", [*SETUP, shared], [], "premise fails at 8")


WEB = compact([{"ID": "web", "JobModifyIndex": 1, "Namespace": "ta", "Priority": 50, "Status": "pending", "Type": "service"}])


def records(parts):
    """Requests of administrators about a tenant's record, its pool and its quota."""
    again = entry(put_namespace("ta", "east", ["east"], "qa"))
    foreign = put_namespace("ta", "east", ["east", "west"], "qa")
    unknown = put_namespace("ta", "east", ["east", "north"], "qa")
    parts.fault("its_record_gets_a_foreign_pool", [*SETUP, LISTED, entry(foreign), LISTED], [8], "premise fails at 9")
    by_stranger = put_namespace("ta", "east", ["east", "west"], "qa", "", "stranger")
    parts.same("a_stranger_puts_its_record_with_a_foreign_pool", [*SETUP, LISTED, denied(by_stranger), LISTED], [8, 10])
    parts.same("its_record_with_a_pool_that_is_not_there", [*SETUP, LISTED, refused(unknown, 400, "bad field: Allowed"), LISTED], [8, 10])
    in_use = refused(put_namespace("ta", "west", ["west"], "qa"), 400, "in use")
    web = [entry(register("ta", "web", 1, 400, 256), registered(1, 1), 1)]
    listed = entry(list_jobs("ta"), WEB, 1)
    parts.same("its_record_keeps_a_pool_in_use", [*SETUP, *web, in_use, listed], [8, 10])
    no_quota = refused(put_namespace("ta", "east", ["east"]), 400, "in use")
    parts.same("its_record_keeps_a_quota_in_use", [*SETUP, *web, no_quota, listed], [8, 9, 10])
    parts.same("its_record_loses_its_quota", [*SETUP, entry(put_namespace("ta", "east", ["east"])), LISTED], [8, 9])
    parts.fault("its_record_of_every_pool", [*SETUP, LISTED, entry(put_namespace("ta", "east", None, "qa"))], [8], "premise fails at 9")
    gone = [entry(admin("DeleteNamespace", {"Name": "ta"})), refused(list_jobs("ta"), 404, "not found")]
    parts.same("its_record_deleted_and_put_anew", [*SETUP, LISTED, *gone, again, LISTED], [8, 9, 10, 11, 12])
    kept = refused(admin("DeleteNamespace", {"Name": "ta"}), 400, "in use")
    parts.same("its_record_with_a_job_stays", [*SETUP, *web, kept, listed], [8, 9, 10])
    taken = entry(put_namespace("tb", "west", ["west", "east"]))
    parts.fault("its_pool_given_away_while_it_is_gone", [*SETUP, *gone, taken], [8, 9], "premise fails at 10")
    other = [entry(admin("DeleteNamespace", {"Name": "tb"})), entry(put_namespace("tb", "west", ["west"]))]
    parts.same("the_record_of_another_deleted_and_put_anew", [*SETUP, LISTED, *other, LISTED], [8, 11])


def owned(parts):
    """Requests of administrators about quotas and pools, and for lists."""
    limit = {"Region": "global", "RegionLimit": {"CPU": 1000, "DiskMB": 0, "MemoryMB": 1024}}
    quota = {"Description": "", "Limits": [limit], "Name": "qa"}
    pools = [{"Description": "", "Name": name} for name in ("default", "east", "west")]
    spaces = [
        {"Description": "", "Name": name, "NodePoolConfiguration": {"Allowed": [pool], "Default": pool, "Denied": []}, "Quota": own}
        for name, pool, own in [("default", "default", ""), ("ta", "east", "qa"), ("tb", "west", "")]
    ]
    asked = [
        entry(admin("ReadQuota", {"Name": "qa"}), compact(quota)),
        refused(admin("ReadQuota", {"Name": "qb"}), 404, "not found"),
        denied(admin("ReadQuota", {"Name": "qa"}, "stranger")),
        refused(admin("DeleteQuota", {"Name": "qa"}), 400, "in use"),
        refused(admin("DeleteQuota", {"Name": "qb"}), 404, "not found"),
        refused(admin("DeletePool", {"Name": "east"}), 400, "in use"),
        refused(admin("DeletePool", {"Name": "west"}), 400, "in use"),
        entry(admin("ListQuotas", {}), compact([quota])),
        entry(admin("ListPools", {}), compact(pools)),
        entry(admin("ListNamespaces", {}), compact(spaces)),
        denied(admin("ListQuotas", {}, "stranger")),
        LISTED,
    ]
    parts.same("its_quota_and_its_pool", [*SETUP, *asked], [8, 10, 11, 13, 19])


def access(parts):
    """Requests of administrators about policies and tokens, which are own steps of each namespace."""
    rules = 'namespace "tb" { policy = "read" }'
    policy = {"Description": "", "Name": "p", "Rules": rules}
    asked = [
        refused(admin("ReadPolicy", {"Name": "p"}), 404, "not found"),
        entry(put_policy("p", rules)),
        entry(admin("ReadPolicy", {"Name": "p"}), compact(policy)),
        token_given(["p"]),
        denied(admin("ReadPolicy", {"Name": "p"}, UUID + "1")),
        denied(list_jobs("ta", UUID + "1")),
        entry(list_jobs("tb", UUID + "1"), "[]", 0),
        entry(admin("DeleteToken", {"AccessorID": UUID + "8"})),
        denied(list_jobs("tb", UUID + "1")),
        entry(admin("DeletePolicy", {"Name": "p"})),
        refused(admin("DeletePolicy", {"Name": "p"}), 404, "not found"),
        LISTED,
    ]
    parts.same("policies_and_tokens", [*SETUP, *asked], [8, 9, 10, 11, 12, 13, 15, 17, 18, 19])
    parts.same("policies_and_tokens_for_the_other", [*SETUP, *asked], [8, 9, 10, 11, 12, 14, 15, 16, 17, 18], ns="tb")


def given_lists(parts):
    """Pools and quotas that are named, in place of those that the namespace has after the base."""
    parts.same("with_its_pool_and_its_quota", LISTS, [8, 10], lists="--pool east --quota qa")
    parts.same("with_names_twice_and_of_nothing", LISTS, [8, 10], lists="--quota qz --pool east --pool north --quota qa --pool east")
    parts.fault("with_its_pool_alone", LISTS, [], "premise fails at 8", lists="--pool east")
    parts.fault("with_its_quota_alone", LISTS, [], "premise fails at 8", lists="--quota qa")
    parts.same("with_its_pool_alone_where_it_names_no_quota", LISTS, [9], ns="tb", lists="--pool west")
    parts.fault("with_a_pool_of_another", LISTS, [], "premise fails at 8", lists="--pool east --pool west --quota qa")
    parts.fault("with_another_pool", LISTS, [], "premise fails at 8", lists="--pool north --quota qa")
    south = [*SETUP, entry(put_pool("south"))]
    both = "--pool east --pool south --quota qa"
    wider = [*south, entry(put_namespace("ta", "east", ["east", "south"], "qa")), LISTED]
    parts.same("it_gets_a_pool_of_the_list", wider, [8, 9, 10], lists=both)
    parts.fault("it_gets_a_pool_that_is_not_listed", wider, [], "premise fails at 9")
    another = [*south, entry(put_namespace("tb", "west", ["west", "south"])), LISTED]
    parts.fault("another_gets_a_pool_of_the_list", another, [8], "premise fails at 9", lists=both)
    parts.same("another_gets_a_pool_that_is_not_listed", another, [10])
    quotas = [*SETUP, entry(put_quota("qb", 5, 5)), entry(put_namespace("tb", "west", ["west"], "qb")), LISTED]
    parts.fault("another_gets_a_quota_of_the_list", quotas, [8], "premise fails at 9", lists="--pool east --quota qa --quota qb")
    parts.same("another_gets_a_quota_that_is_not_listed", quotas, [10])


def reports(parts):
    """A neighbour's allocation in a pool that now belongs to the tenant. It was told to stop, and is reported as ended."""
    moved = [
        entry(put_pool("east")),
        entry(put_pool("west")),
        entry(put_namespace("default", "default", ["default"])),
        entry(put_namespace("tb", "east", ["east", "west"])),
        entry(put_node("east", "n1")),
        entry(register("tb", "x", 1, 400, 256), registered(1, 1), 1),
        *driven("tb", 1, [1]),
        entry(ask("tb", "Deregister", {"ID": "x", "Purge": True}), registered(4, 2), 4),
        took("tb", 0, 2),
        looked("tb", 0, 2),
        handed_in("tb", 0, 2),
        applied("tb", 0, []),
        finished("tb", 0),
        entry(put_namespace("tb", "west", ["west"])),
        entry(put_namespace("ta", "east", ["east"])),
    ]

    def report(ns):
        return node("east", "Report", {"ClientStatus": "complete", "Name": "n1", "Namespace": ns, "Number": 1})

    log = [*moved, LISTED, entry(report("tb")), LISTED, entry(report("tb")), refused(report("ta"), 404, "not found")]
    parts.same("a_report_of_the_allocation_of_another", log, [19, 21, 23], first=19)
    parts.fault("what_it_was_told_to_stop_may_run_elsewhere", log, [], "premise fails at 19", ns="tb", first=19)
    parts.same("what_it_was_told_to_stop_has_ended_elsewhere", log, [], ns="tb", first=21)


def tenants_administration(parts):
    """A tenant is set up, and its quota changed, beside another tenant."""
    log = [
        entry(put_namespace("default", "default", ["default"])),
        entry(put_pool("east")),
        entry(put_pool("west")),
        entry(put_quota("qa", 1000, 1024)),
        entry(put_namespace("ta", "east", ["east"], "qa")),
        entry(put_namespace("tb", "west", ["west"])),
        entry(put_node("east", "n1")),
        entry(put_node("west", "n1")),
        LISTED,
        entry(put_quota("qa", 500, 1024)),
        entry(register("tb", "web", 1, 100, 300), registered(1, 1), 1),
        LISTED,
    ]
    lists = "--pool east --quota qa"
    printed = "1 200 {}\n3 200 {}\n4 200 {}\n6 200 {}\n8 200 []\n9 200 {}\n11 200 []\nsame\n"
    parts.alone("tenants_administration", log, printed, 0, first=1, lists=lists)
    parts.alone("tenants_administration_from_the_beginning", log, "premise fails at 0\n", 1, first=0, lists=lists)


def quota_change_wakes(parts):
    """An evaluation waits for its quota, and new limits wake it."""
    evaluation = {
        **{"BlockedEval": "", "CreateIndex": 2, "EscapedComputedClass": False, "ID": ident(1, 2), "JobID": "web", "ModifyIndex": 3},
        **{"Namespace": "ta", "NodePool": "east", "PreviousEval": ident(1, 1), "Priority": 50, "QuotaLimitReached": "qa"},
        **{"Status": "pending", "TriggeredBy": "queued-allocs", "Type": "service"},
    }
    log = [
        *SETUP[:2],
        entry(put_quota("qa", -1, 1024)),
        *SETUP[3:],
        entry(register("ta", "web", 1, 400, 256), registered(1, 1), 1),
        took("ta", 0, 1),
        looked("ta", 0, 1),
        finished("ta", 0, ident(1, 2)),
        entry(put_quota("qa", 1000, 1024)),
        entry(ask("ta", "ReadEvaluation", {"Number": 2}), compact(evaluation), 3),
    ]
    first, second = "00000000-0000-0001-0000-000000000001", "00000000-0000-0001-0000-000000000002"
    printed = [
        f'8 200 {{"EvalCreateIndex":1,"EvalID":"{first}","JobModifyIndex":1}}',
        f'9 200 {{"Took":"{first}"}}',
        f'10 200 {{"Snapped":"{first}"}}',
        f'11 200 {{"Follower":"{second}","Status":"complete"}}',
        "12 200 {}",
        f'13 200 {{"BlockedEval":"","CreateIndex":2,"EscapedComputedClass":false,"ID":"{second}","JobID":"web","ModifyIndex":3,'
        f'"Namespace":"ta","NodePool":"east","PreviousEval":"{first}","Priority":50,"QuotaLimitReached":"qa","Status":"pending",'
        '"TriggeredBy":"queued-allocs","Type":"service"}',
        "same",
    ]
    parts.alone("quota_change_wakes", log, "\n".join(printed) + "\n", 0)


def sharing(parts):
    """A tenant that shares its quota for a while."""
    share = entry(put_namespace("tb", "west", ["west"], "qa"))
    log = [*SETUP, LISTED, share, LISTED, entry(put_namespace("tb", "west", ["west"])), LISTED]
    parts.fault("shares_its_quota_for_a_while", log, [8], "premise fails at 9")
    parts.fault("when_it_begins_to_share", log, [], "premise fails at 9", first=9)
    parts.fault("while_it_shares", log, [], "premise fails at 11", first=11)
    parts.same("alone_again", log, [12], first=12)


TEAM_A, TEAM_B = ("02020202-0202-4202-8202-020202020202", "04040404-0404-4404-8404-040404040404")


def index_in(words):
    """The index that a reply shows, if it shows one."""
    return next((int(word[1:]) for word in words if word.startswith("@")), None)


def connections(parts):
    """The logs of connections."""
    [pairs] = [
        pairs
        for name, pairs, _ in conversations([os.path.join(TOP, "bench", "conversations", "isolation.txt")])
        if name == "root 1 driven a_tenant_beside_a_neighbour"
    ]
    told = [(body, index_in(words)) for _, (words, body) in pairs]
    setup = [
        put_pool("east"),
        put_pool("west"),
        put_quota("qa", 500, 512),
        put_namespace("default", "default", []),
        put_namespace("ta", "east", [], "qa"),
        put_namespace("tb", "west", []),
        put_node("east", "e1", 2000, 4096),
        put_node("west", "w1", 2000, 4096),
    ]
    log = [
        *(entry(step) for step in setup),
        entry(register("tb", "api", 1, 100, 300), *told[8]),
        *driven("tb", 1, [1]),
        entry(register("ta", "web", 3, 200, 128), *told[9]),
        *driven("ta", 1, [1, 2], ident(1, 2)),
        entry(node("west", "SetStatus", {"Name": "w1", "Status": "down"})),
        *driven("tb", 2, [], ident(1, 3)),
        entry(list_jobs("tb"), *told[11]),
        entry(ask("ta", "JobAllocations", {"ID": "web"}), *told[12]),
        entry(ask("ta", "JobEvaluations", {"ID": "web"}), *told[13]),
        entry(ask("ta", "Events", {"From": 0}), *told[14]),
        entry(ask("ta", "QuotaUsage", {"Name": "qa"}), *told[15]),
    ]
    with open(os.path.join(TOP, "examples", "neighbours.http"), encoding="utf-8", newline="") as file:
        parts.add("log driven a_tenant_beside_a_neighbour", file.read(), log_of(log), 0)
    parts.same("a_tenant_beside_a_neighbour_alone", log, [*range(14, 20), *range(25, 29)])
    parts.same("the_neighbour_alone", log, [*range(8, 14), *range(20, 25)], ns="tb")
    document = compact({"Job": {"ID": "web", "TaskGroups": [{"Name": "g", "Tasks": [{"Name": "t"}]}]}})
    post = request("POST", "/v1/jobs", document)
    last = "GET /v1/job/web HTTP/1.1\nX-Nomad-Token: root\nConnection: close\n\n"
    job = {
        **{"Constraints": [], "CreateIndex": 1, "ID": "web", "JobModifyIndex": 1, "Namespace": "default"},
        **{"NodePool": "default", "Priority": 50, "Status": "pending", "Stop": False},
        **{"TaskGroups": groups(1, 100, 300), "Type": "service", "Version": 0},
    }
    read = ask("default", "ReadJob", {"ID": "web"})
    two = [entry(register("default", "web", 1, 100, 300), registered(1, 1), 1), entry(read, compact(job), 1)]
    parts.logged("a_job_registered_and_read", post + last, two)
    parts.logged("the_last_request_cut_short", post + post[:-1], two[:1], 3, "read fault\n")
    parts.logged("no_request", "", [])
    given = "GET /v1/nothing HTTP/1.1\n\nGET /v1/job/web HTTP/1.1\n\n" + request("GET", "/v1/job/api") + last
    by_nobody = denied(ask("default", "ReadJob", {"ID": "web"}, None))
    missed = refused(ask("default", "ReadJob", {"ID": "api"}), 404, "not found")
    parts.logged("refused_without_the_state_and_by_it", given, [by_nobody, missed, refused(read, 404, "not found")])


def tutorial_laid_out(told):
    """The steps by which docs/TUTORIAL.md sets up its tenants. `told` are the bodies of its replies."""
    rules = 'namespace "%s" { policy = "write" } node_pool "%s" { policy = "write" }'
    return [
        put_pool("east", "machines of ta"),
        put_pool("west", "machines of tb"),
        put_quota("qa", 500, 512),
        put_quota("qb", 1000, 1024),
        put_namespace("default", "default", ["default"]),
        put_namespace("ta", "east", ["east"], "qa"),
        put_namespace("tb", "west", ["west"], "qb"),
        admin("ListNamespaces", {}),
        put_policy("ta", rules % ("ta", "east")),
        put_policy("tb", rules % ("tb", "west")),
        admin("CreateToken", {"Doc": json.loads(told[10])}),
        admin("CreateToken", {"Doc": json.loads(told[11])}),
        put_node("east", "e1", 2000, 4096, TEAM_A),
        put_node("west", "w1", 2000, 4096, TEAM_B),
        node("east", "ListNodes", {}, TEAM_A),
    ]


def tutorial_worked():
    """The steps that docs/TUTORIAL.md makes after that, without those of workers."""
    return [
        register("ta", "web", 2, 200, 128, TEAM_A),
        register("tb", "api", 1, 100, 300, TEAM_B),
        ask("ta", "JobEvaluations", {"ID": "web"}, TEAM_A),
        ask("ta", "JobAllocations", {"ID": "web"}, TEAM_A),
        ask("ta", "QuotaUsage", {"Name": "qa"}, TEAM_A),
        list_jobs("tb", TEAM_B),
        register("ta", "mail", 1, 200, 128, TEAM_A),
        ask("ta", "JobEvaluations", {"ID": "mail"}, TEAM_A),
        ask("ta", "JobAllocations", {"ID": "mail"}, TEAM_A),
        put_quota("qa", 1000, 1024, TEAM_A),
        put_quota("qa", 1000, 1024),
        ask("ta", "ReadEvaluation", {"Number": 3}, TEAM_A),
        ask("ta", "JobAllocations", {"ID": "mail"}, TEAM_A),
        ask("ta", "QuotaUsage", {"Name": "qa"}, TEAM_A),
        node("east", "ListNodes", {}, TEAM_A),
        list_jobs("ta", TEAM_B),
        list_jobs("nowhere", TEAM_B),
        list_jobs("ta", None),
        node("east", "ListNodes", {}, TEAM_B),
        admin("ListNamespaces", {}, TEAM_B),
        admin("ListPools", {}, TEAM_B),
        ask("tb", "QuotaUsage", {"Name": "qa"}, TEAM_B),
        register("tb", "api", 1, 100, 300, TEAM_B, "east"),
        register("tb", "api", 1, 100, 300, TEAM_B, "nowhere"),
        ask("tb", "ListAllocations", {"Prefix": ""}, TEAM_B),
    ]


def tutorial(parts):
    """The log of docs/TUTORIAL.md, for a reader who makes each request once."""
    [pairs] = [
        pairs
        for name, pairs, _ in conversations([os.path.join(TOP, "bench", "conversations", "tutorial.txt")])
        if name == "root 1 driven two_tenants_from_nothing"
    ]
    steps = [*tutorial_laid_out([body for _, (_, body) in pairs]), *tutorial_worked()]
    after = {15: driven("ta", 1, [1, 2]), 16: driven("tb", 1, [1]), 21: driven("ta", 2, [], ident(1, 3)), 25: driven("ta", 3, [3])}
    log = []
    for place, (step, (_, (words, body))) in enumerate(zip(steps, pairs, strict=True)):
        log += [entry(step, body, index_in(words), int(words[0])), *after.get(place, [])]
    parts.same("the_tutorial_for_tb", log, [*range(21, 27), 30, *range(54, 58)], ns="tb", first=15)
    own = [*range(15, 21), *range(27, 30), *range(31, 49), 50, 51]
    parts.same("the_tutorial_for_ta", log, own, first=15)
    parts.same("the_tutorial_for_ta_behind_its_raised_quota", log, [place for place in own if place > 38], first=39)


def request(method, path, body=None):
    head = f"{method} {path} HTTP/1.1\nX-Nomad-Token: root\n"
    return head + ("\n" if body is None else f"Content-Length: {len(body)}\n\n{body}")


def put(path, document):
    return request("PUT", path, json.dumps(document, separators=(",", ":")))


def rounds(parts):
    """Ten thousand steps of three tenants: each registers a job, which is placed, reads it, and deregisters it, which stops it."""
    tenants = [("ta", "east"), ("tb", "west"), ("tc", "north")]

    def confined(pool):
        return {"NodePoolConfiguration": {"Default": pool, "Allowed": []}}

    once = [put(f"/v1/node/pool/{pool}", {}) for _, pool in tenants]
    once += [put("/v1/namespace/default", confined("default"))]
    once += [put(f"/v1/namespace/{ns}", confined(pool)) for ns, pool in tenants]
    once += [put(f"/v1/node/pool/{pool}/node/n1", {"CPU": 1000, "MemoryMB": 1024}) for _, pool in tenants]
    document = json.dumps({"Job": {"ID": "web", "TaskGroups": [{"Name": "g", "Tasks": [{"Name": "t"}]}]}}, separators=(",", ":"))
    again = []
    for ns, _ in tenants:
        again += [request("POST", f"/v1/jobs?namespace={ns}", document), request("GET", f"/v1/job/web?namespace={ns}")]
        again += [request("DELETE", f"/v1/job/web?namespace={ns}")]
    eligibility = "/v1/node/pool/west/node/n1/eligibility"
    again += [put(eligibility, {"Eligibility": "ineligible"}), put(eligibility, {"Eligibility": "eligible"})]
    times = 250
    # In a round each tenant has these steps: a registration and five of the worker, a read, a deregistration and five of the
    # worker. The two of the node are own steps of tb.
    for ns, own in [("ta", 13), ("tb", 15), ("tc", 13)]:
        given = "".join(once) + "\n--- again\n" + "".join(again)
        printed = f"{own * times + 1} lines, the last: same"
        parts.add(f"rounds {ns} {len(once)} {times} of_three_tenants", given, printed, 0)


TWO_LISTS = [
    entry(put_pool("east")),
    entry(put_namespace("default", "default", [])),
    entry(put_namespace("ta", "east", [])),
    LISTED,
    entry(register("default", "x", 1, 100, 300), registered(1, 1), 1),
    LISTED,
]


def pasted(parts):
    """The log that docs/ISOLATION.md shows."""
    parts.same("the_log_to_paste", TWO_LISTS, [3, 5], first=3)
    parts.fault("the_log_to_paste_altered", changed(TWO_LISTS, 5, Body="[1]"), [3], "differs at 5", first=3)
    parts.fault("the_log_to_paste_from_its_beginning", TWO_LISTS, [], "premise fails at 2", first=0)
    parts.same("the_log_to_paste_with_its_pool", TWO_LISTS, [2, 3, 5], first=2, lists="--pool east")
    parts.fault("the_log_to_paste_with_its_pool_too_early", TWO_LISTS, [], "premise fails at 1", first=1, lists="--pool east")


def stored_parts():
    parts = Logs()
    beside = (administrators, records, owned, access, given_lists, reports, tenants_administration, quota_change_wakes, sharing)
    for add in (lists, answers, steps, bad_lines, segments, *beside, connections, tutorial, rounds, pasted):
        add(parts)
    return parts


def main():
    stored_parts().put(("log", "alone", "rounds"))
    with open(os.path.join(TOP, "examples", "two-lists.log"), "w", encoding="utf-8", newline="") as file:
        file.write(log_of(TWO_LISTS))
    return 0


if __name__ == "__main__":
    sys.exit(main())
