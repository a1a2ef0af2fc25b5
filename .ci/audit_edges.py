"""Recordings that are always the same, for .ci/audits: what a line may be, which lines may follow one another, and which of several reasons is given.

Each is a name, the bytes, and the front of the answer, which was worked out by hand from docs/FORMATS.md.
"""
from damaged_lines import BROKEN, COMMIT, MEMBERS, NO_BYTES, NO_LINES, RIGHT, SAMPLES, WAYS, WRONG, Raw, joined, with_member, written_line

# Operations in a row, and the fault of the last line. A line with `!` has no member that is read.
ORDERS = (
    ("Other", "out-of-order"), ("Commit", "out-of-order"), ("PutObject!", "out-of-order"), ("Fetch", "unknown-op"), ("Job Job!", "out-of-order"),
    ("Job Attempt Job", "out-of-order"), ("Job Commit Job", "out-of-order"), ("Job File!", "out-of-order"), ("Job Object File", "out-of-order"),
    ("Job Commit Attempt!", "out-of-order"), ("Job Commit Object!", "out-of-order"), ("Job Attempt Commit File!", "out-of-order"),
    ("Job PutObject Attempt!", "out-of-order"), ("Job DeleteObjects Object!", "out-of-order"), ("Job Attempt DeleteObject File!", "out-of-order"),
    ("Job Commit Commit", "repeated"), ("Job Commit PutObject Commit", "repeated"), ("Job Attempt Attempt", "repeated"),
    ("Job Attempt File Attempt", "repeated"), ("Job Attempt File File", "repeated"), ("Job Object Object", "repeated"),
    ("Job Object Attempt Object", "repeated"), ("Job", None), ("Job Commit", None), ("Job PutObject Commit", None), ("Job Commit PutObject Other", None),
    ("Job CopyObject Attempt File Object", None), ("Job Other Attempt Other File Other Object", None), ("Job Object Attempt File", None))
# What the job keeps, how many tasks it has, its attempts with their files, the old files, the requests, and the answer. That is `sound`, or the first reason,
# which holds after the request with `!`. The tag of a file is the name of its attempt, or `old`.
REASONS = (
    # Where several reasons hold, the first of the table is given.
    ("all", 1, {}, "", ["!put a x"], 'early "a"'),
    ("all", 1, {"0.0": "a"}, "_SUCCESS", ["!put a 0.0"], 'early "a"'),
    ("all", 1, {"0.0": "a"}, "old", ["!delete old"], 'early "old"'),
    ("all", 1, {}, "", ["!put _SUCCESS x"], "missing 0"),
    ("all", 1, {}, "", ["commit", "!put a x"], "missing 0"),
    ("all", 1, {}, "_SUCCESS old", ["commit", "!delete old"], "missing 0"),
    ("all", 1, {"0.0": "a"}, "_SUCCESS", ["commit", "!put a x"], 'foreign "a"'),
    ("all", 1, {"0.0": "a"}, "", ["commit", "put a 0.0", "put _SUCCESS x", "!put a x"], 'foreign "a"'),
    ("all", 1, {"0.0": "a", "0.1": "b"}, "_SUCCESS a b old", ["commit", "!delete a b old"], 'lost "old"'),
    ("all", 1, {"0.0": "a"}, "old", ["commit", "put a 0.0", "put _SUCCESS x", "!delete a old"], 'lost "old"'),
    ("all", 1, {"0.0": "a", "0.1": "b"}, "_SUCCESS a b", ["commit", "!delete a b"], "torn 0"),
    ("all", 1, {"0.0": "a", "0.1": "a"}, "", ["commit", "put a 0.0", "put _SUCCESS x", "!put a 0.1"], "torn 0"),
    ("all", 1, {"0.0": "a"}, "_SUCCESS", ["commit", "!put a 0.0"], 'stale "a"'),
    ("none", 1, {"0.0": "a"}, "old", ["commit", "!put _SUCCESS x"], "half 0"),
    ("none", 1, {"0.0": "a"}, "old", ["commit", "put a 0.0", "!put _SUCCESS x"], 'left "old"'),
    # Of paths the least by its bytes is given, and of tasks the least.
    ("all", 1, {"0.0": "a"}, "\U00010000 \uffff", ["!delete \U00010000 \uffff"], 'early "\uffff"'),
    ("none", 1, {"0.0": "a"}, "c b/c b", ["commit", "put a 0.0", "!put _SUCCESS x"], 'left "b"'),
    ("all", 3, {"1.0": "a"}, "", ["!put _SUCCESS x"], "missing 0"),
    ("all", 3, {"2.0": "a", "0.0": "b"}, "", ["!put _SUCCESS x"], "missing 1"),
    ("all", 2, {"1.0": "a", "0.0": "b"}, "", ["!put _SUCCESS x"], "half 0"),
    ("all", 2, {"1.0": "a", "0.0": "b"}, "", ["put _other x", "!put _SUCCESS x", "put a 1.0"], "half 0"),
    ("all", 2, {"0.0": "a", "1.0": "b", "1.1": "b"}, "", ["commit", "put b 1.1", "!put b 1.0"], "torn 1"),
    # Each moment counts, also where a later one is as it must be.
    ("all", 1, {"0.0": "a"}, "old", ["commit", "!delete old", "put old old"], 'lost "old"'),
    ("all", 1, {"0.0": "a"}, "", ["commit", "put a 0.0", "put _SUCCESS x", "!delete a", "put a 0.0"], "half 0"),
    ("all", 1, {"0.0": "a"}, "", ["commit", "!put _SUCCESS x", "put a 0.0"], "half 0"),
    ("all", 1, {"0.0": "a"}, "_SUCCESS", ["commit", "!put a 0.0", "delete _SUCCESS", "put _SUCCESS x"], 'stale "a"'),
    ("all", 1, {"0.0": "a"}, "a", ["!delete a", "put a old", "commit"], 'early "a"'),
    ("all", 1, {"0.0": "a", "0.1": "a"}, "a", ["commit", "put a 0.0", "put a old", "!put a 0.1"], "torn 0"),
    # A kept file may be missing only where the chosen attempts write its path. A replaced one may stay until the marker comes.
    ("all", 1, {"0.0": "a", "0.1": "b"}, "b", ["commit", "delete b", "!put a 0.0"], "torn 0"),
    ("none", 1, {"0.0": "a", "0.1": "b"}, "b", ["commit", "put a 0.0", "!put _SUCCESS x"], "half 0"),
    ("partitions", 1, {"0.0": "d/a"}, "d/old", ["commit", "put d/a 0.0", "!put _SUCCESS x"], 'left "d/old"'),
    ("partitions", 1, {"0.0": "d/a"}, "e/old", ["commit", "!delete e/old"], 'lost "e/old"'),
    ("partitions", 1, {"0.0": "d/e/a"}, "d/old", ["commit", "!delete d/old"], 'lost "d/old"'),
    ("partitions", 1, {"0.0": "a"}, "old", ["commit", "!delete old"], 'lost "old"'),
    ("partitions", 1, {"0.0": "d/a", "0.1": "a"}, "d/old", ["commit", "put d/a 0.0", "put _SUCCESS x"], "sound"),
    ("partitions", 1, {"0.0": "d/a", "0.1": "a"}, "d/old", ["commit", "delete d/old", "put a 0.1", "put _SUCCESS x"], "sound"),
    ("partitions", 2, {"0.0": "d/a", "1.0": "e/a"}, "d/e/old", ["commit", "put d/a 0.0", "put e/a 1.0", "!put _SUCCESS x"], 'left "d/e/old"'),
    ("all", 1, {"0.0": "a"}, "a", ["commit", "delete a", "put a old", "put a 0.0", "put _SUCCESS x", "put a 0.0", "delete _SUCCESS", "delete a"], "sound"),
    ("none", 1, {"0.0": ""}, "old", ["commit", "delete old", "put _SUCCESS x", "put _old x"], "sound"),
    # A copy leaves what its source has at that moment.
    ("all", 1, {"0.0": "a"}, "_a b", ["put _a 0.0", "copy _a _b", "put _a x", "commit", "copy _b a", "copy b _SUCCESS"], "sound"),
    ("all", 1, {"0.0": "a"}, "_a b", ["put _a 0.0", "copy _a _b", "put _a x", "commit", "!copy _a a"], 'foreign "a"'),
)


def fault_at(fault, number):
    return f"trace fault {fault} at line {number}\n" if fault else "sound\n"


def samples(op=None, members=None):
    """The line of each operation, that of `op` with these members."""
    return [written_line(members if it["op"] == op else it) for it in SAMPLES.values()]


def member_edges():
    """Each member that is read: it is missing, wrong, or right at the edge of that. The first member with a fault gives it."""
    for number, (op, sample) in enumerate(SAMPLES.items(), 1):
        for at, name in enumerate(sample):
            before, behind = ({it: sample[it] for it in names} for names in ([*sample][:at], [*sample][at + 1:]))
            them = [("without", before | behind, "missing-field")]
            them += [("with others wrong and without", before | {it: Raw(WRONG[it][0]) for it in behind}, "missing-field")]
            them += [("with others missing and a wrong", before | {name: Raw(WRONG[name][0])}, "wrong-kind")]
            them += [(f"with {it[:40]} as", sample | {name: Raw(it)}, "wrong-kind") for it in WRONG[name]]
            for how, members, word in them:
                yield f"{op} {how} {name}", joined(samples(op, members)), fault_at(f"{word} {name}", number)
            for it in RIGHT.get(name, ()):
                yield f"{op} with {it[:40]} as {name}", joined(samples(op, sample | {name: Raw(it)})), "sound\n"
    yield "a task that is the number of tasks", joined(samples("Attempt", SAMPLES["Attempt"] | {"task": 1})), fault_at("wrong-kind task", 2)


def json_edges():
    """Members that nobody reads, and lines: those that are JSON, and those that are none."""
    job, *others = samples()
    broken = [it.encode() for it in BROKEN] + [b'"x":"' + it + b'"' for it in NO_BYTES]
    for them, fault in (([it.encode() for it in MEMBERS], None), (broken, "not-json")):
        for it in them:
            yield f"the member {it[:40]} in front", joined([with_member(job, it, True), *others]), fault_at(fault, 1)
            yield f"the member {it[:40]} behind", joined([with_member(job, it, False), *others]), fault_at(fault, 1)
    for them, fault in ((WAYS, None), (NO_LINES, "not-json")):
        for it in them:
            yield f"the line {it[:40]}", joined([job, it.encode(), *others]), fault_at(fault, 2)


def order_edges():
    """Lines that may follow one another, and lines that may not."""
    for text, fault in ORDERS:
        lines = [{"op": it.removesuffix("!")} if it.endswith("!") else SAMPLES.get(it, {"op": it}) for it in text.split()]
        yield f"the lines {text}", joined(map(written_line, lines)), fault_at(fault, len(lines))
    yield "no line", b"", fault_at("out-of-order", 0)
    lines = [*claimed("all", 2, {"0.0": "a", "0.1": "a", "1.0": "b a"}, "")]
    yield "a path of two tasks", joined(map(written_line, lines)), fault_at("same-path", len(lines))


def claimed(keeps, tasks, attempts, old):
    """The lines of a claim."""
    yield {"op": "Job", "dest": "s3a://lake/out", "keeps": keeps, "tasks": tasks}
    for name, paths in attempts.items():
        task, attempt = map(int, name.split("."))
        yield {"op": "Attempt", "task": task, "attempt": attempt}
        yield from ({"op": "File", "path": it, "etags": [name]} for it in paths.split())
    yield from ({"op": "Object", "bucket": "lake", "key": f"out/{it}", "etags": ["old"]} for it in old.split())


def requested(text):
    """The line of a request: `commit`, `put PATH TAG`, `copy PATH PATH` or `delete PATH ..`."""
    word, *words = text.removeprefix("!").split()
    if word == "commit":
        return COMMIT
    keys = [f"out/{it}" for it in words]
    members = {
        "put": {"op": "PutObject", "key": keys[0], "etag": words[-1]},
        "copy": {"op": "CopyObject", "source": keys[0], "key": keys[-1]},
        "delete": {"op": "DeleteObjects", "keys": keys},
    }
    return {"bucket": "lake", "effect": True} | members[word]


def reason_edges():
    """Runs that are not sound, for the first reason that holds, and some that are."""
    for *claim, requests, answer in REASONS:
        lines = [*claimed(*claim)]
        at = next((at for at, it in enumerate(requests, len(lines) + 1) if it.startswith("!")), 0)
        data = joined(map(written_line, lines + [*map(requested, requests)]))
        yield f"{claim}, {requests}", data, f"unsound at line {at}: {answer}\n" if at else f"{answer}\n"


def place_edges():
    """Copies of keys that are there and that are not, and requests to the keys of the destination in another bucket."""
    claim, pond = [*claimed("all", 1, {"0.0": "a"}, "_SUCCESS _old")], {"bucket": "pond"}
    copies = [*map(requested, ("copy _old _a", "delete _old", "copy _a _b", "copy _old _c"))]
    them = [
        ("a copy of what was deleted", copies, fault_at("no-source", 9)),
        ("a copy of it without effect", [*copies[:3], copies[3] | {"effect": False}], "sound\nlines 9\nchanges 3\n"),
        ("a copy from another bucket", [copies[0] | pond], fault_at("no-source", 6)),
        ("the marker in another bucket", [requested("put _SUCCESS x") | pond], "sound\nlines 6\nchanges 1\nmarker old\n"),
        ("a file in another bucket", [requested("put a x") | pond], "sound\nlines 6\nchanges 1\nmarker old\n"),
        ("a deletion in another bucket", [requested("delete _SUCCESS _old") | pond, copies[0]], "sound\nlines 7\nchanges 2\nmarker old\n"),
    ]
    yield from ((what, joined(map(written_line, claim + requests)), front) for what, requests, front in them)


def edges():
    return [*member_edges(), *json_edges(), *order_edges(), *reason_edges(), *place_edges()]
