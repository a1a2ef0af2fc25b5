"""How the lines of a recording are written and damaged, for recordings.py, and what a line may be and may not be.

`faulty` gives a run one fault of the table in docs/FORMATS.md. `otherwise` writes a run in another way, right or wrong.
"""
import json

COMMIT = {"op": "Commit"}
OTHER = '{"op":"Other"}'
# A line of each operation with the members that are read of it, in the order in which they are read.
SAMPLES = {it["op"]: it for it in (
    {"op": "Job", "dest": "s3a://lake/out", "keeps": "all", "tasks": 1},
    {"op": "Attempt", "task": 0, "attempt": 9},
    {"op": "File", "path": "sample", "etags": ["a"]},
    {"op": "Object", "bucket": "lake", "key": "sample", "etags": ["a"]},
    {"op": "PutObject", "bucket": "lake", "effect": True, "key": "sample", "etag": "a"},
    {"op": "CopyObject", "bucket": "lake", "effect": False, "source": "sample", "key": "other"},
    {"op": "DeleteObject", "bucket": "lake", "effect": True, "key": "sample"},
    {"op": "DeleteObjects", "bucket": "lake", "effect": True, "keys": ["sample", "other"]},
    {"op": "CompleteMultipartUpload", "bucket": "lake", "effect": True, "key": "sample", "parts": [{"part": 1, "etag": "a"}]})}
CLAIMS = ("Job", "Attempt", "File", "Object")


class Raw(str):
    """JSON text that is written as it is."""


def nested(depth, front="[", end="]", inmost=""):
    return front * depth + inmost + end * depth


def texts(*them):
    return tuple(f'"{it}"' for it in them)


NO_TEXT = ("null", "1", "true", "[]", "{}", '["a"]')
NO_NUMBER = ("-0", "-1", "0.0", "1.0", "1e0", "4294967296", "18446744073709551615", "18446744073709551616", '"1"', "null", "true", "[]")
NO_TEXTS = ('"a"', "null", "{}", "[null]", '["a",1]', '[["a"]]', "0")
# What a member may not be, and what it may be at the edge of that.
WRONG = {
    "op": NO_TEXT, "bucket": NO_TEXT, "key": NO_TEXT, "etag": NO_TEXT, "source": NO_TEXT, "keys": NO_TEXTS, "etags": NO_TEXTS,
    "tasks": NO_NUMBER, "task": (*NO_NUMBER, "4294967295"), "attempt": NO_NUMBER,
    "keeps": (*NO_TEXT, *texts("some", "All", "", "all ")),
    "effect": ("null", "null", "null", '"true"', "0", "1", "[]"),
    "dest": (*NO_TEXT, *texts(
        "", "s3a://", "s3a://lake", "s3a://lake/", "s3a://lake//", "s3a:///out", "s3://lake/out", "S3a://lake/out", "lake/out", " s3a://lake/out",
        "s3a://la/out", f"s3a://{'a' * 64}/out", "s3a://Lake/out", "s3a://-ake/out", "s3a://lak./out", "s3a://la_ke/out", "s3a://lak\u00e9/out",
        "s3a://lake/out//", "s3a://lake//out", "s3a://lake/a//b", "s3a://lake/./out", "s3a://lake/out/..", f"s3a://lake/{'k' * 1024}",
        f"s3a://lake/{chr(233) * 512}")),
    "path": (*NO_TEXT, *texts("", "/", "/a", "a/", "a//b", "_a", ".a", "_a/b", "a/.b/c", "a/_b", "a/_", ".", "a/../b")),
    "parts": ("null", '"a"', "{}", "[]", "[1]", "[{}]", '[{"etag":1}]', '[{"etag":"a"},{"part":2}]', '[{"etag":"a","etag":null}]', '["a"]'),
}
RIGHT = {
    "dest": texts("s3a://abc/o", f"s3a://{'a' * 63}/out", "s3a://1.-2/out", "s3a://lake/out/", "s3a://lake/.../_x", f"s3a://lake/{'k' * 1023}",
                  f"s3a://lake/{'k' * 1023}/", f"s3a://lake/{chr(233) * 511}k", "s3a://lake/\\n"),
    "keeps": texts("none", "partitions", "\\u0061ll"),
    "tasks": ("4294967295",),
    "attempt": ("0", "4294967295"),
    "path": texts("a_/b.", "a/b/c/d", "\\u0000", " ", "\u00e9", "-"),
    "etags": ("[]", '["",""]'),
    "keys": ("[]", '[""]', '["sample","sample"]'),
    "key": texts("", "/", "out/_SUCCESS/"),
    "bucket": texts("", "Lake"),
    "effect": ("false",),
    "etag": texts("", "\\\"0\\\"-1"),
    "parts": ('[{"etag":1,"etag":"a"}]', '[{"etag":"","part":null}, {"etag":"b"}]'),
}
FAULTS = (
    "too-long", "not-json", "unknown-op", "out-of-order", *(f"{it} {name}" for it in ("missing-field", "wrong-kind") for name in WRONG), "repeated",
    "same-path", "no-source")
TURNS = (*FAULTS, "out-of-order", "out-of-order", "repeated", "repeated", "not-json", "unknown-op", "same-path")
# Members that nobody reads, and lines: with them the answer is the same.
MEMBERS = (
    '"x":-0', '"x":1e308', '"x":0e999', '"x":1E-400', '"x":18446744073709551616', '"x":-1.5e+3', '"x":"\\ud83d\\ude00"', '"\\b\\f\\n\\r\\t\\/\\"\\\\":null',
    '"x":"\x7f\u0080\u2028\uffff\U0010ffff"', '"x":' + nested(126), '"x":' + nested(63, '[{"":', "}]", "0"), '"x":"' + "[" * 200 + '"',
    '"x":"\\"' + "{" * 200 + '"', '"x":{"op":"Job"}', '"":{"":[true,false,null]}', '"OP":1,"op ":2', ' "x" : [ 1 , 2 ] ')
WAYS = (OTHER, f" \t{OTHER}\r", '{"op":"Other","bucket":1,"key":null,"effect":null}', '{"\\u006fp":"\\u004fther"}', '{"op":1,"op":"Other"}')
# Members, lines and bytes that are no JSON.
BROKEN = (
    '"x":01', '"x":1.', '"x":.5', '"x":+1', '"x":-', '"x":1e', '"x":NaN', '"x":Infinity', '"x":-Infinity', '"x":1e400', '"x":-1e400', f'"x":{"9" * 400}',
    '"x":0x1', '"x":"\\ud800"', '"\\udc00":1', '"x":"\\udc00\\ud800"', '"x":["\\ud800\\ud800\\udc00"]', '"x":"\\ud800","x":1', '"x":"\\u12"', '"x":"\\x41"',
    '"x":"\t"', '"x":"\x1f"', '"x":tru', '"x":True', '"x":None', "'x':1", "\"x\":'1'", '"x" 1', '"x":1,', 'x:1', '"x":[1,]', '"x":[1', '"x":', '"x"',
    '"x":/**/1', '"x":1}', '"x":"', '"x":' + nested(127), '"x":' + nested(127, '{"":', "}", "0"), '"x":' + nested(63, '[{"":', "}]", "[]"),
    '"x":' + nested(100_000), '"x":' + nested(127) + ',"x":1', '\u00a0"x":1', '"op":"\\ud800"', '"dest":"s3a://lake/\\udfff"', '"keeps":"\\udbff\\u0041"')
NO_LINES = (
    "", " ", "\r", "null", "1", '"op"', "[]", f"[{OTHER}]", nested(127), nested(128), f"{OTHER}x", OTHER * 2, f"{OTHER},", f"\ufeff{OTHER}", f"\x0c{OTHER}",
    f"\x0b{OTHER}", f"{OTHER}\0", OTHER[:-1], OTHER[1:], "{", f"//{OTHER}", f"\u2028{OTHER}")
NO_BYTES = (
    b"\xff", b"\xfe", b"\x80", b"\xc3", b"\xc0\xaf", b"\xe0\x80\x80", b"\xed\xa0\x80", b"\xed\xa0\x80\xed\xb0\x80", b"\xf5\x80\x80\x80", b"\xf4\x90\x80\x80")


# ---- the text of lines

def written_line(line, blank="", is_ascii=False):
    """The bytes of a line, with this blank between its members."""
    members = (f"{json.dumps(name)}:{blank}{it if isinstance(it, Raw) else json.dumps(it, ensure_ascii=is_ascii)}" for name, it in line.items())
    return f"{{{f',{blank}'.join(members)}}}".encode()


def written(rng, lines):
    """The bytes of each line, with its members in some order."""
    blank, is_ascii = rng.choice(("", "", " ", "\t ")), rng.random() < .3
    return [written_line(dict(rng.sample([*it.items()], len(it))), blank, is_ascii) for it in lines]


def joined(lines, end=b"\n"):
    return b"".join(it + end for it in lines)


def with_member(line, member, is_first):
    """The line with one member more."""
    return b"{" + member + b"," + line[1:] if is_first else line[:-1] + b"," + member + b"}"


# ---- faults of the table: each changes the lines of a run's claim, or those of its requests

def faulty_member(run, word, name, claim, steps):
    """A member of some line is missing or wrong. Others behind it may be, too."""
    rng = run.rng
    op = rng.choice([op for op in SAMPLES if name in SAMPLES[op]])
    lines = claim if op in CLAIMS else steps
    if all(it["op"] != op for it in lines):
        lines.insert(len(lines) if op in CLAIMS else rng.randint(0, len(lines)), SAMPLES[op])
    at = rng.choice([at for at, it in enumerate(lines) if it["op"] == op])
    names = [*SAMPLES[op]]
    others = [it for it in names[names.index(name) + 1:] if rng.random() < .2]
    lines[at] = {**lines[at], **{it: Raw(rng.choice(WRONG[it])) for it in (name, *others)}}
    if name == "task" and rng.random() < .2:
        lines[at]["task"] = run.tasks
    if word == "missing-field":
        del lines[at][name]


def unknown_op(run, claim, steps):
    lines = run.rng.choice((claim, steps))
    lines.insert(run.rng.randint(0, len(lines)), {"op": run.rng.choice(("", "Fetch", "putObject", "PutObject ", "Put", "commit", "HeadObjects"))})


def out_of_order(run, claim, steps):
    """There is a second `Job`, or none at first. Or a line of the claim comes too late or, a `File`, too early. It may have another fault, too."""
    draw, faults = run.rng.randrange(5), {"etags": None} if run.rng.random() < .3 else {}
    if draw == 0:
        lines = run.rng.choice((claim, steps))
        lines.insert(run.rng.randint(lines is claim, len(lines)), claim[0] | faults)
    elif draw == 1:
        job = claim.pop(0)
        claim[run.rng.randint(1, 3):0] = [job] if claim and run.rng.random() < .5 else []
    elif draw == 2:
        claim.insert(1, SAMPLES["File"] | faults)
    else:
        first = steps.index(COMMIT) + 1 if COMMIT in steps else len(steps)
        it = run.rng.choice(claim[1:] or [SAMPLES["Object"]])
        steps.insert(run.rng.choice((first, run.rng.randint(first, len(steps)))), it | faults)


def repeated(run, claim, steps):
    """A commit, an attempt, a path of an attempt or an object of a key comes a second time."""
    them = [at for at, it in enumerate(claim) if it["op"] in CLAIMS[1:]]
    if COMMIT in steps and (not them or run.rng.random() < .3):
        steps.insert(run.rng.randint(steps.index(COMMIT) + 1, len(steps)), COMMIT)
    elif them:
        at = run.rng.choice(them)
        claim.insert(at + 1 if claim[at]["op"] == "File" else run.rng.randint(at + 1, len(claim)), claim[at] | {"etags": ["again"]})


def same_path(run, claim, steps):
    """An attempt of another task writes the path of a file."""
    claim[0] = {**claim[0], "tasks": max(2, run.tasks)}
    files = [(task, path) for (task, _), files in run.attempts.items() for path in files]
    if not files:
        files = [(0, "sample")]
        claim += [{**SAMPLES["Attempt"], "task": 0}, SAMPLES["File"]]
    owner, path = run.rng.choice(files)
    claim += [{**SAMPLES["Attempt"], "task": (owner + 1) % 2}, {**SAMPLES["File"], "path": path}]


def no_source(run, claim, steps):
    """A copy takes effect whose source was deleted, or never was there. Another bucket has such a key."""
    gone, at = run.rng.choice((*run.objects, run.below("_gone"))), run.rng.randint(0, len(steps))
    steps[at:at] = [run.request("DeleteObject", key=gone), run.put("", ["a"]) | {"bucket": "pond", "key": gone}, run.copy(gone, "_copy")]


CHANGED = {"unknown-op": unknown_op, "out-of-order": out_of_order, "repeated": repeated, "same-path": same_path, "no-source": no_source}


def faulty(run, fault):
    """The bytes of a recording with this fault, if readers were safe before it."""
    claim, steps = run.parted()
    word, _, name = fault.partition(" ")
    if name:
        faulty_member(run, word, name, claim, steps)
    elif word in CHANGED:
        CHANGED[word](run, claim, steps)
    lines = written(run.rng, claim + steps)
    if word == "too-long":
        lengthened(run.rng, lines, 8_388_609)
    elif word == "not-json":
        no_json(run.rng, lines)
    return joined(lines)


# ---- other ways to write lines, and lines that are written wrong

def one_of(rng, lines):
    return rng.randrange(len(lines))


def lengthened(rng, lines, length=8_388_608):
    """One line has blanks up to this length."""
    at = one_of(rng, lines)
    lines[at] = lines[at].ljust(length)


def no_json(rng, lines):
    at, draw = one_of(rng, lines), rng.random()
    if draw < .6:
        member = rng.choice((*(it.encode() for it in BROKEN), *(b'"x":"' + it + b'"' for it in NO_BYTES)))
        lines[at] = with_member(lines[at], member, rng.random() < .5)
    else:
        lines.insert(at, rng.choice(NO_LINES).encode())


def one_more(rng, lines):
    """One line has a member more that is not read, or there is one line more."""
    at = one_of(rng, lines)
    if rng.random() < .6:
        lines[at] = with_member(lines[at], rng.choice(MEMBERS).encode(), rng.random() < .5)
    else:
        lines.insert(at + 1, rng.choice(WAYS).encode())


def twice(rng, lines):
    """A member that is read comes twice in a line. It is right or wrong where it counts, which is the second time."""
    at = one_of(rng, lines)
    name = rng.choice([*json.loads(lines[at])])
    lines[at] = with_member(lines[at], f'"{name}":{rng.choice(WRONG.get(name, NO_TEXT))}'.encode(), rng.random() < .6)


def order(rng, lines):
    """A line is missing, is doubled or stands elsewhere."""
    it = lines[one_of(rng, lines)]
    if rng.random() < .7:
        lines.remove(it)
    if rng.random() < .7:
        lines.insert(rng.randint(0, len(lines)), it)


def cut(rng, lines):
    at = one_of(rng, lines)
    lines[at] = lines[at][:one_of(rng, lines[at])]


def one_byte(rng, lines):
    """One byte of a line is another one, is missing, or is one more."""
    at = one_of(rng, lines)
    to = one_of(rng, lines[at])
    lines[at] = lines[at][:to] + bytes([rng.randrange(256)] * rng.randint(0, 1)) + lines[at][to + rng.randint(0, 1):]


DAMAGES = (lengthened, no_json, no_json, *[one_more] * 4, *[twice] * 4, order, order, cut, cut, one_byte, one_byte)
ENDS = (
    lambda rng, lines: joined(lines, b"\r\n"),
    lambda rng, lines: joined(lines)[:-1],
    lambda rng, lines: joined(lines) + b"\n",
    lambda rng, lines: joined(lines, b" \t\r \n")[:-rng.randint(1, 4)],
    lambda rng, lines: joined(lines)[:rng.randint(0, len(joined(lines)))],
    lambda rng, lines: b"\n" * rng.randint(0, 1))


def otherwise(run):
    """The bytes of a recording that is written in another way, or that was damaged."""
    claim, steps = run.parted()
    lines = written(run.rng, claim + steps)
    if run.rng.random() < .3:
        return run.rng.choice(ENDS)(run.rng, lines)
    run.rng.choice(DAMAGES)(run.rng, lines)
    return joined(lines)
