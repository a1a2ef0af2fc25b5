"""What `audit` must answer to a recording, read directly from what docs/FORMATS.md says of traces and audits. It shares no code with the program.

The reading takes the whole recording. It notes what readers saw after each line. Then it tries every choice of one attempt per task on each of these
moments.
"""
import collections
import itertools
import json
import math
import re

MOST_BYTES = 8_388_608
DEEPEST = 127
# The members that are read of a line of each operation, in this order.
READ = {
    "Job": ("dest", "keeps", "tasks"),
    "Attempt": ("task", "attempt"),
    "File": ("path", "etags"),
    "Object": ("bucket", "key", "etags"),
    "Commit": (),
    "PutObject": ("bucket", "effect", "key", "etag"),
    "CopyObject": ("bucket", "effect", "source", "key"),
    "DeleteObject": ("bucket", "effect", "key"),
    "DeleteObjects": ("bucket", "effect", "keys"),
    "CompleteMultipartUpload": ("bucket", "effect", "key", "parts"),
}
CLAIMS = ("Attempt", "File", "Object")
CHANGES = ("PutObject", "CopyObject", "DeleteObject", "DeleteObjects", "CompleteMultipartUpload")
# Nothing is read of a line of these.
OTHERS = (
    "Event", "End", "CreateBucket", "GetObject", "HeadObject", "ListObjectsV2", "CreateMultipartUpload", "UploadPart", "AbortMultipartUpload",
    "ListParts", "ListMultipartUploads", "ClusterPut", "ClusterGet", "ClusterDelete", "ClusterRename", "ClusterList",
    "HeadBucket", "DeleteBucket", "ListBuckets", "ListObjects", "UploadPartCopy", "Other")


class Fault(Exception):
    """A word of the table of faults: why a line cannot be read."""


# ---- the JSON of a line, as serde_json reads it

def finite(text):
    """A number with a fraction, an exponent or a sign, or one from 2^64 on. It is no JSON if it is too large for a float."""
    if math.isinf(float(text)):
        raise ValueError(text)
    return float(text)


def whole(text):
    """A number in digits alone is whole if it is below 2^64. `-0` is none."""
    return int(text) if len(text) <= 20 and not text.startswith("-") and int(text) < 2 ** 64 else finite(text)


def refuse(text):
    raise ValueError(text)


def members(pairs):
    """The members of an object. If two have one name, the last counts. Each is encoded, since a lone surrogate is no JSON and has no UTF-8."""
    json.dumps(pairs, ensure_ascii=False).encode()
    return dict(pairs)


def depth(text):
    """How deep lists and objects are nested in a JSON text."""
    brackets = re.findall(r"[\[\]{}]", re.sub(r'"[^"\\]*(?:\\.[^"\\]*)*"', "", text))
    return max(itertools.accumulate((1 if it in "[{" else -1 for it in brackets), initial=0))


def tree(line):
    """The JSON object of a line."""
    if len(line) > MOST_BYTES:
        raise Fault("too-long")
    try:
        text = line.decode()
        it = json.loads(text, parse_int=whole, parse_float=finite, parse_constant=refuse, object_pairs_hook=members)
    except (ValueError, RecursionError):
        raise Fault("not-json") from None
    if not isinstance(it, dict) or depth(text) > DEEPEST:
        raise Fault("not-json")
    return it


# ---- the kinds of members

def is_text(it):
    return isinstance(it, str)


def is_number(it):
    return type(it) is int and it < 2 ** 32


def are_texts(it):
    return isinstance(it, list) and all(map(is_text, it))


def are_parts(it):
    return isinstance(it, list) and it != [] and all(isinstance(part, dict) and is_text(part.get("etag")) for part in it)


def is_visible(path):
    """Whether readers see a file at this path. Hadoop hides names that begin with `_` or `.`."""
    return path != "" and not path.endswith("/") and not any(it.startswith(("_", ".")) for it in path.split("/"))


def destination(text):
    """The bucket and the key of a destination, or None if the text is no path or has no key."""
    found = re.fullmatch(r"s3a://([a-z0-9][a-z0-9.-]{1,61}[a-z0-9])/(.*)", text, re.DOTALL)
    key = found and found[2].removesuffix("/")
    if not found or len(key.encode()) > 1023 or any(it in ("", ".", "..") for it in key.split("/")):
        return None
    return found[1], key


KINDS = {
    "dest": lambda it: is_text(it) and destination(it) is not None,
    "keeps": lambda it: it in ("all", "none", "partitions"),
    "tasks": is_number,
    "task": is_number,
    "attempt": is_number,
    "path": lambda it: is_text(it) and is_visible(it) and "" not in it.split("/"),
    "etags": are_texts,
    "bucket": is_text,
    "effect": lambda it: isinstance(it, bool),
    "key": is_text,
    "etag": is_text,
    "source": is_text,
    "keys": are_texts,
    "parts": are_parts,
}


# ---- the lines, one after the other

Moment = collections.namedtuple("Moment", "line is_begun marker shown changed")


class Recording:
    """What the lines say: the claim, the opening files, and the moment after each line from the first change or the commit on.

    An attempt is named by its task and its number. A place is a bucket and a key.
    """

    def __init__(self):
        self.tasks, self.attempts, self.attempt, self.opening, self.objects = None, {}, None, {}, {}
        self.is_begun, self.is_put, self.changes, self.moments = False, False, 0, []

    def take(self, number, line):
        """Takes the line of this number, or raises its fault."""
        it = tree(line)
        if "op" not in it:
            raise Fault("missing-field op")
        op = it["op"]
        if not is_text(op):
            raise Fault("wrong-kind op")
        if op not in READ and op not in OTHERS:
            raise Fault("unknown-op")
        if not self.may_come(op):
            raise Fault("out-of-order")
        for name in READ.get(op, ()):
            if name not in it:
                raise Fault(f"missing-field {name}")
            if not KINDS[name](it[name]) or name == "task" and it[name] >= self.tasks:
                raise Fault(f"wrong-kind {name}")
        has_effect = op in READ and (op not in CHANGES or it["effect"])
        changed = getattr(self, op)(it) or [] if has_effect else []
        if self.is_running():
            self.moments.append(Moment(number, self.is_begun, self.marker(), self.shown(self.objects), self.shown(changed).keys()))

    def is_running(self):
        return self.is_begun or self.changes > 0

    def may_come(self, op):
        """Whether a line of this operation may come now."""
        if op == "Job" or self.tasks is None:
            return op == "Job" and self.tasks is None
        return op not in CLAIMS or not self.is_running() and (op != "File" or self.attempt is not None)

    # ---- the claim

    def Job(self, it):
        (self.bucket, self.key), self.keeps, self.tasks = destination(it["dest"]), it["keeps"], it["tasks"]

    def Attempt(self, it):
        self.attempt = it["task"], it["attempt"]
        if self.attempt in self.attempts:
            raise Fault("repeated")
        self.attempts[self.attempt] = {}

    def File(self, it):
        files, path = self.attempts[self.attempt], it["path"]
        if path in files:
            raise Fault("repeated")
        if any(path in self.attempts[other] for other in self.attempts if other[0] != self.attempt[0]):
            raise Fault("same-path")
        files[path] = it["etags"]

    def Object(self, it):
        place = it["bucket"], it["key"]
        if place in self.objects:
            raise Fault("repeated")
        self.objects[place] = it["etags"]
        self.opening = self.shown(self.objects)

    def Commit(self, it):
        if self.is_begun:
            raise Fault("repeated")
        self.is_begun = True

    # ---- the changes: each gives the places that it changed

    def PutObject(self, it):
        return self.put(it, [it["etag"]])

    def CompleteMultipartUpload(self, it):
        return self.put(it, [part["etag"] for part in it["parts"]])

    def CopyObject(self, it):
        source = it["bucket"], it["source"]
        if source not in self.objects:
            raise Fault("no-source")
        return self.put(it, self.objects[source])

    def put(self, it, tags):
        place = it["bucket"], it["key"]
        self.changes += 1
        self.objects[place] = tags
        self.is_put = self.is_put or place == self.marker_place()
        return [place]

    def DeleteObject(self, it):
        return self.delete(it, [it["key"]])

    def DeleteObjects(self, it):
        return self.delete(it, it["keys"])

    def delete(self, it, keys):
        places = [(it["bucket"], key) for key in keys]
        self.changes += 1
        for place in places:
            self.objects.pop(place, None)
        return places

    # ---- what readers see

    def shown(self, places):
        """The paths that readers see, of these places, each with the tags of the object there, if there is one."""
        front = f"{self.key}/"
        below = {key.removeprefix(front): self.objects.get((bucket, key)) for bucket, key in places if bucket == self.bucket and key.startswith(front)}
        return {path: tags for path, tags in below.items() if is_visible(path)}

    def marker_place(self):
        return self.bucket, f"{self.key}/_SUCCESS"

    def marker(self):
        """The success marker that exists: a new one if a request put it."""
        return "none" if self.marker_place() not in self.objects else "new" if self.is_put else "old"


# ---- when readers were safe

def in_order(paths):
    return sorted(paths, key=str.encode)


def directories(files):
    """The parent directories of these paths, each with the `/` at its end."""
    return {path[:path.rfind("/") + 1] for path in files} - {""}


def is_below(path, them):
    return any(path.startswith(it) for it in them)


class Claim:
    """What a recording claims, and whether readers were safe at a moment of it."""

    def __init__(self, recording):
        keeps, self.count, self.opening, self.tasks = recording.keeps, recording.tasks, recording.opening, {}
        for (task, attempt), files in sorted(recording.attempts.items()):
            self.tasks.setdefault(task, {})[attempt] = files
        self.paths = {task: {path for files in attempts.values() for path in files} for task, attempts in self.tasks.items()}
        self.claimed = {path for paths in self.paths.values() for path in paths}
        # Unless the chosen attempts write its path, an opening file that is kept must stay, and one that is replaced must go.
        some = {it for files in recording.attempts.values() for it in directories(files)}
        every = {it for attempts in self.tasks.values() for it in set.intersection(*map(directories, attempts.values()))}
        self.kept = {path for path in self.opening if keeps == "all" or keeps == "partitions" and not is_below(path, some)}
        self.replaced = {path for path in self.opening if keeps == "none" or keeps == "partitions" and is_below(path, every)}

    def fits(self, shown, files, paths):
        """Whether readers see, at these paths, only old files and these files, and each kept file."""
        return (all(shown[it] in (self.opening.get(it), files.get(it)) for it in paths & shown.keys())
                and all(shown.get(it) == self.opening[it] for it in paths & self.kept - files.keys()))

    def is_whole(self, shown, files, paths):
        """Whether readers see, at these paths, each of these files, and beside them only old files: each that is kept, and none that is replaced."""
        others = paths - files.keys()
        return (all(shown.get(it) == files[it] for it in paths & files.keys())
                and all(shown[it] == self.opening.get(it) for it in others & shown.keys())
                and others & self.kept <= shown.keys()
                and not others & self.replaced & shown.keys())

    def choices(self):
        """All choices of one attempt per task. There is none if a task has no attempt."""
        return [*itertools.product(*self.tasks.values())] if len(self.tasks) == self.count else []

    def needs_choice(self, moment):
        return moment.shown != self.opening or moment.marker == "new"

    def explains(self, choice, moment):
        """Whether readers were safe at this moment, if the commit publishes the files of these attempts."""
        files = {path: tags for task, attempt in enumerate(choice) for path, tags in self.tasks[task][attempt].items()}
        paths, is_same = {*moment.shown, *self.opening, *files}, moment.shown == self.opening
        return ((is_same or moment.is_begun and self.fits(moment.shown, files, paths))
                and (is_same or moment.marker != "old")
                and (moment.marker != "new" or self.is_whole(moment.shown, files, paths)))

    def reasons(self, moment, before):
        """Why readers were not safe at this moment, in the order of the table. The choices `before` explain all moments before it."""
        shown, opening = moment.shown, self.opening
        differ = [it for it in in_order({*shown, *opening}) if shown.get(it) != opening.get(it)]
        # The attempts of each task that explain all moments before, by their files.
        left = {task: [self.tasks[task][it] for it in {choice[task] for choice in before}] for task in self.tasks}
        if not moment.is_begun:
            yield from (("early", it) for it in differ)
        if self.needs_choice(moment):
            yield from (("missing", it) for it in range(self.count) if it not in self.tasks)
        for it in in_order(moment.changed & shown.keys()):
            written = [files[it] for attempts in self.tasks.values() for files in attempts.values() if it in files]
            if shown[it] != opening.get(it) and shown[it] not in written:
                yield "foreign", it
        yield from (("lost", it) for it in in_order(moment.changed & self.kept - self.claimed - shown.keys()))
        yield from (("torn", it) for it in left if not any(self.fits(shown, files, self.paths[it]) for files in left[it]))
        if moment.marker == "old":
            yield from (("stale", it) for it in differ)
        if moment.marker == "new":
            yield from (("half", it) for it in left if not any(self.is_whole(shown, files, self.paths[it]) for files in left[it]))
            yield from (("left", it) for it in in_order(self.replaced & shown.keys() - self.claimed))


# ---- the answer

def unsafe(recording, claim, choices):
    """The first line up to which the run is not sound, with the reason, or None. Of `choices` it leaves those that explain all moments."""
    is_needed = False
    for moment in recording.moments:
        before, choices[:] = [*choices], [it for it in choices if claim.explains(it, moment)]
        is_needed = is_needed or claim.needs_choice(moment)
        if is_needed and not choices:
            reason, what = next(claim.reasons(moment, before), ("none", "of the table"))
            return f"unsound at line {moment.line}: {reason} {json.dumps(what, ensure_ascii=False)}\n"
    return None


def answer(data):
    """The status and the text with which `audit` must answer these bytes."""
    lines, recording, fault = data.split(b"\n"), Recording(), None
    if lines[-1] == b"":
        lines.pop()
    if not lines:
        return 6, "trace fault out-of-order at line 0\n"
    for number, line in enumerate(lines, 1):
        try:
            recording.take(number, line)
        except Fault as it:
            fault = f"trace fault {it} at line {number}\n"
            break
    if recording.tasks is None:
        return 6, fault
    claim = Claim(recording)
    choices = claim.choices()
    found = unsafe(recording, claim, choices)
    if found or fault:
        return (1, found) if found else (6, fault)
    marker = recording.marker()
    picks = [f"pick {task} {min(choice[task] for choice in choices)}\n" for task in range(claim.count)] if marker == "new" else []
    return 0, f"sound\nlines {len(lines)}\nchanges {recording.changes}\nmarker {marker}\n" + "".join(picks)
