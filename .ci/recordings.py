"""Random recordings for .ci/audits: good runs, runs of careless committers, and damaged ones.

A run is a claim and the requests that follow it. A good run publishes one attempt of each task and then puts the marker. A careless committer does
something else besides. A third of the recordings is damaged: damaged_lines.py writes their lines.
"""
import random

from damaged_lines import COMMIT, TURNS, faulty, joined, otherwise, written

DESTINATIONS = (("lake", "out/"), ("lake", "a/b"), ("abc", "\u00e9" * 511 + "x"), ("1" * 63, "_x/.y"), ("a.-b", "o u\"t"))
PATHS = ("a", "b", "d/a", "d/b", "d=1/x", "d=1/y", "d=2/x", "e/f/z", "e/g", "caf\u00e9", "\U0001f600", 'quo"te\\', "line\nfeed\x01\x7f", "a_b/c.d")
OLD = ("old", "d/old", "d=1/old", "d=2/old", "d=3/old", "e/old", "e/f/old", "e/f/g/old", "\u2028old", "\uff5eold")
HIDDEN = ("_temporary/0/x", "d/.hidden/x", "d=1/_x", ".x", "dir/", "d=1//", "_SUCCESS/x", "d/_SUCCESS", "")
MARKER = "_SUCCESS"
# The tags that an object may have. Only an opening object, or a copy of one, can have none.
CONTENTS = (["a"], ["a"], ["b"], ["c"], ["a", "b"], ["b", "a"], ["ab"], [""], [])
PUT = CONTENTS[:-1]
NUMBERS = (0, 1, 2, 3, 10, 4294967295)
READS = (
    "GetObject", "HeadObject", "ListObjectsV2", "CreateMultipartUpload", "UploadPart", "UploadPartCopy", "ListParts", "Other", "Event", "End", "ClusterPut")


def shuffled(rng, them):
    return rng.sample(them, len(them))


def directory(path):
    return path[:path.rfind("/") + 1]


# ---- a run

class Run:
    """A job's claim, the objects that were there before, and the requests of a good run."""

    def __init__(self, rng):
        self.rng = rng
        self.bucket, key = rng.choice(DESTINATIONS) if rng.random() < .25 else ("lake", "out")
        self.dest, self.key = f"s3a://{self.bucket}/{key}", key.removesuffix("/")
        self.keeps, self.tasks = rng.choice(("all", "none", "partitions", "partitions")), rng.choice((0, 1, 1, 1, 2, 2, 3))
        self.attempts = {}
        paths = shuffled(rng, PATHS)
        for task in range(self.tasks):
            own = [(paths.pop(), rng.choice(CONTENTS)) for _ in range(rng.choice((1, 1, 2, 3)))]
            for number in rng.sample(NUMBERS, rng.choice((1, 1, 2, 2, 3))):
                self.attempts[task, number] = {path: rng.choice((tags, rng.choice(CONTENTS))) for path, tags in own if rng.random() < .8}
        claimed = sorted({path for files in self.attempts.values() for path in files})
        old = rng.sample(OLD, rng.choice((0, 1, 2, 4))) + rng.sample(claimed, min(len(claimed), rng.choice((0, 0, 1, 2, 3))))
        self.old = {path: rng.choice(CONTENTS) for path in old}
        self.objects = {self.below(path): tags for path, tags in self.old.items()}
        self.objects |= {self.below(path): ["h"] for path in rng.sample(HIDDEN, rng.choice((0, 0, 1, 2)))}
        if rng.random() < .4:
            self.objects[self.below(MARKER)] = ["m"]
        self.chosen = {task: self.attempts[task, number] for task, number in shuffled(rng, [*self.attempts])}
        self.files = {path: tags for files in self.chosen.values() for path, tags in files.items()}
        self.steps = self.published()

    def below(self, path):
        return f"{self.key}/{path}"

    # ---- requests

    def request(self, op, **members):
        return {"op": op, "bucket": self.bucket, "effect": True, **members}

    def put(self, path, tags):
        """A request that leaves these tags at a path. There is one tag at least."""
        if len(tags) == 1 and self.rng.random() < .6:
            return self.request("PutObject", key=self.below(path), etag=tags[0])
        return self.request("CompleteMultipartUpload", key=self.below(path), parts=[{"part": at, "etag": it} for at, it in enumerate(tags, 1)])

    def copy(self, source, path):
        return self.request("CopyObject", source=source, key=self.below(path))

    def delete(self, *paths):
        keys = [self.below(it) for it in paths]
        return self.request("DeleteObject", key=keys[0]) if len(keys) == 1 and self.rng.random() < .6 else self.request("DeleteObjects", keys=keys)

    def noise(self):
        """A request that no reader of the destination notices."""
        rng = self.rng
        key, tags = self.below(rng.choice((*HIDDEN, MARKER, *self.files, *self.old))), rng.choice(PUT)
        draw = rng.random()
        if draw < .25:
            return {"op": rng.choice(READS), "bucket": self.bucket, "key": key, "effect": rng.choice((True, False, None))}
        if draw < .45:
            return rng.choice((self.put("", tags) | {"key": key}, self.copy(key, "a"), self.request("DeleteObjects", keys=[key]))) | {"effect": False}
        if draw < .65:
            return self.put(rng.choice(HIDDEN), tags)
        if draw < .75:
            return self.delete(*rng.sample(HIDDEN, rng.randint(0, 3)))
        if draw < .9:
            return self.put("", tags) | {"bucket": "pond", "key": key}
        return self.put("", tags) | {"key": rng.choice((self.key, f"{self.key}er/a", f"x/{self.key}/a", "tmp/a", MARKER, self.key[:-1]))}

    # ---- a good run

    def replaced(self):
        """The old files that the commit deletes: those that the job replaces, and some of those that may stay or go."""
        written = {attempt: {directory(path) for path in files} - {""} for attempt, files in self.attempts.items()}
        some = {it for each in written.values() for it in sorted(each) if self.rng.random() < .3}
        every = {it for task in self.chosen for it in set.intersection(*(each for (other, _), each in written.items() if other == task))}
        return [path for path in self.old if path not in self.files
                and (self.keeps == "none" or self.keeps == "partitions" and any(path.startswith(it) for it in some | every))]

    def published(self):
        """The requests of a good run, and the line of its commit."""
        rng, before, commit, after = self.rng, [], [], []
        for path, tags in shuffled(rng, [*self.files.items()]):
            if tags and rng.random() < .75:
                commit.append(self.put(path, tags))
                continue
            source = rng.choice((self.below(f"_temporary/0/{path}"), self.below(f".staging/{path}"), f"tmp/{path}"))
            if tags:
                before.append(self.put("", tags) | {"key": source})
            else:
                self.objects[source] = tags
            commit.append(self.copy(source, path))
            after.append(self.request("DeleteObject", key=source))
        gone = self.replaced()
        at = rng.choice((0, len(commit)))
        commit[at:at] = [self.delete(*gone)] if gone and rng.random() < .6 else [self.delete(it) for it in gone]
        if self.below(MARKER) in self.objects:
            (before if rng.random() < .5 else commit).insert(0, self.delete(MARKER))
        if rng.random() < .85:
            commit.append(self.marker())
        return [*shuffled(rng, before), COMMIT, *commit, *(it for it in after if rng.random() < .5)]

    def marker(self):
        """A request that puts the success marker."""
        hidden = [key for key in self.objects if key.startswith(self.below("_"))]
        return self.copy(self.rng.choice(hidden), MARKER) if hidden and self.rng.random() < .3 else self.put(MARKER, ["n"])

    # ---- lines

    def parted(self):
        """The lines of the claim and those of the requests, with noise among them."""
        rng = self.rng
        groups = [[{"op": "Object", "bucket": self.bucket, "key": key, "etags": tags}] for key, tags in self.objects.items()]
        if rng.random() < .3:
            groups.append([{"op": "Object", "bucket": "pond", "key": self.below("a"), "etags": ["p"]}])
        for (task, attempt), files in self.attempts.items():
            groups.append([{"op": "Attempt", "task": task, "attempt": attempt}, *({"op": "File", "path": path, "etags": tags} for path, tags in files.items())])
        claim = [{"op": "Job", "dest": self.dest, "keeps": self.keeps, "tasks": self.tasks}, *(it for group in shuffled(rng, groups) for it in group)]
        steps = [*self.steps]
        for _ in range(rng.choice((0, 1, 2, 4))):
            it = self.noise()
            lines, least = (claim, 1) if it["op"] in READS and rng.random() < .3 else (steps, 0)
            lines.insert(rng.randint(least, len(lines)), it)
        if rng.random() < .2:
            claim.insert(rng.randint(1, len(claim)), {"op": "Object", "bucket": self.bucket, "key": "tmp/among", "etags": []})
        return claim, steps


# ---- careless committers: each changes the requests of a run

def place(run, first=0):
    return run.rng.randint(first, len(run.steps))


def place_in_commit(run):
    return place(run, run.steps.index(COMMIT) + 1 if COMMIT in run.steps else 0)


def any_step(run):
    return run.rng.randrange(len(run.steps))


def touches(request, keys):
    return not keys.isdisjoint((request.get("key"), *request.get("keys", ())))


def moved(run):
    """A request comes earlier or later: often the marker, or the commit."""
    ends = [at for at, it in enumerate(run.steps) if it == COMMIT or touches(it, {run.below(MARKER)})]
    at = run.rng.choice(ends) if ends and run.rng.random() < .5 else any_step(run)
    run.steps.insert(place(run), run.steps.pop(at))


def shown_at_task_commit(run):
    """Files are published before the job's commit."""
    at = run.steps.index(COMMIT) if COMMIT in run.steps else 0
    run.steps = [it for it in run.steps if it != COMMIT]
    run.steps.insert(place(run, at), COMMIT)


def committed_at_first(run):
    """The commit begins before all requests, so that a task's commit may publish."""
    run.steps = [COMMIT, *(it for it in run.steps if it != COMMIT)]


def crashed(run):
    """The job dies."""
    del run.steps[place(run):]


def left_out(run):
    """A request is not sent, or has no effect."""
    at = any_step(run)
    it = run.steps.pop(at)
    if run.rng.random() < .5 and "effect" in it:
        run.steps.insert(at, it | {"effect": False})


def not_deleted(run):
    """The old files stay."""
    old = {run.below(it) for it in run.old}
    run.steps = [it for it in run.steps if not it["op"].startswith("Delete") or not touches(it, old)]


def yesterday(run):
    """An old marker stays, or is deleted late."""
    marker = run.below(MARKER)
    run.objects[marker] = ["m"]
    run.steps = [it for it in run.steps if not touches(it, {marker}) or not it["op"].startswith("Delete")]
    if run.rng.random() < .5:
        run.steps = [it for it in run.steps if not touches(it, {marker})]
    if run.rng.random() < .5:
        run.steps.insert(place(run), run.delete(MARKER))


def other_files(run):
    """The files of an attempt that is not the chosen one of its task, if there is one."""
    others = [files for (task, _), files in run.attempts.items() if files is not run.chosen[task]]
    return [(path, tags) for path, tags in run.rng.choice(others).items() if tags] if others else []


def mixed(run):
    """One file is that of another attempt."""
    for path, tags in other_files(run)[:1]:
        run.steps = [run.put(path, tags) if it.get("key") == run.below(path) else it for it in run.steps]


def late(run):
    """Another attempt publishes over what is there."""
    at = place_in_commit(run) if run.rng.random() < .5 else len(run.steps)
    run.steps[at:at] = [run.put(path, tags) for path, tags in other_files(run)]


def taken_away(run):
    """A file is deleted or overwritten, often at the end. It may come back."""
    contents = {path: tags for path, tags in run.rng.choice((run.files, run.old | run.files)).items() if tags}
    if contents:
        path, at = run.rng.choice([*contents]), place_in_commit(run) if run.rng.random() < .6 else len(run.steps)
        run.steps.insert(at, run.delete(path) if run.rng.random() < .8 else run.put(path, ["z"]))
        if run.rng.random() < .7:
            run.steps.insert(run.rng.choice((at + 1, place(run, at + 1))), run.put(path, contents[path]))


def lost(run):
    """Old files are deleted, often several at once."""
    if run.old:
        run.steps.insert(run.rng.choice((place(run), place_in_commit(run))), run.delete(*run.rng.sample([*run.old], run.rng.randint(1, len(run.old)))))


def deleted_at_claimed(run):
    """The commit deletes old files at paths that some attempt writes, often while an old marker stays."""
    paths = sorted({path for files in run.attempts.values() for path in files})
    run.objects |= {run.below(it): ["o"] for it in paths if it not in run.old}
    if run.rng.random() < .5:
        yesterday(run)
    if paths:
        run.steps.insert(place_in_commit(run), run.delete(*run.rng.sample(paths, run.rng.choice((len(paths), run.rng.randint(1, len(paths)))))))


def foreign(run):
    """A file is put that nobody claims."""
    run.steps.insert(place_in_commit(run), run.put(run.rng.choice((*PATHS, *OLD, "/a", "a/b/c")), run.rng.choice(PUT)))


def marker_again(run):
    """The marker comes a second time. It may be deleted before."""
    at = place(run)
    run.steps[at:at] = [run.delete(MARKER), run.marker()][run.rng.randint(0, 1):]


def copied(run):
    """A copy of a key that may not be there."""
    sources = (*run.objects, *map(run.below, ("a", *HIDDEN, *run.files)))
    run.steps.insert(place(run), run.copy(run.rng.choice(sources), run.rng.choice((*HIDDEN, MARKER, *PATHS[:3], *OLD[:2]))))


def sent_again(run):
    """A request is sent twice."""
    at = any_step(run)
    if run.steps[at] != COMMIT:
        run.steps.insert(place(run, at), run.steps[at])


def unseen(run):
    """Nobody saw whether a request took effect."""
    at = any_step(run)
    if run.steps[at] != COMMIT:
        run.steps[at] = run.steps[at] | {"effect": None, "why": "no reply"}


def elsewhere(run):
    """A request goes to another bucket."""
    at = any_step(run)
    if run.steps[at] != COMMIT:
        run.steps[at] = run.steps[at] | {"bucket": "pond"}


def without_attempt(run):
    """A task has no attempt."""
    run.tasks = run.rng.choice((run.tasks + 1, 4294967295))


def anything(run):
    """Some requests, whatever they are."""
    paths = (*PATHS[:4], *OLD[:3], *HIDDEN, MARKER, "/a")
    for _ in range(run.rng.randint(1, 4)):
        one, other = run.rng.choice(paths), run.rng.choice(paths)
        run.steps.insert(place(run), run.rng.choice((run.put(one, run.rng.choice(PUT)), run.delete(one, other), run.copy(run.below(one), other))))


CARELESS = (
    moved, moved, shown_at_task_commit, committed_at_first, crashed, crashed, left_out, left_out, not_deleted, not_deleted, yesterday, yesterday, mixed, mixed,
    late, late, late, taken_away, taken_away, taken_away, taken_away, lost, lost, deleted_at_claimed, deleted_at_claimed, foreign, marker_again, copied,
    sent_again, sent_again, unseen, elsewhere, without_attempt, anything)


def recording(seed, number):
    """The bytes of the recording of this number. The same seed and number give the same bytes."""
    rng = random.Random(f"{seed} {number}")
    run, is_damaged = Run(rng), number % 3 == 2
    if rng.random() < (.2 if is_damaged else .7):
        for _ in range(rng.choice((1, 1, 2, 3))):
            (rng.choice(CARELESS) if run.steps else anything)(run)
    if not is_damaged:
        claim, steps = run.parted()
        return joined(written(rng, claim + steps))
    return faulty(run, TURNS[number // 6 % len(TURNS)]) if number % 2 else otherwise(run)
