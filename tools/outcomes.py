"""How a run ended: its commit, what readers see, and what it left behind."""
import json

from audit import audit
from job_runs import Stop


def is_hidden(path):
    """Whether an element of a path begins with `_` or `.`, so that readers do not see it."""
    return any(it[:1] in ("_", ".") for it in path.split("/"))


def visible(objects):
    """The files that readers see: neither hidden paths nor directory markers."""
    return {path: tags for path, tags in objects.items() if not is_hidden(path) and not path.endswith("/")}


def directory(path):
    return path[:path.rfind("/") + 1]


def below(place, objects):
    """The objects below a place, by their paths from there."""
    return {key.removeprefix(place): tags for key, tags in objects.items() if key.startswith(place) and key != place}


def changes_of(request):
    """What a request changed: for each key the tags of its object's parts, or None if the object is gone."""
    if not request["effect"]:
        return {}
    if request["op"] == "PutObject":
        return {request["key"]: [request["etag"]]}
    if request["op"] == "CompleteMultipartUpload":
        return {request["key"]: [part["etag"] for part in request["parts"]]}
    return dict.fromkeys(request.get("keys", [request.get("key")])) if request["op"] in ("DeleteObject", "DeleteObjects") else {}


def opening_of(trace):
    """The objects at the start of the run: for each key the tags of its parts."""
    return {it["key"]: it["etags"] for it in trace.lines if it["op"] == "Object"}


def objects_of(trace, place):
    """The objects below a key at the start and at the end of the run: for each path the tags of its parts."""
    opening = opening_of(trace)
    now = dict(opening)
    for request in trace.requests:
        now |= changes_of(request)
    return below(place, opening), below(place, {key: tags for key, tags in now.items() if tags is not None})


def files_of(trace):
    """The files of each attempt, from the first lines of the trace: for each path the tags of its parts."""
    found, files = {}, None
    for it in trace.lines:
        if it["op"] == "Attempt":
            files = found.setdefault((it["task"], it["attempt"]), {})
        elif it["op"] == "File":
            files[it["path"]] = it["etags"]
    return found


def driver_end(event):
    """How the driver's operation ended in an event, or None."""
    if event["text"].startswith("mix "):
        return next((it.removeprefix("driver ") for it in event["end"].split(", ") if it.startswith("driver ")), None)
    return None if event["end"] == "ok" else event["end"]


def commit_end(trace):
    """How the job's commit ended, in the words of the report; or `killed`, `unfinished` or `not begun`."""
    said, running = "not begun", False
    for event in trace.events:
        word, *rest = event["text"].split(" ")
        if word == "mix" or rest[0] == "driver":
            is_refused = event["end"].startswith("refused")
            if rest[1:] == ["commit"] and (not is_refused or said == "not begun"):
                said, running = driver_end(event) or "unfinished", driver_end(event) is None
            elif running and word == "kill":
                said, running = "killed", False
            elif running and not is_refused and driver_end(event):
                said, running = driver_end(event), False
    return said


class Outcome:
    """How a run ended.

    `report` and `uploads` are what these commands print. `picks` has an attempt for each task for which the report has none.
    """

    def __init__(self, trace, report, uploads, picks):
        job = trace.lines[0]
        opening, now = objects_of(trace, place_of(trace))
        self.keeps, self.uploads, self.paths = job["keeps"], uploads.splitlines(), {*now}
        self.commit, self.begun = commit_end(trace), any(it["op"] == "Commit" for it in trace.lines)
        self.picks = picks | {int(it[1]): int(it[2]) for it in map(str.split, report.splitlines()) if it[:1] == ["pick"]}
        files = files_of(trace)
        self.partitions = {directory(path) for them in files.values() for path in them} - {""}
        self.wanted = {path: tags for pick in self.picks.items() for path, tags in files.get(pick, {}).items()}
        self.opening, self.seen = visible(opening), visible(now)
        self.hidden = sorted(it for it in now if is_hidden(it) and it != "_SUCCESS")
        # (a marker that was not put again has the same list object as at the start)
        self.success = "no" if "_SUCCESS" not in now else "old" if now["_SUCCESS"] is opening.get("_SUCCESS") else "yes"
        self.new = [it for it, tags in self.wanted.items() if self.seen.get(it) == tags]
        self.old = [it for it, tags in self.opening.items() if self.seen.get(it) == tags]
        self.gone = sorted(self.opening.keys() - self.seen.keys())
        self.audit = audit(trace.text)

    def readers(self):
        """What readers see at the end, as one word."""
        is_old, is_new = self.seen == self.opening, self.wanted and len(self.new) == len(self.wanted)
        if is_old:
            return "same" if is_new else "old"
        return "new" if is_new else "some" if self.seen else "nothing"

    def unsafe(self):
        """The reasons why readers were not safe, as far as the tool can see."""
        if self.audit.startswith("unsound"):
            yield f"audit says: {self.audit}"
        if self.seen != self.opening and not self.begun:
            yield "the commit never began, and readers see other files than at the start"
        if self.success == "yes" and len(self.new) < len(self.wanted):
            yield f"_SUCCESS exists, and readers see only {len(self.new)} of {len(self.wanted)} new files"
        if self.success == "old" and self.seen != self.opening:
            yield "the old _SUCCESS exists, and readers see other files than the old ones"
        for path, tags in sorted(self.seen.items()):
            if tags not in (self.opening.get(path), self.wanted.get(path)):
                yield f"the file {path} is neither an old nor a new one"

    def against_mode(self):
        """The old files that are gone, although the mode keeps them."""
        if self.keeps == "partitions":
            return [it for it in self.gone if not any(it.startswith(to) for to in self.partitions)]
        return [] if self.keeps == "none" else self.gone

    def wrongs(self):
        """Why the run is wrong: readers were not safe, or old files are gone that the mode keeps."""
        return [*self.unsafe(), *(f"the old file {it} is gone, and the mode keeps it" for it in self.against_mode())]

    def lost(self, base):
        """The old files that are gone, although readers see files at their paths after the run without a fault."""
        return [it for it in self.gone if it in base.seen]

    def mark(self, base):
        """`unsafe`, `lost` or `otherwise` if a run needs a look, compared with the run without a fault. Otherwise an empty text."""
        if any(self.unsafe()):
            return "unsafe"
        if self.lost(base):
            return "lost"
        return "" if (self.commit, self.success, self.seen) == (base.commit, base.success, base.seen) else "otherwise"


def place_of(trace):
    """The destination's key, followed by a `/`."""
    return trace.lines[0]["dest"].removeprefix("s3a://").partition("/")[2] + "/"


def check_keys(program, folder, trace, outcome):
    """Checks that the store has the paths that follow from the trace. `rmr` shows the store's keys, since it would delete them."""
    place = place_of(trace)
    text = program.run(folder, "trace", "rmr", trace.lines[0]["dest"])[1]
    asked = [json.loads(it) for it in text.split("\n") if it.startswith("{")]
    keys = {key for it in asked for key in it.get("keys", [it["key"]] if it["op"] == "DeleteObject" else [])}
    paths = {it.removeprefix(place) for it in keys if it.startswith(place) and it != place}
    if paths != outcome.paths:
        raise Stop(f"the store and the trace differ at the path {min(paths ^ outcome.paths)}")
