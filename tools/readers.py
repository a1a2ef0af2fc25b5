"""What readers see at each point of a run."""
import dataclasses

from job_runs import EVENTS, words_of
from outcomes import below, changes_of, files_of, is_hidden, opening_of, place_of

SUCCESS = "_SUCCESS"
OLD, NEW, UNKNOWN = ("old",), ("new",), ("?",)


@dataclasses.dataclass
class Event:
    """An event: the number of its line in the script, its text, how it ended, and the first and last number of its requests, if it sent any."""
    line: int
    text: str
    end: str
    numbers: tuple = None
    note: str = ""


@dataclasses.dataclass
class Step:
    """A request of an event. If `request` is None, an event without requests."""
    event: int
    request: dict


class Owners:
    """The files of each attempt, and the attempt that sent the parts of each upload, as far as it is known."""

    def __init__(self, files):
        self.files, self.uploads = files, {}

    def of(self, path, request):
        """Whose file a request leaves at a path. Several attempts may write the same bytes there."""
        if path == SUCCESS:
            return (request["job"],) if "job" in request else NEW
        tags = changes_of(request)[request["key"]]
        same = [name for name, files in self.files.items() if files.get(path) == tags]
        mine = self.uploads.get(request.get("upload"))
        return (mine,) if mine in same else tuple(same) or UNKNOWN

    def note(self, request):
        if request["op"] == "UploadPart" and "actor" in request:
            self.uploads[request["upload"]] = request["actor"]


def is_seen(path):
    """Whether readers see a file at a path below the destination. `_SUCCESS` counts, because readers look for it."""
    return path == SUCCESS or not (path == "" or path.endswith("/") or is_hidden(path))


class Run:
    """A run of a job or of two.

    `sights` has for each path the steps at which it changes; the start is step -1. Each has the owners of the file that readers see from then
    on: `old`, or attempts. It has None if readers see no file.
    """

    def __init__(self, dest, opening, files, events, steps, last):
        self.dest, self.files, self.events, self.steps, self.last = dest, files, events, steps, last
        self.begin = None
        self.sights = {path: [(-1, OLD)] for path in opening if is_seen(path)}
        self.sights.setdefault(SUCCESS, [(-1, None)])
        place, owners = dest.removeprefix("s3a://").partition("/")[2] + "/", Owners(files)
        for at, step in enumerate(steps):
            if step.request:
                owners.note(step.request)
                self.follow(at, step.request, place, owners)
        self.sights = {path: them for path, them in self.sights.items() if path == SUCCESS or any(whose for _, whose in them)}
        self.turns = {at for them in self.sights.values() for at, _ in them}

    def follow(self, at, request, place, owners):
        """Takes the changes of a request."""
        for key, tags in changes_of(request).items():
            path = key.removeprefix(place)
            if key.startswith(place) and is_seen(path):
                them = self.sights.setdefault(path, [(-1, None)])
                whose = owners.of(path, request) if tags else None
                if whose != them[-1][1]:
                    them.append((at, whose))

    def tasks(self):
        """The paths that readers ever see, by the name of the task that writes them. Paths that no task writes are under None.

        With two jobs, the job's letter comes before the number of the task.
        """
        wrote = {}
        for name, files in self.files.items():
            wrote |= {path: name.rpartition(".")[0] for path in files if path not in wrote}
        found = {}
        for path in sorted(self.sights.keys() - {SUCCESS}):
            found.setdefault(wrote.get(path), []).append(path)
        return dict(sorted(found.items(), key=lambda it: (it[0] is None, *job_and_task(it[0] or "0"))))


def numbers(first, last):
    """A range of numbers as text."""
    return f"{first}" if first == last else f"{first}–{last}"


def job_and_task(name):
    """A task's name as a key for sorting: the job's letter and the task's number."""
    job, _, task = name.rpartition(" ")
    return job, int(task)


def event_lines(lines, first=1):
    """The numbers of the lines that are events. Lines are counted from `first`."""
    return [number for number, line in enumerate(lines, first) if words_of(line)[0] in EVENTS]


def named_files(trace, job=""):
    """The files of each attempt of a trace, by the attempt's name, which follows the job's letter."""
    return {f"{job}{task}.{attempt}": files for (task, attempt), files in files_of(trace).items()}


def run_of(trace, text):
    """The run of one job, from its trace. `text` is the script."""
    events, steps = [], []
    for event, line in zip(trace.events, event_lines(text.split("\n"))):
        events.append(Event(line, event["text"], event["end"]))
    begin = None
    for it in trace.lines:
        if it["op"] == "Commit":
            begin = len(steps)
        elif "n" in it:
            steps.append(Step(it["event"] - 1, it))
            event = events[it["event"] - 1]
            event.numbers = ((event.numbers or (it["n"],))[0], it["n"])
        elif it["op"] == "Event" and not events[it["event"] - 1].numbers:
            steps.append(Step(it["event"] - 1, None))
    end = trace.lines[-1]
    run = Run(trace.lines[0]["dest"], below(place_of(trace), opening_of(trace)), named_files(trace), events, steps, end)
    run.begin = begin
    return run
