"""Runs of two jobs, event by event.

`trace` does not show two jobs. So the tool runs them with their whole order, and once with each beginning of the order. The log that a run leaves
has all changes in order, and the report has the number of requests. So each change belongs to the first event after which the log has it.
"""
import tempfile

from job_runs import Script, Stop, put_store, refusal, store_of, words_of
from outcomes import below, opening_of, place_of
from readers import Event, Run, Step, event_lines, named_files, numbers
from store_log import changes_in

SEPARATOR = "====="
FATES = {"slow": "slow", "before": "lost before", "after": "lost after"}


def parts_of(text):
    """The lines of the two scripts and the order, each with the number of its first line. None if the text has no separating line."""
    lines = text.split("\n")
    cuts = [at for at, line in enumerate(lines) if line.removesuffix("\r") == SEPARATOR]
    if not cuts:
        return None
    starts, ends = [0, *(it + 1 for it in cuts)], [*cuts, len(lines)]
    return [(start + 1, lines[start:end]) for start, end in zip(starts, ends)]


def order_of(lines):
    """The job of each event, `a` or `b`."""
    turns = (words_of(it) for it in lines if it.removesuffix("\r"))
    return [job for job, count in turns for _ in range(int(count))]


class Twins:
    """Two scripts and an order, and the runs with beginnings of the order."""

    def __init__(self, program, room, text, store):
        self.program, self.room, self.store = program, room, store
        self.data = text.encode()
        status, said, self.changes = self.play(self.data)
        self.first, self.second, self.order = parts_of(text)
        self.jobs, self.report = order_of(self.order[1]), said.splitlines()
        self.status, self.sent = status, int(next(it for it in self.report if it.startswith("sent ")).split()[1])

    def play(self, data):
        """Runs a script, and gives the status, the report, and the changes that it made."""
        with tempfile.TemporaryDirectory(dir=self.room) as folder:
            put_store(folder, self.store)
            status, said = self.program.run(folder, "twins", data=data)
            left = store_of(folder)
        if "\nstatus " not in f"\n{said}":
            raise Stop(refusal(status, said.strip()))
        return status, said, [] if left is None else changes_in(left)

    def until(self, events):
        """How many requests and changes a run of the first `events` events has."""
        text = "\n".join([*self.first[1], SEPARATOR, *self.second[1], SEPARATOR, *(f"{it} 1" for it in self.jobs[:events]), ""])
        _, said, changes = self.play(text.encode())
        if changes != self.changes[:len(changes)]:
            raise Stop(f"s3a does otherwise when it runs only the first {events} events")
        return int(next(it for it in said.splitlines() if it.startswith("sent ")).split()[1]), len(changes)

    def events(self):
        """The events, each with its end, the numbers of its requests and its losses; and the number of changes after each event."""
        lines = {job: iter(event_lines(part[1], part[0])) for job, part in (("a", self.first), ("b", self.second))}
        fated = Script(self.first[1]).fated()
        sent, found, changes = 0, [], []
        for at, job in enumerate(self.jobs):
            now, many = self.until(at + 1) if at + 1 < len(self.jobs) else (self.sent, len(self.changes))
            text, _, end = self.report[at].partition(" ")[2].partition(": ")
            sends = range(sent + 1, now + 1)
            found.append(Event(next(lines[job]), text, end, (sent + 1, now) if sends else None, self.lost(fated, sends)))
            sent = now
            changes.append(many)
        return found, changes


    def lost(self, fated, sends):
        """The numbers of those requests among these that were lost or slow, as text."""
        found = {}
        for it in (it for it in sends if it in fated):
            found.setdefault(fated[it], []).append(it)
        return ", ".join(f"{numbers(them[0], them[-1])} {FATES[words_of(self.first[1][line - 1])[2]]}" for line, them in found.items())


def twin_run(program, room, text, store):
    """The run of two jobs. Its steps are the changes, and its events have the numbers of their requests."""
    twins = Twins(program, room, text, store)
    with tempfile.TemporaryDirectory(dir=room) as folder:
        put_store(folder, store)
        heads = [Script(lines[:(event_lines(lines) or [len(lines) + 1])[0] - 1]) for _, lines in (twins.first, twins.second)]
        traces = [program.trace(folder, it) for it in heads]
    letters = {trace.lines[0]["job"]: job for job, trace in zip("ab", traces)}
    files = {name: them for job, trace in zip("ab", traces) for name, them in named_files(trace, f"{job} ").items()}
    events, changes = twins.events()
    steps, begun = [], 0
    for at, end in enumerate(changes):
        requests = twins.changes[begun:end]
        for request in requests:
            if "id" in request:
                request["job"] = letters.get(request["id"], "?")
        steps += [Step(at, it) for it in requests or [None]]
        begun = end
    last = {"sent": twins.sent, "status": twins.status}
    return Run(traces[0].lines[0]["dest"], below(place_of(traces[0]), opening_of(traces[0])), files, events, steps, last)
