"""Runs of a script with every single fault."""
import tempfile

from aiming import Stage, Unreached, stages
from job_runs import put_store, store_of
from outcomes import Outcome, check_keys

FATES = ("slow", "before", "after")


class Run:
    """A run of the script with one added fault. If `request` is None, no fault is added."""

    def __init__(self, request, fault, outcome):
        self.request, self.fault, self.outcome = request, fault, outcome


class Sweep:
    """The runs of a script with every single fault, each over the store of a folder. The runs have their folders in `room`."""

    def __init__(self, program, text, over, room, limit=None):
        self.program, self.store, self.room = program, store_of(over), room
        self.still = tempfile.mkdtemp(dir=room)
        put_store(self.still, self.store)
        self.stages = stages(text, self.trace_of)
        self.last = self.stages[-1]
        self.base = Run(None, "none", self.outcome(self.last, {}))
        self.requests = self.last.trace.requests[:limit]
        self.fated = self.last.script.fated()
        self.retries = int(self.last.script.head("retries", "3"))
        self.faults = [*FATES, *(f"{it}-all" for it in FATES if self.retries), "crash"]

    def trace_of(self, script, where=""):
        return self.program.trace(self.still, script, where)

    def outcome(self, stage, picks):
        """Runs a script in its own folder, and gives the outcome."""
        with tempfile.TemporaryDirectory(dir=self.room) as folder:
            put_store(folder, self.store)
            report = self.program.run(folder, "job", data=stage.script.data())[1]
            status, uploads = self.program.run(folder, "uploads", stage.trace.lines[0]["dest"])
            outcome = Outcome(stage.trace, report, "" if status else uploads, picks)
            check_keys(self.program, folder, stage.trace, outcome)
        return outcome

    def cases(self):
        """Each request with each of its faults. (If the script itself loses a request, only the crash is tried.)"""
        return [(it, fault) for it in self.requests for fault in self.faults if fault == "crash" or it["n"] not in self.fated]

    def run(self, request, fault):
        """The run with a fault. Later faults of the script itself follow their requests; if a request is no longer sent, its fault is dropped."""
        stage = next(it for it in reversed(self.stages) if it.is_before(request["n"]))
        later = self.last.hits[len(stage.hits):]
        stage = self.crashed(stage, request) if fault == "crash" else self.lost(stage, request["n"], *fault.split("-"))
        for own, _ in later:
            again = [] if fault == "crash" else stage.trace.tries(stage.trace.requests[request["n"] - 1])[1:]
            try:
                stage = stage.put(self.trace_of, own, [it["n"] for it in again])
            except Unreached:
                pass
        return Run(request, fault, self.outcome(stage, self.base.outcome.picks))

    def with_script(self, stage, script):
        return Stage(script, self.trace_of(script), stage.hits)

    def crashed(self, stage, request):
        """The stage in which the actor dies right before it sends this request."""
        return self.with_script(stage, stage.script.with_crash(stage.trace, request))

    def lost(self, stage, n, fate, every=None):
        """The stage in which one try of request n, or every try, is slow or lost."""
        if not every:
            return self.with_script(stage, stage.script.with_loss(n, fate, 1))
        numbers = range(n, n + self.retries + 1)
        if not stage.script.fated().keys() & {*numbers}:
            found = self.with_script(stage, stage.script.with_loss(n, fate, len(numbers)))
            if [it["n"] for it in found.trace.tries(found.trace.requests[n - 1])] == [*numbers]:
                return found
        return self.lost_one_by_one(stage, n, fate)

    def lost_one_by_one(self, stage, n, fate):
        """The stage in which every try is slow or lost, if the tries are not in a row or some are lost already."""
        while n:
            if n not in stage.script.fated():
                stage = self.with_script(stage, stage.script.with_loss(n, fate, 1))
            again = stage.trace.next_try(stage.trace.requests[n - 1])
            n = again and again["n"]
        return stage
