"""The lines `lose` and `crash`, which name a request by actor and operation, and the request that each of them hits."""
import dataclasses

from job_runs import Script, Stop, actor_of, words_of

FATES = ("slow", "before", "after")
OPERATIONS = ("CreateBucket", "PutObject", "GetObject", "HeadObject", "DeleteObject", "DeleteObjects", "CopyObject", "ListObjectsV2",
              "CreateMultipartUpload", "UploadPart", "CompleteMultipartUpload", "AbortMultipartUpload", "ListParts",
              "ListMultipartUploads", "ClusterPut", "ClusterGet", "ClusterDelete", "ClusterRename", "ClusterList")
FORMS = {"lose": "lose ACTOR OPERATION K FATE [COUNT]", "crash": "crash ACTOR before OPERATION K"}


class Unreached(Stop):
    """A fault whose request is never sent, or already has a fault."""


@dataclasses.dataclass
class Fault:
    """A line `lose` or `crash`. A crash has no fate, and the count 0."""
    line: int
    text: str
    actor: str
    operation: str
    k: int
    fate: str = ""
    count: int = 0

    def find(self, trace, passed=()):
        """The request that the fault hits. Requests with the numbers `passed` are not counted."""
        found = [it for it in trace.requests if (it["actor"], it["op"]) == (self.actor, self.operation) and it["n"] not in passed]
        if self.k > len(found):
            many = f"only {len(found)} {self.operation}" if found else f"no {self.operation}"
            raise Unreached(f"line {self.line}: the fault is never reached, because {self.actor} sends {many}")
        return found[self.k - 1]

    def put(self, script, trace, request, after):
        """The script with the fault. The request must have a number above `after`."""
        n = request["n"]
        if n <= after:
            raise Unreached(f"line {self.line}: the fault would hit request {n}, and an earlier line has a fault up to request {after}: "
                            "write the lines in the order of the run")
        if not self.fate:
            return script.with_crash(trace, request, self.text)
        taken = sorted(script.fated().keys() & set(range(n, n + self.count)))
        if taken:
            raise Unreached(f"line {self.line}: a loss line names request {taken[0]} already")
        return script.with_loss(n, self.fate, self.count, self.text)

    def last(self, request):
        """The number of the last request that the fault may hit."""
        return request["n"] + self.count - 1


@dataclasses.dataclass
class Stage:
    """A script with some of its faults resolved, its trace, and the request that each of these faults hits."""
    script: Script
    trace: object
    hits: list

    def after(self):
        """The number after which the next fault must come."""
        return max((fault.last(request) for fault, request in self.hits), default=0)

    def is_before(self, n):
        """Whether each of these faults begins before request n is sent."""
        return all(request["n"] < n or request["n"] == n and not fault.fate for fault, request in self.hits)

    def put(self, trace_of, fault, passed=()):
        """The next stage, with one fault more. `trace_of` gives the trace of a script."""
        request = fault.find(self.trace, passed)
        script = fault.put(self.script, self.trace, request, self.after())
        return Stage(script, trace_of(script, f"line {fault.line}: with this fault "), [*self.hits, (fault, request)])


def number(word, line, what, least, most):
    """Reads a word as a number."""
    if not (word.isascii() and word.isdigit() and len(word) <= 18 and least <= int(word) <= most):
        raise Stop(f"line {line}: {what} is {word}, and must be a number from {least} to {most}")
    return int(word)


def read_fault(line, text, actors):
    """Reads a line with a fault."""
    words = text.split()
    if not (len(words) == 5 or words[0] == "lose" and len(words) == 6) or words[0] == "crash" and words[2] != "before":
        raise Stop(f"line {line}: the line must be: {FORMS[words[0]]}")
    actor, operation, k, *fate = words[1:] if words[0] == "lose" else [words[1], *words[3:]]
    if actor_of(actor) not in actors:
        raise Stop(f"line {line}: {actor} is no actor of this script; its actors are: {', '.join(actors)}")
    if operation not in OPERATIONS:
        raise Stop(f"line {line}: there is no operation {operation}; the operations are: {', '.join(OPERATIONS)}")
    fault = Fault(line, " ".join(words), actor_of(actor), operation, number(k, line, "K", 1, 10 ** 18 - 1))
    if fate:
        if fate[0] not in FATES:
            raise Stop(f"line {line}: there is no fate {fate[0]}; the fates are: {', '.join(FATES)}")
        fault.fate, fault.count = fate[0], number([*fate, "1"][1], line, "COUNT", 1, 1000)
    return fault


def stages(text, trace_of):
    """The stages of a script: without its faults, then with the first one, then with two, and so on."""
    lines = text.split("\n")
    said = [it for it, line in enumerate(lines) if words_of(line)[0] in FORMS]
    # (the faults are empty lines at first, so that the program's messages name the lines of the file)
    blank = Script(["" if it in said else line for it, line in enumerate(lines)])
    trace = trace_of(blank, "")
    faults = [read_fault(it + 1, lines[it], blank.actors()) for it in said]
    found = [Stage(Script([line for it, line in enumerate(lines) if it not in said]), trace, [])]
    for fault in faults:
        found.append(found[-1].put(trace_of, fault))
    return found
