"""More cases of tools/sweep: what its page shows, what it says of runs that no committer here makes, and how runs end. All worked out by hand."""
import html.parser
import json
import os
import subprocess

from job_runs import Trace
from outcomes import Outcome

TOP = os.path.dirname(os.path.dirname(os.path.abspath(__file__)))
HEAD = ["job j1", "dest s3a://lake/out", "committer magic", "tasks 1", "retries 0"]
FILES = ["attempt 0.0", "file part-00000 text hello"]
EVENTS = ["do driver setup", "do 0.0 write", "do 0.0 commit", "do driver commit"]
PARTED = [*HEAD[:2], "committer partitioned", "tasks 1", "mode replace", "retries 0", "attempt 0.0", "file d=1/x text new", *EVENTS]
COLUMNS = ["slow", "lost before", "lost after"]


class Page(html.parser.HTMLParser):
    """A page: the heads of its columns, the keys of its requests, the letters of its cells with their classes and tooltips, and its elements."""

    def __init__(self, text):
        super().__init__()
        self.text = text
        self.heads, self.keys, self.cells, self.names, self.inside = [], [], [], set(), None
        self.feed(text)

    def handle_starttag(self, tag, attrs):
        said = dict(attrs)
        self.names.add(tag)
        if tag == "br":
            self.heads[-1] += " "
        elif tag == "th":
            self.inside = "heads"
            self.heads.append("")
        elif tag == "td" and said.get("class") == "key":
            self.inside = "keys"
            self.keys.append("")
        elif tag == "td" and "title" in said:
            self.inside = "cells"
            self.cells.append([said["title"], said["class"].split(), ""])
        elif tag == "td":
            self.inside = None

    def handle_endtag(self, tag):
        if tag in ("td", "th"):
            self.inside = None

    def handle_data(self, data):
        if self.inside == "cells":
            self.cells[-1][2] += data
        elif self.inside:
            getattr(self, self.inside)[-1] += data


def swept(check, script, *words):
    """The page of a sweep, and its lines by request and fault: each a map of its columns."""
    path = f"{check.room}/sweep.html"
    status, said, error = check.run("sweep", "-", "--html", path, *words, script=script)
    check.see("sweep --html", status == 0 and not error, f"it ends with {status} and says {error}")
    names, *lines = (it.split("\t") for it in said.splitlines())
    with open(path, encoding="utf-8") as it:
        page = Page(it.read())
    os.remove(path)
    return page, {(it["request"], it["fault"]): it for it in (dict(zip(names, line)) for line in lines)}


def letters(page):
    return [it[2] for it in page.cells]


def pages(check):
    """The letters of jobs over old files. (.ci/tools has those of the ordinary job over an empty store.)"""
    upload = ["O", "O", "O+", "O"]  # the request that begins an upload, which is left where its reply is lost
    end = ["W", "W", "A", "W"]      # the success marker
    # Request 12 completes the file. The revert deletes it, and the old file at its path with it.
    page, _ = swept(check, [*HEAD, *FILES, *EVENTS], "--over", check.store("replaced", "part-00000", "keep"))
    check.same("a page of a file that is replaced", letters(page), ["O"] * 12 + upload + ["O+"] * 28 + ["L", "L", "L", "O+"] + end)
    check.see("the tooltip of a file that is lost", "\nold files that are gone: part-00000\n" in page.cells[44][0], page.cells[44][0])
    check.same("the heads of a page", page.heads, ["request", "actor", "operation", "key", "one try", "crash before", *COLUMNS])
    # Request 9 deletes the partition, and request 10 completes the file.
    for keys, left in ((("d=1/a",), "E"), (("d=1/a", "d=2/b"), "S")):
        page, _ = swept(check, PARTED, "--over", check.store(f"partition-{left}", *keys))
        gone = ["O+", "O+", f"{left}+", "O+", left, left, left, f"{left}+"]
        check.same(f"a page of a partition that is replaced, {left}", letters(page), ["O"] * 8 + upload + ["O+"] * 20 + gone + end)
    page, found = swept(check, [HEAD[0], "dest s3a://lake/a&b<c>", *HEAD[2:], "attempt 0.0", "file x\ty text 1", *EVENTS], "--limit", "5")
    check.same("keys with signs in a page", page.keys[2:], ["a&b<c>/__magic/job-j1/", "a&b<c>/x\ty", "a&b<c>/x\ty"])
    check.same("a key with a tab in a line", found["5", "crash"]["key"], "a&b<c>/x\\ty")
    page, _ = swept(check, [*HEAD[:4], "retries 1", "loss 1 slow", *FILES, *EVENTS], "--limit", "1")
    check.same("the heads of a page with retries", page.heads, ["request", "actor", "operation", "key", "one try", "every try", "crash before", *COLUMNS, *COLUMNS])
    check.same("what the script itself loses", letters(page), ["–"] * 6 + ["O"])
    check.see("what the legend says of it", ">&ndash;</td><td>not tried: the script itself says what happens to this request<" in page.text, "it is not told")


def modes(check):
    """What is right and wrong by the mode, and an old marker: request 2 deletes it."""
    replace = [*HEAD[:2], "committer directory", "tasks 1", "mode replace", "retries 0", *FILES, *EVENTS]
    status, said, _ = check.run("sweep", "-", "--tap", "--limit", "1", "--over", check.store("whole", "keep"), script=replace)
    check.same("sweep --tap, a directory that the mode replaces", (status, said.splitlines()[2][:5]), (0, "ok 1 "))
    _, found = swept(check, [*HEAD, *FILES, *EVENTS], "--limit", "2", "--over", check.store("marked", "_SUCCESS"))
    due = {("-", "none"): "yes", ("1", "crash"): "old", ("2", "before"): "old", ("2", "after"): "no", ("2", "crash"): "old"}
    check.same("an old marker", {it: found[it]["success"] for it in due}, due)


def commits(check):
    """How the commit ends in runs in which the driver is not simply told to do it."""
    begun = [*EVENTS[:3], "start driver commit"]
    for events, due in ((EVENTS[:3], "not begun"), (begun, "unfinished"), ([*begun, "step driver 1"], "unfinished"), ([*begun, "mix 1"], "committed"),
                        ([*begun, "step driver 1", "run driver"], "committed"), ([*begun, "step driver 1", "kill driver"], "killed"),
                        ([*EVENTS, "do driver commit"], "committed")):
        _, found = swept(check, [*HEAD, *FILES, *events], "--limit", "1")
        check.same(f"the commit of {events[3:]}", found["-", "none"]["commit"], due)


def line(operation, **members):
    return json.dumps({"op": operation, **members})


def request(operation, path, **members):
    return line(operation, n=1, actor="driver", event=1, bucket="lake", key=f"out/{path}", outcome="answered", effect=True, **members)


def put(path, tag):
    return request("PutObject", path, etag=tag * 32)


def unsafe(check):
    """Runs that no committer here makes: their traces are written by hand. The attempt writes `d=1/a` and `b`."""
    commit, both, marker = line("Commit"), [put("d=1/a", "a"), put("b", "b")], put("_SUCCESS", "d")
    left = request("DeleteObject", "d=1/old"), request("DeleteObject", "old")
    for what, keeps, opening, lines, due in (
            ("a sound run", "all", [], [commit, *both, marker], []),
            ("half a job", "all", [], [commit, both[0]], []),
            ("half a job with the marker", "all", [], [commit, both[0], marker], ["_SUCCESS exists, and readers see only 1 of 2 new files"]),
            ("a file of nobody", "all", [], [commit, put("b", "c")], ["the file b is neither an old nor a new one"]),
            ("a file of nobody with the marker", "all", [], [commit, *both, put("c", "c"), marker], ["the file c is neither an old nor a new one"]),
            ("the old marker", "all", ["_SUCCESS"], [commit, *both], ["the old _SUCCESS exists, and readers see other files than the old ones"]),
            ("a change before the commit", "all", [], [both[1]], ["the commit never began, and readers see other files than at the start"]),
            ("old files are gone", "all", ["d=1/old", "old"], [commit, *left, *both, marker],
             [f"the old file {it} is gone, and the mode keeps it" for it in ("d=1/old", "old")]),
            ("a partition", "partitions", ["d=1/old", "old"], [commit, *left, *both, marker], ["the old file old is gone, and the mode keeps it"]),
            ("everything", "none", ["d=1/old", "old"], [commit, *left, *both, marker], [])):
        claim = [line("Job", dest="s3a://lake/out", keeps=keeps), line("Attempt", task=0, attempt=0), line("File", path="d=1/a", etags=["a" * 32]),
                 line("File", path="b", etags=["b" * 32]), *(line("Object", bucket="lake", key=f"out/{it}", etags=["e" * 32]) for it in opening)]
        check.same(f"sweep, {what}", Outcome(Trace("\n".join([*claim, *lines])), "", "", {0: 0}).wrongs(), due)


def samples(check):
    """The sweeps in examples/sweeps are those that its commands make. (Beside this copy of the tools there is no `audit`: readers are always safe.)"""
    old = check.store("samples", "d=1/part-00000", "d=1/x", "d=2/y")
    for name, *words in (("lost-reply", "examples/sweeps/lost-reply.job"), ("revert", "examples/revert/1.job"),
                         ("partitioned-replace", "examples/sweeps/partitioned-replace.job", "--over", old)):
        path = f"{check.room}/sample.html"
        ran = subprocess.run([f"{check.room}/tools/sweep", *words, "--html", path], cwd=TOP, capture_output=True, timeout=600)
        with open(f"{TOP}/examples/sweeps/{name}.tsv", encoding="utf-8") as it:
            check.see(f"examples/sweeps/{name}.tsv", ran.stdout.decode() == it.read().replace("\tsound\t", "\t-\t"), "the tool makes another one: make it anew")
        with open(f"{TOP}/examples/sweeps/{name}.html", encoding="utf-8") as due, open(path, encoding="utf-8") as it:
            is_same = it.read() == due.read().replace("at each moment: sound\n", "at each moment: -\n")
            check.see(f"examples/sweeps/{name}.html", is_same, "the tool makes another one: make it anew")


def sweeps_more(check):
    for look in (pages, modes, commits, unsafe, samples):
        look(check)
