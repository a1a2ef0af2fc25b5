"""Cases of tools/moments. What must come out was worked out by hand from docs/FORMATS.md. Only `scenarios` takes it from `ls`."""
import os
import re
import subprocess
import xml.etree.ElementTree as xml

SPACE = "{http://www.w3.org/2000/svg}"
TOP = os.path.dirname(os.path.dirname(os.path.abspath(__file__)))
HEAD = ["job j1", "dest s3a://lake/out", "committer magic", "tasks 1"]
FILES = ["attempt 0.0", "file part-00000 text hello"]
EVENTS = ["do driver setup", "do 0.0 write", "do 0.0 commit", "do driver commit"]
NOTHING, OLD, NONE = ["nothing, at first"], ["old, at first"], "nothing, after request"
FIRST = ["job ja", "dest s3a://lake/out", "committer directory", "tasks 1", "mode fail", "attempt 0.0", "file x text 1", *EVENTS]
SECOND = ["job jb", *HEAD[1:], "attempt 0.0", "file y text 2", *EVENTS]
ORDER = ["a 3", "b 4", "a 1"]


def look_of(shape):
    """How a shape looks, wherever it stands."""
    return shape.tag.removeprefix(SPACE), shape.get("fill"), shape.get("stroke")


class Drawn:
    """A picture: the tooltips of its rows by label, those of its marks, its texts, and where they stand. Of marks, the cells of rows and the
    legend it also has how they look."""

    def __init__(self, svg):
        root = xml.fromstring(svg)
        self.rows, self.marks, self.cells, self.looks, self.fills, self.middles = {}, [], [], {}, {}, {}
        self.legend, self.begin = legend_of(root), [float(it.get("x1")) for it in root.iter(f"{SPACE}line") if it.get("stroke-width") == "3"]
        self.patterns = {f"url(#{it.get('id')})": [(one.get("fill"), one.get("d")) for one in it] for it in root.iter(f"{SPACE}pattern")}
        self.texts = [it.text for it in root.iter(f"{SPACE}text")]
        self.downs = {it.text: float(it.get("y")) for it in root if it.tag == f"{SPACE}text" and it.get("y")}
        self.size = float(root.get("width")), float(root.get("height"))
        for group in root.iter(f"{SPACE}g"):
            told = group.find(f"{SPACE}title").text
            if told.startswith("line "):
                self.marks.append(told)
                self.looks[told] = [look_of(it) for it in group if it.tag != f"{SPACE}title"]
                self.middles[told] = [float(it.get("x")) + float(it.get("width")) / 2 for it in group.iter(f"{SPACE}rect")]
            else:
                label, _, what = told.rpartition(": ")
                box = group.find(f"{SPACE}rect")
                self.cells.append((label, what, float(box.get("x")), float(box.get("y"))))
                self.rows.setdefault(label, []).append(what)
                shapes = [it for it in group if it.tag == f"{SPACE}rect" and it.get("stroke")][1:]
                words = [it.text for it in group if it.tag == f"{SPACE}text"]
                self.fills.setdefault(label, []).append(([(it.get("fill"), float(it.get("height"))) for it in shapes], words))

    def sight(self):
        """The paths that readers see at the end."""
        return sorted(label for label, told in self.rows.items() if not told[-1].startswith("nothing"))


def legend_of(root):
    """Of each text of a picture the looks of the shapes right before it, as they stand in the legend."""
    found, shapes = {}, []
    for it in root:
        if it.tag == f"{SPACE}text" and it.text != "s":
            found.setdefault(it.text, shapes)
            shapes = []
        else:
            shapes = [] if it.tag in (f"{SPACE}g", f"{SPACE}line") else [*shapes, look_of(it)]
    return found


def drawn(check, script, *words):
    status, said, error = check.run("moments", "-", "--svg", *words, script=script)
    check.see("moments", status == 0 and not error, f"it ends with {status} and says {error}")
    return Drawn(said)


def job(*head, files=FILES, events=EVENTS):
    return [*HEAD, *head, *files, *events]


def jobs(check):
    """The rows of small jobs: what readers see, and from which request on."""
    marker = NOTHING + ["new, after request 13"]
    hello = NOTHING + ["0.0, after request 12"]
    four = [f"file {it} text {it}" for it in "abcd"]
    same = ["attempt 0.0", "file x text 1", "attempt 0.1", "file x text 1"]
    second = [*EVENTS[:2], "do 0.1 write", "do 0.1 commit", EVENTS[3]]
    cases = (
        ("an ordinary job", job(), {"part-00000": hello, "_SUCCESS": marker}),
        ("a lost reply", job("loss 12 after"), {"part-00000": hello, "_SUCCESS": NOTHING + ["new, after request 14"]}),
        ("a lost request", job("loss 12 before"), {"part-00000": NOTHING + ["0.0, after request 13"], "_SUCCESS": NOTHING + ["new, after request 14"]}),
        ("a slow request", job("loss 13 slow"), {"part-00000": hello, "_SUCCESS": NOTHING + ["new, after request 14"]}),
        ("nothing is published", job(events=EVENTS[:3]), {"_SUCCESS": NOTHING}),
        # The commit completes a and b, and the reply of b is lost. It deletes b, and then a.
        ("a revert", job("retries 0", "loss 28 after", files=[FILES[0], *four]),
         {"a": NOTHING + ["0.0, after request 27", f"{NONE} 31"], "b": NOTHING + ["0.0, after request 28", f"{NONE} 30"], "_SUCCESS": NOTHING}),
        # Both attempts write the same bytes. The driver completes the upload of the one that published.
        ("an attempt by its upload", job(files=same, events=second),
         {"x": NOTHING + ["0.1, after request 16"], "_SUCCESS": NOTHING + ["new, after request 17"]}),
        ("a name with signs", job(files=[FILES[0], "file a&b<c> text 1"]), {"a&b<c>": hello, "_SUCCESS": marker}))
    for what, script, due in cases:
        check.same(f"moments, {what}", drawn(check, script).rows, due)


def marked(check):
    """Each request has a mark above the place at which its effect begins. The tooltip names its line of the script."""
    script = ["# a comment", *(f"{it}\r" for it in job("", "loss 12 after"))]
    picture = drawn(check, script)
    check.same("moments, the marks", [re.search(r"request (\d+):", it)[1] for it in picture.marks], [str(it) for it in range(1, 15)])
    check.same("moments, a refused request", picture.marks[0], "line 10 do driver setup\nrequest 1: HeadObject out, answered, refused: NoSuchKey")
    check.same("moments, a read", picture.marks[7], "line 12 do 0.0 commit\nrequest 8: ListObjectsV2 out/__magic/job-j1/tasks/0_0/__base/, answered")
    due = "line 13 do driver commit\nrequest 12: CompleteMultipartUpload out/part-00000, took effect, but the reply was lost"
    check.same("moments, a lost reply", picture.marks[11], due)
    # Place 0 is the start, so request n has place n. A place is 16 wide.
    begins = {(label, what): x for label, what, x, _ in picture.cells}
    left = begins["part-00000", NOTHING[0]]
    places = [round((begins[it] - left) / 16, 3) for it in (("part-00000", "0.0, after request 12"), ("_SUCCESS", "new, after request 14"))]
    check.same("moments, where effects begin", places, [12, 14])
    # A row is 18 high, and its name stands beside it.
    downs = {label: y for label, _, _, y in picture.cells}
    check.same("moments, how far the rows are apart", round(downs["_SUCCESS"] - downs["part-00000"], 3), 22)
    check.see("moments, the rows' names", all(y < picture.downs[label] < y + 18 for label, y in downs.items()), str(picture.downs))
    changes = {int(re.search(r"request (\d+):", told)[1]): them[0] for told, them in picture.middles.items() if them}
    check.same("moments, where marks stand", {n: round((x - left) / 16, 3) for n, x in changes.items()}, {n: n + 0.5 for n in (2, 4, 5, 6, 7, 10, 12, 14)})
    legend = {"new file", "_SUCCESS of this job", "readers see nothing", "a change that took effect", "a read", "refused", "request or reply lost",
              "the commit begins", "What readers see: standard input", "s3a://lake/out, 14 requests, status 0"}
    check.same("moments, title and legend", legend - {*picture.texts}, set())
    check.see("moments --title", "A & B" in drawn(check, script, "--title", "A & B").texts, "the title is not there")


def looks(check):
    """Each mark and each cell looks as the legend has it, and each in its own way. Requests 4, 5 and 14 are slow or lost, and are sent again."""
    picture = drawn(check, job("loss 4 slow", "loss 5 before", "loss 14 after"))
    change, read, refused, lost, slow = meanings = ["a change that took effect", "a read", "refused", "request or reply lost", "slow: took no effect"]
    due = dict(enumerate([[refused], [change], [read], [slow], [lost], *[[change]] * 4, [read], [read], [change], [read], [lost, change], [refused], [change]], 1))
    found = {int(re.search(r"request (\d+):", told)[1]): look for told, look in picture.looks.items()}
    check.same("moments, how marks look", found, {n: [look for it in them for look in picture.legend.get(it, [])] for n, them in due.items()})
    check.see("moments, marks that differ", len({str(picture.legend.get(it) or None) for it in meanings} - {"None"}) == 5, str(picture.legend))
    left = picture.cells[0][2]
    check.same("moments, where the commit begins", [round((it - left) / 16, 3) for it in picture.begin[:1]], [13])
    cases = ((job(), {"part-00000": ("new file", "0.0"), "_SUCCESS": ("_SUCCESS of this job", "new")}, ()),
             (job(), {"keep": ("old file", "old"), "part-00000": ("new file", "0.0"), "_SUCCESS": ("_SUCCESS of this job", "new")},
              ("--over", check.store("moments-looks", "keep"))),
             ([*HEAD[:3], "tasks 2", "attempt 0.0", "file a text 1", "attempt 1.1", "file b text 2", *EVENTS[:3], "do 1.1 write", "do 1.1 commit", EVENTS[3]],
              {"a": ("new file of attempt 0", "0.0"), "b": ("new file of attempt 1", "1.1"), "_SUCCESS": ("_SUCCESS of this job", "new")}, ()))
    for script, due, words in cases:
        picture = drawn(check, script, *words)
        fills = {name: picture.legend.get(meaning, [[None] * 2])[0][1] for name, (meaning, _) in due.items()}
        check.same("moments, how cells look", {name: them[-1] for name, them in picture.fills.items()},
                   {name: ([(fills[name], 18.0)], [text]) for name, (_, text) in due.items()})
        check.see("moments, cells that differ", len({str(picture.patterns.get(it, it)) for it in fills.values()}) == len(due), str(fills))


def over(check):
    """Old files: one is replaced, one stays, and request 2 deletes the old marker. The folder is not changed."""
    folder = check.store("moments-old", "part-00000", "keep", "_SUCCESS")
    with open(f"{folder}/store.img", "rb") as it:
        before = it.read()
    due = {"keep": OLD, "part-00000": OLD + ["0.0, after request 12"], "_SUCCESS": OLD + [f"{NONE} 2", "new, after request 13"]}
    check.same("moments --over", drawn(check, job(), "--over", folder).rows, due)
    twins = [*FIRST, "=====", *SECOND, "=====", "b 4"]
    due = {"keep": OLD, "part-00000": OLD, "y": NOTHING + ["b 0.0, from line 22 on"],
           "_SUCCESS": OLD + ["nothing, from line 19 on", "b, from line 22 on"]}
    check.same("moments --over, two jobs", drawn(check, twins, "--over", folder).rows, due)
    # The log in the folder has changes that are not of this run.
    idle = [*FIRST, "=====", *SECOND[:-4], "start driver setup", "=====", "b 1"]
    due = {"keep": OLD, "part-00000": OLD, "_SUCCESS": OLD}
    check.same("moments --over, two jobs that change nothing", drawn(check, idle, "--over", folder).rows, due)
    said = check.run("moments", "-", "--over", folder, script=[*FIRST, "=====", *SECOND, "=====", "a 1"])[1]
    check.see("moments --over, a conflict with an old file", "line 8: a do driver setup: conflict keep\n" in said, said[-500:])
    with open(f"{folder}/store.img", "rb") as it:
        check.see("moments --over", before == it.read() and os.listdir(folder) == ["store.img"], "the folder was changed")


def twins(check):
    """The two jobs of docs/FORMATS.md. The second sends 3, 4, 3 and 3 requests. The check before the first job's commit is request 21."""
    script = [*FIRST, "=====", *SECOND, "=====", *ORDER]
    picture = drawn(check, script)
    due = {"y": NOTHING + ["b 0.0, from line 22 on"], "_SUCCESS": NOTHING + ["b, from line 22 on"]}
    check.same("moments, two jobs", picture.rows, due)
    labels = {"8 a do driver setup", "19 b do driver setup", "22 b do driver commit", "11 a do driver commit", "8–10", "11–14", "15–17", "18–20", "21"}
    check.same("moments, the lines of two jobs", labels - {*picture.texts}, set())
    check.see("moments, a change of two jobs", picture.marks[-1] == "line 22 b do driver commit\nPutObject out/_SUCCESS, answered", picture.marks[-1])
    lost = drawn(check, ["job ja", *FIRST[1:5], "loss 19 after", *FIRST[5:], "=====", *SECOND, "=====", *ORDER])
    check.see("moments, a loss of two jobs", "23 b do driver commit (19 lost after)" in lost.texts, str(lost.texts))
    check.same("moments, a lost reply of two jobs", lost.rows["y"], NOTHING + ["b 0.0, from line 23 on"])
    last = drawn(check, [*FIRST[:5], "retries 0", "loss 3 after", *FIRST[5:], "=====", *SECOND, "=====", "a 1"])
    check.see("moments, a loss at an event's end", "10 a do driver setup (3 lost after)" in last.texts, str(last.texts))
    same = [*FIRST[:2], "committer magic", "tasks 1", "attempt 0.0", "file y text 1", *EVENTS, "=====", *SECOND, "=====", *ORDER]
    check.same("moments, two jobs at one path", drawn(check, same).rows["y"], NOTHING + ["b 0.0, from line 21 on", "a 0.0, from line 10 on"])
    status, _, error = check.run("moments", "-", script=[*FIRST, "=====", *SECOND, "=====", "a 5"])
    check.same("moments, a wrong order", (status, error), (1, "moments: s3a ends with status 6 and says: twin fault 8 at line 1\n"))


def large(tasks, files, *head):
    """A job with so many files of each task. Its attempts send 3 + 4 * files + 2 requests each for the writes and the listings."""
    attempts = [line for task in range(tasks)
                for line in (f"attempt {task}.0", *(f"file part-{task:03}-{it:02} text {task} {it}" for it in range(files)))]
    events = [f"do {task}.0 {word}" for word in ("write", "commit") for task in range(tasks)]
    return [*HEAD[:3], f"tasks {tasks}", *head, *attempts, EVENTS[0], *events, EVENTS[3]]


def folded(check):
    """20 tasks of 10 files: the set-up sends 3 requests, the writes 800, the commits 20 times 12; then come 20 reads and 200 completions."""
    attempts, starts = ([text.format(it) for it in range(90)] for text in ("attempt {}.0", "start {}.0 write"))
    # (an attempt without files has written them when it starts, and a second write is refused)
    loud = [*(f"kill {it}.0" for it in range(3)), *(f"do {it}.0 write" for it in range(3, 6))]
    quiet = drawn(check, [*HEAD[:3], "tasks 90", *attempts, EVENTS[0], *starts, *loud])
    check.see("moments, quiet lines", {"96 start 0.0 write and 89 more", *(f"{it} {text}" for it, text in enumerate(loud, 186))} <= {*quiet.texts}, str(quiet.texts))
    picture = drawn(check, large(20, 10))
    labels = [f"task {it}: 10 files" for it in range(20)]
    check.same("moments, rows of 200 files", list(picture.rows), [*labels, "_SUCCESS"])
    due = NOTHING + [f"{it + 1} 3.0, after request {1094 + it}" for it in range(10)]
    check.same("moments, a row of ten files", picture.rows[labels[3]], due)
    check.same("moments, the marker of 200 files", picture.rows["_SUCCESS"], NOTHING + ["new, after request 1264"])
    # A row is 18 high.
    cells = picture.fills[labels[3]][1:]
    check.same("moments, how far cells are filled", [round(sum(high for _, high in them), 1) for them, _ in cells], [round(1.8 * it, 1) for it in range(1, 11)])
    check.same("moments, what a full cell says", cells[-1][1], ["10/10"])
    check.see("moments, numbers of 200 files", {"1–3", "4–803", "804–1043", "1044–1063"} <= {*picture.texts}, str(picture.texts))
    check.see("moments, lines of 200 files", "226 do 0.0 write and 19 more" in picture.texts, str(picture.texts))
    check.see("moments, the size of 200 files", picture.size[0] < 2000 and picture.size[1] < 1000, f"it is {picture.size}")
    rows = drawn(check, large(20, 10), "--rows", "10").rows
    check.same("moments --rows", list(rows), [*(f"tasks {it}–{it + 1}: 20 files" for it in range(0, 20, 2)), "_SUCCESS"])
    check.same("moments --rows, a row for each path", len(drawn(check, large(3, 5), "--rows", "15").rows), 16)


def folded_more(check):
    """A lost request keeps a column of its own: of the 41 requests from 484 on, which one line sends, it is the 17th. 40 tasks of 10 files have 401 changes, so two share a column: requests 2124 to 2523 complete the files."""
    texts = drawn(check, large(20, 10, "loss 500 after")).texts
    check.see("moments, a lost request among many", {"4–483", "484–499", "500", "525–804"} <= {*texts}, str(texts))
    picture = drawn(check, large(40, 10))
    due = NOTHING + [f"{it} 3.0, after request {2153 + it}" for it in range(2, 11, 2)]
    check.same("moments, a row of 400 files", picture.rows["task 3: 10 files"], due)
    check.same("moments, the marker of 400 files", picture.rows["_SUCCESS"], NOTHING + ["new, after request 2524"])
    check.same("moments, the last row of 400 files", picture.rows["task 39: 10 files"][-1], "10 39.0, after request 2523")


def folded_mixed(check):
    """A row of five files, of which the second has an old file: each cell has a part for old files and one for new ones, 3.6 high for each file."""
    folder = check.store("moments-mixed", "part-000-01")
    picture = drawn(check, large(3, 5), "--rows", "3", "--over", folder)
    highs = [[round(high, 1) for _, high in them] for them, _ in picture.fills["task 0: 5 files"]]
    check.same("moments, old and new files in one row", highs, [[3.6], [3.6, 3.6], [7.2], [10.8], [14.4], [18.0]])


def plays(check):
    """For a job the tool runs the program once."""
    counts, counter = f"{check.room}/plays", f"{check.room}/counter"
    with open(counter, "w", encoding="utf-8") as it:
        it.write(f'#!/bin/sh\necho "$2" >> {counts}\nexec {check.program} "$@"\n')
    os.chmod(counter, 0o755)
    drawn(check, large(3, 5), "--s3a", counter)
    with open(counts, encoding="utf-8") as it:
        check.same("moments, plays of the program", it.read(), "trace\n")


def page(check):
    """The page has the script's own lines with their numbers, and how they ended."""
    status, said, _ = check.run("moments", "-", script=["# a < b", "", *job("loss 99 slow")])
    check.see("moments, a page", status == 0 and "<i> 1</i> # a &lt; b\n<i> 2</i> \n<i> 3</i> job j1\n" in said, said[-2000:])
    last = "13 requests, status 0; requests that loss lines name and that were never sent: 1</pre>"
    check.see("moments, how lines ended", "line 10: do driver setup: done\n" in said and last in said, said[-700:])
    check.see("moments, a page by itself", not re.search(r"<(script|link|img|iframe)\b", said), "it needs something beside it")


def listed(check, folder, path, below=""):
    """The files that readers see, by the command `ls`."""
    ran = subprocess.run([check.program, folder, "ls", path], capture_output=True)
    for line in ran.stdout.decode().splitlines() if ran.returncode == 0 else ():
        kind, *_, name = line.split(" ", 2 if line.startswith("f") else 1)
        if kind == "f" and (name[0] not in "_." or below + name == "_SUCCESS"):
            yield below + name
        elif kind == "d" and name[0] not in "_.":
            yield from listed(check, folder, f"{path}/{name}", f"{below}{name}/")


def scenarios(check):
    """For each job of the scenarios: at the end of its picture readers see the files that `ls` lists after its run."""
    seen = 0
    for name in sorted(it for it in os.listdir(f"{TOP}/examples") if os.path.exists(f"{TOP}/examples/{it}/1.out")):
        folder, step = f"{check.room}/scenario-{name}", 1
        os.mkdir(folder)
        while os.path.exists(f"{TOP}/examples/{name}/{step}.out"):
            words, script = step_of(f"{TOP}/examples/{name}/{step}")
            picture = check.run("moments", "-", "--svg", "--over", folder, script=script)[1] if words in (["job"], ["twins"]) else ""
            subprocess.run([check.program, folder, *words], input=("\n".join(script) + "\n").encode(), capture_output=True)
            if picture:
                dest = next(it.split(" ")[1].rstrip("/") for it in script if it.startswith("dest "))
                check.same(f"moments, the end of {name} {step}", Drawn(picture).sight(), sorted(listed(check, folder, dest)))
                seen += 1
            step += 1
    check.see("moments, scenarios", seen > 40, f"only {seen} were drawn")


def step_of(path):
    """The words of a step, and the lines of its input."""
    given = next((it for it in (f"{path}.job", f"{path}.in") if os.path.exists(it)), None)
    text = open(given, encoding="utf-8", errors="replace").read() if given else ""
    words = open(f"{path}.words", encoding="utf-8").read().split() if os.path.exists(f"{path}.words") else ["job"]
    return words, text.removesuffix("\n").split("\n")


def moments(check):
    for look in (jobs, marked, looks, over, twins, folded, folded_more, folded_mixed, plays, page, scenarios):
        look(check)
