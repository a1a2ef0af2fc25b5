"""Scripts of jobs, their traces, and the program that runs them: what the tools share."""
import argparse
import json
import os
import subprocess
import sys
import tempfile

TOP = os.path.dirname(os.path.dirname(os.path.abspath(__file__)))
HEAD = ("job", "dest", "committer", "tasks", "mode", "unique", "retries", "block", "lanes", "stamp", "loss")
EVENTS = ("do", "start", "step", "run", "mix", "kill", "restart", "recover")
FAULTS = ("NotUtf8", "BadLine", "UnknownWord", "MissingHead", "RepeatedName", "BadPath", "HiddenPath", "UnknownActor", "DestIsRoot",
          "TooLarge", "BadNumber", "NoMemory")
# The members of a request's line that may differ from try to try. All others are the same when it is sent again.
TOLD = ("n", "event", "outcome", "effect", "error", "listed", "more")


class Stop(Exception):
    """Why a tool stops, as a sentence for the user."""


def run_tool(name, main):
    """Runs a tool. Ends with the status that it gives, or with 1 and a message on standard error."""
    try:
        status = main()
        sys.stdout.flush()
    except Stop as why:
        print(f"{name}: {why}", file=sys.stderr)
        status = 1
    except OSError as why:
        if isinstance(why, BrokenPipeError):
            os.dup2(os.open(os.devnull, os.O_WRONLY), sys.stdout.fileno())
        else:
            print(f"{name}: {why.strerror}: {why.filename}" if why.filename else f"{name}: {why}", file=sys.stderr)
        status = 1
    except KeyboardInterrupt:
        status = 130
    sys.exit(status)


def add_words(parser):
    """The words that all tools take."""
    parser.add_argument("script", metavar="SCRIPT", help="the script of a job; - for standard input")
    parser.add_argument("--over", metavar="FOLDER", help="run over the store in FOLDER, which is not changed (default: an empty folder)")
    parser.add_argument("--s3a", metavar="PATH", default=f"{TOP}/s3a", help="the program (default: the s3a beside tools/)")


def option_number(word):
    """The number that an option gives, from 1 on."""
    if not (word.isascii() and word.isdigit()) or int(word) == 0:
        raise argparse.ArgumentTypeError(f"{word} is no number from 1 on")
    return int(word)


def text_of(path):
    """The text of a script, from a file or from standard input."""
    if path == "-":
        data = sys.stdin.buffer.read()
    else:
        with open(path, "rb") as it:
            data = it.read()
    try:
        return data.decode()
    except UnicodeDecodeError as why:
        raise Stop(f"the script is not UTF-8: byte {why.start} is wrong") from None


def words_of(line):
    return line.removesuffix("\r").split(" ")


def actor_of(word):
    """The name of an actor as traces have it, or None if the word is not one."""
    task, dot, attempt = word.partition(".")
    if word == "driver":
        return word
    return f"{int(task)}.{int(attempt)}" if dot and all(it.isascii() and it.isdigit() for it in (task, attempt)) else None


def asked(request):
    """The members of a request that are the same when it is sent again."""
    told = (*TOLD, "upload") if request["op"] == "CreateMultipartUpload" else TOLD
    return {name: value for name, value in request.items() if name not in told}


def key_of(request):
    """The key of a request, or the prefix, path, source or bucket if it has no key."""
    keys = request.get("keys")
    if keys:
        return keys[0] + (f" and {len(keys) - 1} more" if len(keys) > 1 else "")
    return next((request[it] for it in ("key", "prefix", "path", "source", "bucket") if it in request), "")


class Trace:
    """The output of `s3a FOLDER trace job`: its lines, and the requests and events among them."""

    def __init__(self, text):
        self.text = text
        self.lines = [json.loads(it) for it in text.split("\n") if it]
        self.requests = [it for it in self.lines if "n" in it]
        self.events = [it for it in self.lines if it["op"] == "Event"]

    def next_try(self, request):
        """The next try of a request that got no answer, if there is one."""
        later = () if request["outcome"] == "answered" else self.requests[request["n"]:]
        return next((it for it in later if asked(it) == asked(request)), None)

    def tries(self, request):
        """A request and the tries that follow it."""
        found = []
        while request is not None:
            found.append(request)
            request = self.next_try(request)
        return found


class Script:
    """The lines of a script. Methods that change it return a new script."""

    def __init__(self, lines):
        self.lines = lines

    def data(self):
        text = "\n".join(self.lines)
        return (text if text.endswith("\n") else f"{text}\n").encode()

    def head(self, word, default):
        """The value of the head line with this word."""
        return next((words_of(it)[1] for it in self.lines if words_of(it)[0] == word), default)

    def actors(self):
        """The driver, and the declared attempts."""
        return ["driver", *(actor_of(words_of(it)[1]) for it in self.lines if words_of(it)[0] == "attempt")]

    def fated(self):
        """The numbers of the requests that `loss` lines name, each with the number of its line."""
        found = {}
        for number, line in enumerate(self.lines, 1):
            if line.startswith("loss "):
                first, _, count = [*words_of(line)[1:], "1"][:3]
                found |= {int(first) + it: number for it in range(int(count))}
        return found

    def with_loss(self, first, fate, count, note=None):
        """The script with one more `loss` line, after its last head line."""
        at = max((it for it, line in enumerate(self.lines, 1) if words_of(line)[0] in HEAD), default=0)
        loss = f"loss {first} {fate}" + (f" {count}" if count > 1 else "")
        return Script([*self.lines[:at], *comment(note), loss, *self.lines[at:]])

    def with_crash(self, trace, request, note=None):
        """The script in which the actor dies right before it sends this request. The event that sends it is replaced by other lines."""
        at = [it for it, line in enumerate(self.lines) if words_of(line)[0] in EVENTS][request["event"] - 1]
        before = [it["actor"] for it in trace.requests if it["event"] == request["event"] and it["n"] < request["n"]]
        word, *rest = words_of(self.lines[at])
        begun = [f"start {' '.join(rest)}"] if word == "do" else []
        rest = [self.lines[at]] if word == "mix" else []
        return Script([*self.lines[:at], *comment(note), *begun, *steps(before), f"kill {request['actor']}", *rest, *self.lines[at + 1:]])


def comment(note):
    return [f"# {note}"] if note else []


def steps(actors):
    """The `step` lines by which these actors send one request each, in this order."""
    counts = []
    for actor in actors:
        if counts and counts[-1][0] == actor:
            counts[-1][1] += 1
        else:
            counts.append([actor, 1])
    return [f"step {actor} {count}" for actor, count in counts]


class Program:
    """The program `s3a`."""

    def __init__(self, path):
        self.path = os.path.abspath(path)
        if not os.access(self.path, os.X_OK) or os.path.isdir(self.path):
            raise Stop(f"there is no program {path}: name one by --s3a")

    def run(self, folder, *words, data=b"", is_quiet=False):
        """The status and the standard output of a command. What it says on standard error goes to the tool's own, unless `is_quiet`."""
        try:
            ran = subprocess.run([self.path, folder, *words], input=data, stdout=subprocess.PIPE, stderr=subprocess.DEVNULL if is_quiet else None)
        except OSError as why:
            raise Stop(f"{self.path} cannot be run: {why.strerror}") from None
        if ran.returncode < 0:
            raise Stop(f"{self.path} was ended by signal {-ran.returncode}")
        return ran.returncode, ran.stdout.decode(errors="replace")

    def trace(self, folder, script, where=""):
        """The trace of a script."""
        status, text = self.run(folder, "trace", "job", data=script.data())
        if not text.startswith("{"):
            raise Stop(where + refusal(status, text.strip()))
        return Trace(text)


def room_for_stores():
    """A temporary folder for stores, to be used with `with`. It is in memory if the system has /dev/shm."""
    return tempfile.TemporaryDirectory(dir="/dev/shm" if os.access("/dev/shm", os.W_OK) else None)


def put_store(folder, store):
    """Writes the bytes of a store into a folder. Does nothing if they are None."""
    if store is not None:
        with open(f"{folder}/store.img", "wb") as it:
            it.write(store)


def refusal(status, text):
    """Why the program did not run a script, from its status and output."""
    words = text.split(" ")
    if words[:2] == ["script", "fault"] and len(words) == 6:
        line = f"line {words[5]}: " if words[5] != "0" else ""
        return f"{line}s3a says: {text} ({FAULTS[int(words[2]) - 1]})"
    return f"s3a ends with status {status}" + (f" and says: {text}" if text else " and says nothing")


def store_of(folder):
    """The bytes of a folder's store, or None if it has none."""
    if folder is None:
        return None
    if not os.path.isdir(folder):
        raise Stop(f"there is no folder {folder}")
    try:
        with open(f"{folder}/store.img", "rb") as it:
            return it.read()
    except FileNotFoundError:
        return None
