"""Traced runs of the program: the store at the start of a run, its requests, and the bytes of each put and part."""
import json
import os
import random
import tempfile

from comparing import Session
from job_runs import Stop, refusal, store_of
from job_scripts import OLD, WORDS, blocks, content, script
from s3_model import MINIMUM, Store, md5
from store_file import read_store

ROOM = "/dev/shm" if os.access("/dev/shm", os.W_OK) else None
LARGE = 1 << 20  # bytes: from this minimum on, few files of a random script have several parts


def folded(data):
    """The store in a file, after all changes of the file."""
    store, changes = read_store(data)
    for it in changes:
        store.do(it)
    return store


def files_of(text):
    """The size of blocks in a script's head, and the bytes of each of its files."""
    block, found = 0, []
    for line in text.splitlines():
        word, _, rest = line.partition(" ")
        if word == "block":
            block = int(rest)
        elif word == "file":
            found.append(content(rest.partition(" ")[2]))
    return block, found


class Run:
    """A run of a command: the requests of its trace, the store at its start and at its end, and the bytes of puts and parts by their MD5."""

    def __init__(self, program, folder, words, data):
        before = store_of(folder)
        status, text = program.run(folder, "trace", *words, data=data, is_quiet=words != ["job"])
        lines = [it for it in text.split("\n") if it]
        if status == 2:
            raise Stop("s3a has no such command, or shows no trace of it")
        if not all(it.startswith("{") for it in lines):
            raise Stop(refusal(status, text.strip()))
        self.requests = [it for it in map(json.loads, lines) if "n" in it and not it["op"].startswith("Cluster")]
        program.run(folder, *words, data=data)
        after = store_of(folder)
        self.opening, changes = (folded(before) if before else Store(), []) if after == before else read_store(after)
        self.closing = folded(after) if after else self.opening
        self.bodies = {md5(it["body"]): it["body"] for it in changes if "body" in it}
        block, files = files_of(data.decode(errors="replace")) if words == ["job"] else (0, [data])
        for it in files:
            self.bodies |= {md5(one): one for one in blocks(it, max(block, self.opening.minimum))} | {md5(it): it}

    def request(self, it):
        """The request to send: with its bytes, and without the members that come from the reply."""
        told = ("error", "effect", "listed", "more", *(["upload"] if it["op"] == "CreateMultipartUpload" else []))
        name_is_bad = it.get("error") == "InvalidBucketName"
        it = {name: value for name, value in it.items() if name not in told}
        if "etag" in it:
            if it["etag"] not in self.bodies:
                raise Stop(f"request {it['n']}: no bytes have the tag {it['etag']}")
            it["body"] = self.bodies[it["etag"]]
        if name_is_bad:
            it["as_is"] = it["bucket"]
        return it

    def play(self, client, prefix):
        """Sends the requests, except those that were lost on the way or slow, and gives the session."""
        session = Session(client, prefix, self.opening)
        try:
            session.begin()
            for it in self.requests:
                if it["outcome"] in ("answered", "lost-after"):
                    reply = session.request(f"request {it['n']}", self.request(it), it["outcome"] == "lost-after")
                    check(it, reply)
            check_end(session.store, self.closing)
            session.end()
        finally:
            session.clean()
        return session


def check(it, reply):
    """Checks that the reply of the tool's own model agrees with the trace."""
    told = {"effect": "error" not in reply} | {name: reply[name] for name in ("error", "more") if name in reply}
    told |= {"listed": len(reply["entries"])} if "more" in reply else {}
    if it["outcome"] == "answered":
        told |= {"upload": reply["upload"]} if "upload" in reply else {}
    else:
        told = {name: value for name, value in told.items() if name in ("effect", "error")}
    wrong = [name for name, value in told.items() if it.get(name) != value]
    if wrong:
        raise Stop(f"request {it['n']}: the trace and the tool's own model differ in {', '.join(wrong)}")


def check_end(model, closing):
    """Checks that the tool's own model has the same store as the run left in its folder."""
    if [vars(it) for it in model.buckets.values()] != [vars(it) for it in closing.buckets.values()]:
        raise Stop("the store that the run left and the tool's own model differ")


def run_of(program, over, minimum, words, data):
    """A run over a copy of a folder's store, or over a new store made by `init`."""
    with tempfile.TemporaryDirectory(dir=ROOM) as folder:
        store = store_of(over)
        if store is not None:
            with open(f"{folder}/store.img", "wb") as it:
                it.write(store)
        elif minimum != MINIMUM:
            program.run(folder, "init", str(minimum))
            for bucket in buckets_of(words, data):
                program.run(folder, "mb", bucket)
        return Run(program, folder, words, data)


def buckets_of(words, data):
    """The bucket of a job's destination. `job` and `gen` make it only in a folder without a store."""
    if words[0] == "gen":
        return ["lake"]
    return [it.split(" ")[1].removeprefix("s3a://").split("/")[0] for it in data.decode(errors="replace").split("\n") if it.startswith("dest ")][:1]


def random_run(program, minimum, seed):
    """A run of a random script over a store of some random files."""
    rng = random.Random(seed)
    large = (f"fill {minimum + 1} 65", f"fill {2 * minimum} 66") if minimum >= LARGE and rng.random() < .2 else ()
    lines = script(rng, WORDS + large)
    with tempfile.TemporaryDirectory(dir=ROOM) as folder:
        program.run(folder, "init", str(minimum))
        program.run(folder, "mb", "lake")
        for key in rng.sample(OLD, rng.randint(0, 4)):
            program.run(folder, "put", f"s3a://lake/{key}", data=f"old {key}".encode())
        return Run(program, folder, ["job"], "".join(f"{it}\n" for it in lines).encode())
