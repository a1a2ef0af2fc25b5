"""Calls of ./audit for .ci/launcher. Each case is a name, what came out, and what must come out.

Only the first line of the program's answer is compared, because the launcher does not change the answer.
"""
import concurrent.futures
import os
import time

PACKED = {name: f"release/{name}-x86_64-linux.gz" for name in ("s3a", "audit")}
SOURCE = "crates/s3a/src/main.rt"
USAGE = "usage: audit\n"
SOUND = (0, "sound", "")
NO_JSON = (6, "trace fault not-json at line 1", "")


def first_line(ran):
    status, out, error = ran
    return status, out.split("\n")[0], error


def traced(copy):
    """The trace of the ordinary job."""
    return copy.explained([copy.lake, "trace", "job"], copy.read("examples/ordinary-job/1.job").decode())[1]


def audits(copy):
    """Calls that must run the released program."""
    trace = traced(copy)

    def called(what, given=trace, wanted=SOUND, **how):
        return f"audit {what}", first_line(copy.call(**{"words": [], "command": "./audit", "given": given, **how})), wanted

    copy.restore()
    yield called("for the first time")
    yield called("for the next time")
    yield called("of no trace", "x\n", NO_JSON)
    yield called("of nothing", "", (6, "trace fault out-of-order at line 0", ""))
    yield called("from another folder", command=f"{copy.top}/audit", folder="/")
    yield called("from a folder inside", command="../audit", folder=f"{copy.top}/docs")
    yield called("by a shell", command="/bin/sh", words=["audit"])
    for name in ("audit", "an-audit"):
        os.symlink(f"{copy.top}/audit", f"{copy.home}/{name}")
        yield called(f"by the link {name}", command=f"{copy.home}/{name}", folder="/")
    yield called("with no environment", PATH=None, HOME=None)
    yield called("with no home that can be written", HOME="/proc/none")
    yield called("with no home, of no trace", "x\n", NO_JSON, HOME="/proc/none")
    os.makedirs(f"{copy.home}/tmp", exist_ok=True)
    for command, words in (("./audit", []), ("./s3a", [copy.lake, "stat", "s3a://lake"])):
        ran = copy.call(words, command, given=trace, HOME="/proc/none", TMPDIR=f"{copy.home}/tmp")
        yield f"what {command} leaves where it has no home", (ran[0], os.listdir(f"{copy.home}/tmp")), (0, [])
    os.remove(f"{copy.home}/.cache/zothirki/trees{copy.top}/.known/audit")
    yield called("with a cache that knows ./s3a alone")
    yield "./s3a after ./audit", copy.call([copy.lake, "stat", "s3a://lake"]), (0, "directory\n", "")
    with concurrent.futures.ThreadPoolExecutor(4) as pool:
        many = [*pool.map(lambda _: first_line(copy.call([], "./audit", given=trace, HOME=f"{copy.home}/three")), range(4))]
    yield "four first audits at once", many, [SOUND] * 4
    copy.restore()
    line = './s3a "$lake" trace job < examples/ordinary-job/1.job | ./audit'
    yield "both for the first time in a pipe", first_line(copy.by_shell("", line)), SOUND


def with_help(copy):
    """Calls that must show the help, with the program's usage line if words were given; and `--version`."""
    shown = copy.read("release/audit-help.txt").decode()
    yield "audit --help", copy.call(["--help"], "./audit"), (0, shown, "")
    for words in (["trace"], [""], ["trace", "--help"], [copy.lake, "stat", "s3a://lake"], [copy.lake, "job"]):
        for home in (copy.home, "/proc/none"):
            yield f"audit {words}, home {home}", copy.call(words, "./audit", given="x\n", HOME=home), (2, USAGE, shown)
    told = dict(it.split(" ", 1) for it in copy.read("release/RELEASE").decode().splitlines())
    for name in PACKED:
        said = f"{name} {told['version']}\nsources {told['sources']}\nkit {told['kit']}\n"
        yield f"{name} --version", copy.call(["--version"], f"./{name}"), (0, said, "")


def damaged(copy):
    """Calls with a damaged release. They must say what is wrong, and run nothing; the other program must still run."""
    trace, data, ls = traced(copy), copy.kept[PACKED["audit"]], [copy.lake, "ls", "s3a://lake"]
    at = len(data) // 2

    def refused(what, said):
        status, out, error = copy.call([], "./audit", given=trace)
        return f"audit, {what}", (status, out, error.startswith("audit: ") and said in error), (1, "", True)

    for what, left in (("a changed byte", data[:at] + bytes([data[at] ^ 1]) + data[at + 1:]), ("half of it", data[:at]), ("nothing of it", b"")):
        copy.restore()
        copy.write(PACKED["audit"], left)
        yield refused(f"{what} in release/", "is damaged")
        yield f"./s3a, {what} of the other program in release/", copy.call(ls), (0, "", "")
        yield refused(f"{what} in release/ and a cache of ./s3a", "is damaged")
    copy.restore()
    os.remove(f"{copy.top}/{PACKED['audit']}")
    yield refused("no file in release/", "is damaged or missing")
    copy.restore()
    copy.write(PACKED["s3a"], copy.kept[PACKED["s3a"]][:5000])
    yield "audit, half of the other program in release/", first_line(copy.call([], "./audit", given=trace)), SOUND
    copy.restore()
    for call in (["./audit", []], ["./s3a", ls]):
        copy.call(call[1], call[0], given=trace)
    time.sleep(0.3)
    copy.write(SOURCE, copy.kept[SOURCE] + b"// changed\n")
    yield refused("a changed comment in a source", "the sources are not those of release")
    copy.restore()
