"""Calls for .ci/launcher that build programs. They find a stand-in for `rt`, which proves nothing and "builds" the programs that it is given.

Each case is a name, what came out, and what must come out.
"""
import gzip
import os
import shutil

from audit_calls import PACKED, SOURCE

RT = """#!/bin/sh
at={bin}
case $1 in
    version) echo '{kit}' ;;
    doc) echo "$at/doc" ;;
    ci)
        echo run >>"$at/runs"
        for name in s3a audit; do
            mkdir -p "crates/$name/out" && cp "$at/$name.made" "crates/$name/out/$name" && echo "rt: $name proved"
        done
        ;;
esac
"""


def put(path, data):
    os.makedirs(os.path.dirname(path), exist_ok=True)
    with open(path, "wb") as it:
        it.write(data)
    os.chmod(path, 0o755)


class StandIn:
    """Installs the stand-in for `rt`, and removes it at the end."""

    def __init__(self, copy):
        self.copy = copy

    def __enter__(self):
        kit = dict(it.split(" ", 1) for it in self.copy.read("release/RELEASE").decode().splitlines())["kit"]
        put(f"{self.copy.bin}/rt", RT.format(bin=self.copy.bin, kit=kit).encode())
        put(f"{self.copy.bin}/toolchain/bin/clang", b"#!/bin/sh\n")
        return self

    def __exit__(self, *_):
        for name in ("rt", "runs", "s3a.made", "audit.made"):
            if os.path.exists(f"{self.copy.bin}/{name}"):
                os.remove(f"{self.copy.bin}/{name}")
        shutil.rmtree(f"{self.copy.bin}/toolchain")

    def make(self, **programs):
        """Sets the programs that the next builds give."""
        for name, data in programs.items():
            put(f"{self.copy.bin}/{name}.made", data)

    def runs(self):
        """How often `rt ci` was called."""
        with open(f"{self.copy.bin}/runs", encoding="utf-8") as it:
            return len(it.readlines())


def builds(copy):
    """Calls with changed sources, and calls of ./prove."""
    if not shutil.which("python3", path="/usr/bin:/bin"):
        print("launcher: there is no python3 in /usr/bin, so nothing is built")
        return
    with StandIn(copy) as kit:
        yield from changed(copy, kit)
        yield from compared(copy, kit)
    copy.restore()


def changed(copy, kit):
    """With changed sources, each call runs the program that is built from them, and one build makes both programs."""
    ls = [copy.lake, "ls", "s3a://lake"]
    copy.restore()
    copy.call(ls)
    copy.call([], "./audit", given="")
    copy.write(SOURCE, copy.kept[SOURCE] + b"// changed\n")
    made = {name: f"#!/bin/sh\necho {name} was built\n".encode() for name in PACKED}
    kit.make(**made)
    said = "the sources are not those of release"
    ran = copy.by_shell("", f'sleep 0.3; ./s3a "$lake" ls s3a://lake 2>"$given.error"; ./audit; ./audit; grep -c "{said}" "$given.error"')
    yield "a changed source", ran, (0, "s3a was built\naudit was built\naudit was built\n1\n", "")
    yield "the builds of two programs", kit.runs(), 1
    copy.write(SOURCE, copy.kept[SOURCE] + b"// changed again\n")
    ran = copy.by_shell("", 'sleep 0.3; { ./s3a "$lake" ls s3a://lake & ./audit & wait; } 2>&1 | grep "was built" | sort')
    yield "a changed source, both at once", ran, (0, "audit was built\ns3a was built\n", "")
    yield "the builds of two calls at once", kit.runs(), 2
    copy.write(SOURCE, copy.kept[SOURCE] + b"// changed for the third time\n")
    os.remove(f"{copy.bin}/audit.made")
    status, out, error = copy.by_shell("", "sleep 0.3; ./audit")
    yield "a build that fails", (status, out, error.endswith("audit: they could not be built\n")), (1, "", True)


def compared(copy, kit):
    """What ./prove says if a program is the released one, and if it is not."""
    copy.restore()
    released = {name: gzip.decompress(copy.kept[path]) for name, path in PACKED.items()}
    for other in (None, "s3a", "audit"):
        kit.make(**{name: data + (b"x" if name == other else b"") for name, data in released.items()})
        status, out, error = copy.call([], "./prove")
        said = [f"prove: {path} is {'NOT ' if name == other else ''}what these sources prove" for name, path in PACKED.items()]
        yield f"./prove, where {other or 'no program'} is another", (status, out.splitlines()[-2:], error), (1 if other else 0, said, "")
