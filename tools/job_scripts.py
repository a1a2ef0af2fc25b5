"""Random scripts of jobs, and the bytes of a script's files."""

FATES = {"slow": "slow", "before": "lost-before", "after": "lost-after"}
WORDS = ("text 7", "text hello world", "hex -", "hex 00ff41", "fill 11 65", "fill 30 90", "fill 0 66")
PATHS = ("a", "b", "d/x", "d/y", "e/f/z", "p=1/a.csv", "p=1/b", "p=2/c.x.y", "caf\u00e9", "quo\"te", "tab\\slash")
OLD = ("out/a0", "out/old", "out/p=1/old", "out/_SUCCESS", "x", "out/d/x1", "out/.hidden")


def losses(rng):
    at = 1
    for _ in range(rng.choice((0, 1, 1, 2, 4))):
        at += rng.randint(1, 25)
        count = rng.randint(1, 4)
        yield f"loss {at} {rng.choice(sorted(FATES))} {count}"
        at += count


def head(rng):
    committer, tasks = rng.choice(("magic", "directory", "partitioned")), rng.randint(1, 3)
    yield from ("job j1", "dest s3a://lake/out", f"committer {committer}", f"tasks {tasks}")
    if committer != "magic":
        yield f"mode {rng.choice(('fail', 'append', 'replace'))}"
        if rng.random() < .3:
            yield f"unique {rng.choice(('yes', 'no'))}"
    yield f"retries {rng.choice((0, 0, 1, 2, 3))}"
    for word, least, most in (("block", 1, 9), ("lanes", 1, 4), ("stamp", 0, 999)):
        if rng.random() < .3:
            yield f"{word} {rng.randint(least, most)}"
    yield from losses(rng)


def attempts(rng, tasks, contents):
    for task, attempt in ((t, a) for t in range(tasks) for a in range(rng.choice((1, 1, 2)))):
        if rng.random() < .95:
            yield f"attempt {task}.{attempt}"
            for path in rng.sample(PATHS, rng.randint(0, 3)):
                yield f"file {path if rng.random() < .25 else f'{path}{task}'} {rng.choice(contents)}"


def random_event(rng, names):
    actor, draw = rng.choice(names + ["driver"] * 3), rng.random()
    op = rng.choice(("setup", "commit", "abort", "clean") if actor == "driver" else ("write", "write", "commit", "abort"))
    return (f"do {actor} {op}" if draw < .5 else f"start {actor} {op}" if draw < .65 else f"step {actor} {rng.randint(1, 6)}" if draw < .8
            else f"run {actor}" if draw < .88 else f"mix {rng.randint(0, 9999)}" if draw < .93 else f"kill {actor}" if draw < .97 else "restart driver")


def events(rng, names):
    if rng.random() < .4:
        yield from (random_event(rng, names) for _ in range(rng.randint(2, 18)))
        return
    yield "do driver setup"
    mixed = rng.random() < .35
    for name in names:
        yield f"{'start' if mixed else 'do'} {name} write"
        if not mixed and rng.random() < .9:
            yield f"do {name} commit"
    if mixed:
        if names and rng.random() < .3:
            yield f"kill {rng.choice(names)}"
        yield f"mix {rng.randint(0, 99999)}"
        yield from (f"start {it} commit" for it in names)
        yield f"mix {rng.randint(0, 99999)}"
    yield from rng.choice((["do driver commit"], ["do driver commit"], ["start driver commit", f"step driver {rng.randint(1, 9)}", "run driver"], []))
    for event, odds in (("kill driver", .2), ("restart driver", .2), ("do driver commit", .2), ("do driver abort", .1), ("do driver clean", .2)):
        if rng.random() < odds:
            yield event


def script(rng, contents=WORDS):
    """The lines of a random script. `contents` are the words that a `file` line may have after its path."""
    said = list(head(rng))
    said += attempts(rng, int(next(it for it in said if it.startswith("tasks")).split()[1]), contents)
    return said + list(events(rng, [it.split()[1] for it in said if it.startswith("attempt")]))


def content(words):
    """The bytes of a file, from the words after its path."""
    kind, *rest = words.split(" ")
    if kind == "fill":
        return bytes([int(rest[1])]) * int(rest[0])
    return " ".join(rest).encode() if kind == "text" else b"" if rest == ["-"] else bytes.fromhex(rest[0])


def blocks(data, least):
    """The parts in which a file is uploaded: at most 10,000, and one empty part for an empty file. All but the last have at least this many bytes."""
    size = max(least, 1, -(-len(data) // 10000))
    return [data[at:at + size] for at in range(0, max(len(data), 1), size)]
