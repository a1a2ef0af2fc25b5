#!/usr/bin/env python3
"""Audits a trace as the program `audit` does, line by line, and reads the lines with orjson. bench/audits compares both programs.

    bench/audit_in_python.py < TRACE

It takes recordings without faults. It keeps the claim, the live keys, and the attempts that can still explain what readers saw.
"""
import sys

import orjson

CHANGES = {"PutObject", "CopyObject", "DeleteObject", "DeleteObjects", "CompleteMultipartUpload"}


def is_shown(path):
    return path != "" and not path.endswith("/") and not any(part[:1] in ("_", ".") for part in path.split("/"))


class Audit:
    def __init__(self, job):
        self.bucket, _, key = job["dest"][6:].partition("/")
        self.below = key.rstrip("/") + "/"
        self.keeps, self.tasks = job["keeps"], job["tasks"]
        self.claim, self.owner, self.live, self.opening, self.shown = {}, {}, {}, {}, {}
        self.begun = self.running = self.needed = False
        self.marker, self.changes, self.files = None, 0, None

    def path_of(self, bucket, key):
        if bucket != self.bucket or not key.startswith(self.below):
            return None
        path = key[len(self.below):]
        return path if is_shown(path) else None

    def claimed(self, line):
        op = line["op"]
        if op == "Attempt":
            self.files = {}
            self.task = line["task"]
            self.claim.setdefault(self.task, {})[line["attempt"]] = self.files
        elif op == "File":
            self.files[line["path"]] = tuple(line["etags"])
            self.owner[line["path"]] = self.task
        elif op == "Object":
            self.live[line["bucket"], line["key"]] = tags = tuple(line["etags"])
            path = self.path_of(line["bucket"], line["key"])
            if path is not None:
                self.opening[path] = self.shown[path] = tags
            elif line["bucket"] == self.bucket and line["key"] == self.below + "_SUCCESS":
                self.marker = "old"

    def start(self):
        if not self.running:
            self.running = True
            folders = lambda files: {path[:path.rindex("/") + 1] for path in files if "/" in path}
            each = {task: [folders(files) for files in attempts.values()] for task, attempts in self.claim.items()}
            self.some = {it for task in each.values() for one in task for it in one}
            self.always = {it for task in each.values() for it in set.intersection(*task)}
            self.left = {task: dict(attempts) for task, attempts in self.claim.items()}

    def above(self, path, folders):
        at = path.find("/")
        while at >= 0:
            if path[:at + 1] in folders:
                return True
            at = path.find("/", at + 1)
        return False

    def is_kept(self, path):
        return self.keeps == "all" or self.keeps == "partitions" and not self.above(path, self.some)

    def is_replaced(self, path):
        return self.keeps == "none" or self.keeps == "partitions" and self.above(path, self.always)

    def change(self, line):
        self.start()
        self.changes += 1
        op, bucket = line["op"], line["bucket"]
        keys = line["keys"] if op == "DeleteObjects" else (line["key"],)
        tags = None
        if op == "PutObject":
            tags = (line["etag"],)
        elif op == "CompleteMultipartUpload":
            tags = tuple(part["etag"] for part in line["parts"])
        elif op == "CopyObject":
            tags = self.live[bucket, line["source"]]
        changed, was = [], self.marker
        for key in keys:
            if tags is None:
                self.live.pop((bucket, key), None)
            else:
                self.live[bucket, key] = tags
            path = self.path_of(bucket, key)
            if path is not None:
                changed.append(path)
                if tags is None:
                    self.shown.pop(path, None)
                else:
                    self.shown[path] = tags
            elif bucket == self.bucket and key == self.below + "_SUCCESS":
                self.marker = None if tags is None else "new"
        return self.judge(sorted(set(changed)), was)

    def judge(self, changed, was):
        opening, shown = self.opening, self.shown
        differs = [path for path in changed if shown.get(path) != opening.get(path)]
        if differs and not self.begun:
            return f"early {differs[0]}"
        if not self.needed and (differs or self.marker == "new"):
            for task in range(self.tasks):
                if task not in self.claim:
                    return f"missing {task}"
            self.needed = True
        for path in changed:
            now = shown.get(path)
            if now is not None and now != opening.get(path):
                if all(files.get(path) != now for files in self.claim.get(self.owner.get(path), {}).values()):
                    return f"foreign {path}"
        for path in changed:
            if path in opening and path not in shown and path not in self.owner and self.is_kept(path):
                return f"lost {path}"
        if not self.needed:
            return None
        torn = self.narrow(changed, self.fits)
        if torn is not None:
            return f"torn {torn}"
        if self.marker == "old" and differs:
            return f"stale {differs[0]}"
        if self.marker == "new":
            paths = changed if was == "new" else list(self.owner)
            half = self.narrow(paths, self.is_whole)
            if half is not None:
                return f"half {half}"
            for path in sorted(changed if was == "new" else shown):
                if path in shown and path in opening and path not in self.owner and self.is_replaced(path):
                    return f"left {path}"
        return None

    def narrow(self, paths, suits):
        least = None
        for path in paths:
            task = self.owner.get(path)
            if task is None:
                continue
            left = self.left[task]
            for number in [number for number, files in left.items() if not suits(path, files.get(path))]:
                del left[number]
            if not left and (least is None or task < least):
                least = task
        return least

    def fits(self, path, file):
        now, old = self.shown.get(path), self.opening.get(path)
        return now == old or (now is None or now == file) and not (now is None and file is None and old is not None and self.is_kept(path))

    def is_whole(self, path, file):
        now, old = self.shown.get(path), self.opening.get(path)
        if file is not None:
            return now == file
        return now is None and not (old is not None and self.is_kept(path)) or now is not None and now == old and not self.is_replaced(path)


def main():
    audit, number = None, 0
    for number, text in enumerate(sys.stdin.buffer, 1):
        line = orjson.loads(text)
        op = line["op"]
        if audit is None:
            audit = Audit(line)
        elif op in CHANGES:
            if line["effect"]:
                reason = audit.change(line)
                if reason:
                    print(f"unsound at line {number}: {reason}")
                    return 1
        elif op == "Commit":
            audit.start()
            audit.begun = True
        else:
            audit.claimed(line)
    print(f"sound\nlines {number}\nchanges {audit.changes}\nmarker {audit.marker or 'none'}")
    if audit.marker == "new":
        for task in range(audit.tasks):
            print(f"pick {task} {min(audit.left[task])}")
    return 0


sys.exit(main())
