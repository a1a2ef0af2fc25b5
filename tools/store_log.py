"""Reads the changes in the log of a store (docs/FORMATS.md has the format), in the form of a trace's requests."""
import hashlib
import json

from job_runs import Stop

OPERATIONS = ("CreateBucket", "PutObject", "DeleteObject", "DeleteObjects", "CopyObject", "CreateMultipartUpload", "UploadPart",
              "CompleteMultipartUpload", "AbortMultipartUpload")
HEAD = b"S3ALOG01"


class Fields:
    """The fields of a record's body, one after the other."""

    def __init__(self, body):
        self.body, self.at = body, 0

    def take(self, size):
        self.at += size
        return self.body[self.at - size:self.at]

    def number(self, size):
        return int.from_bytes(self.take(size), "big")

    def data(self):
        return self.take(self.number(8))

    def text(self):
        return self.data().decode()


def part(fields):
    """A part that a completion names."""
    number, tag = fields.number(4), fields.take(32).decode()
    return {"part": number, "etag": tag + (f"-{count}" if (count := fields.number(4)) else "")}


def request_of(body):
    """The change in a record's body. If it puts a `_SUCCESS`, `id` is the id of the job that this names."""
    fields = Fields(body)
    kind = fields.number(1)
    if not 1 <= kind <= len(OPERATIONS):
        raise Stop(f"the store's log has a change of the kind {kind}, which this tool does not know")
    found = {"op": OPERATIONS[kind - 1], "effect": True, "outcome": "answered", "bucket": fields.text()}
    if kind == 4:
        return found | {"keys": [fields.text() for _ in range(fields.number(4))]}
    if kind == 5:
        return found | {"source": fields.text(), "key": fields.text()}
    if kind == 1:
        return found
    found["key"] = fields.text()
    if kind == 2:
        fields.number(8)
        data = fields.data()
        found["etag"] = hashlib.md5(data).hexdigest()
        if found["key"].endswith("/_SUCCESS"):
            found["id"] = json.loads(data)["job"]
    if kind == 8:
        found["upload"] = fields.number(8)
        found["parts"] = [part(fields) for _ in range(fields.number(4))]
    return found


def changes_in(file):
    """The changes in the bytes of a folder's file, in order."""
    if not file.startswith(HEAD):
        return []
    at, found = 16 + int.from_bytes(file[8:16], "big"), []
    while file[at] == 1:
        size = int.from_bytes(file[at + 1:at + 9], "big")
        found.append(request_of(file[at + 9:at + 9 + size]))
        at += 9 + size
    return found
