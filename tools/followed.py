"""Follows the tags of all keys during a recording, as an audit does, and completes lines that depend on them."""
import json

from exchanges import CHANGES
from job_runs import Stop

UNKNOWN = ("unknown",)


def lines_in(path):
    """The lines of a trace, with their numbers."""
    with open(path, "rb") as lines:
        for at, data in enumerate(lines, 1):
            try:
                line = json.loads(data)
            except ValueError:
                line = None
            if not isinstance(line, dict):
                raise Stop(f"line {at} of {path} is no JSON object")
            yield at, line


def keys_of(line):
    """The keys that a change names."""
    return [(line["bucket"], it) for it in line.get("keys", [line.get("key")])]


def upload_of(line):
    return line["bucket"], line["key"], line["upload"]


class Followed:
    """The tags of each key that a line changed, the completed uploads, and the MD5 of parts to which the store gave other tags."""

    def __init__(self):
        self.tags, self.completed, self.parts = {}, {}, {}

    def take_all(self, lines, path):
        """Takes the lines of a file, and gives the largest number of a request."""
        most = 0
        for at, line in lines:
            try:
                self.take(line)
                most = max(most, line.get("n", 0))
            except KeyError as why:
                raise Stop(f"line {at} of {path} lacks the member {why.args[0]}") from None
            except (TypeError, AttributeError):
                raise Stop(f"line {at} of {path} has a member of a wrong kind") from None
        return most

    def take(self, line):
        """Takes a line: an object that was there at first, a part, or a change."""
        operation = line.get("op")
        if operation == "Object":
            self.tags[line["bucket"], line["key"]] = line["etags"]
        elif operation == "UploadPart" and line["effect"] and line.get("reply_etag", line["etag"]) != line["etag"]:
            self.parts.setdefault(upload_of(line), {})[line["part"], line["reply_etag"]] = line["etag"]
        elif operation in CHANGES and line["effect"] is not False:
            self.change(line)

    def change(self, line):
        tags = self.left_by(line) if line["effect"] else UNKNOWN
        for key in keys_of(line):
            if tags:
                self.tags[key] = tags
            else:
                self.tags.pop(key, None)
        if "upload" in line:
            self.completed[upload_of(line)] = line["effect"]
        if "upload" in line and line["effect"]:
            self.parts.pop(upload_of(line), None)

    def left_by(self, line):
        """The tags that a change leaves at its keys. For a deletion there are none."""
        if line["op"] == "PutObject":
            return [line["etag"]]
        if line["op"] == "CompleteMultipartUpload":
            return [it["etag"] for it in line["parts"]]
        return self.tags.get((line["bucket"], line["source"]), UNKNOWN) if line["op"] == "CopyObject" else None

    def line_of(self, line):
        """The line, with what an audit needs to read it."""
        if line["op"] == "CompleteMultipartUpload" and line["effect"] is not False:
            return self.completion(line)
        if line["op"] == "CopyObject" and "source_bucket" in line and line["effect"] is not False:
            return self.copy(line)
        return line

    def completion(self, line):
        """A completion with the MD5 of each part. If an earlier one took effect, this one has no effect."""
        own = self.parts.get(upload_of(line), {})
        line = line | {"parts": [it | {"etag": own.get((it["part"], it["etag"]), it["etag"])} for it in line["parts"]]}
        earlier = self.completed.get(upload_of(line), False)
        if earlier:
            return line | {"effect": False, "why": "the upload was completed before"}
        is_same = self.tags.get((line["bucket"], line["key"])) is UNKNOWN
        if earlier is None and line["effect"] and not is_same:
            return line | {"effect": None, "why": "the upload may have been completed before, and the key changed since"}
        return line

    def copy(self, line):
        """A copy from another bucket, as a put or a completion that leaves the same tags."""
        tags = self.tags.get((line["source_bucket"], line["source"]), UNKNOWN)
        if tags is UNKNOWN:
            return line | {"op": "PutObject", "etag": line.get("reply_etag", ""), "effect": None,
                           "why": "its source is in another bucket, and was not seen to be written: write the etag of its bytes"}
        if len(tags) == 1:
            return line | {"op": "PutObject", "etag": tags[0]}
        return line | {"op": "CompleteMultipartUpload", "parts": [{"etag": it, "part": at} for at, it in enumerate(tags, 1)]}
