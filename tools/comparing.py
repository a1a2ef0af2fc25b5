"""Sends requests to a server, and compares its replies and its objects at the end with those of the model."""
import dataclasses

from job_runs import Stop
from s3_model import Store

FIELDS = {"etag": "tag", "bytes": "content", "length": "length", "magic_length": "length header", "deleted": "list of keys"}
MORE = {True: "more follow", False: "no more follow"}
BATCH = 1000


@dataclasses.dataclass
class Difference:
    """A difference: the request, its place in the run, and what the model and the server say."""
    where: str
    operation: str
    model: str
    server: str
    detail: str = ""

    def kind(self):
        return self.operation, self.model, self.server

    def __str__(self):
        detail = f" ({self.detail})" if self.detail else ""
        return f"{self.where} {self.operation}: the model says {self.model}, the server {self.server}{detail}"


def short(value):
    text = str(value)
    return text if len(text) <= 160 else f"{text[:157]}..."


def listing(model, server):
    """How two lists of entries differ, or None."""
    if model == server:
        return None
    if sorted(map(str, model)) == sorted(map(str, server)):
        return "entries", "another order", f"{short(model)} and {short(server)}"
    more, less = [it for it in server if it not in model], [it for it in model if it not in server]
    return "entries", "other entries", f"the server alone has {short(more)}, the model alone {short(less)}"


def agrees(operation, model, server):
    """Whether two error codes mean the same. The reply to a HEAD request has no body, so the only code is the status."""
    return model == server or operation == "HeadObject" and model == "NoSuchKey" and server == "404"


def compared(operation, model, server):
    """How two replies differ: what the model says, what the server says, and a detail of each difference."""
    if "error" in model or "error" in server:
        codes = [it.get("error", "success") for it in (model, server)]
        if not agrees(operation, *codes):
            yield *codes, ""
        return
    for name, what in FIELDS.items():
        if model.get(name) != server.get(name):
            is_none = server.get(name) in (None, "")
            yield f"a {what}", f"no {what}" if is_none else f"another {what}", f"{short(model.get(name))} and {short(server.get(name))}"
    if model.get("more") != server.get("more"):
        yield MORE[model["more"]], MORE[server["more"]], ""
    found = listing(model.get("entries", []), server.get("entries", []))
    if found:
        yield found


class Session:
    """A run on a server, and the model's run over the store `store`.

    Its buckets have other names on the server, `PREFIX-NAME`, and its uploads other ids. `sent` counts the requests of the run, `compared` the
    replies that were compared, and `stands` the objects and uploads that were compared at the end.
    """

    def __init__(self, client, prefix, store=None):
        self.client, self.prefix, self.store = client, prefix, store or Store()
        self.uploads, self.found, self.names, self.odd = {}, [], set(), set()
        self.sent = self.compared = self.stands = 0

    def name(self, bucket):
        return f"{self.prefix}-{bucket}"

    def send(self, it):
        """Sends a request, and gives the server's reply, with the model's ids of uploads if they are known."""
        if it["op"] == "CreateBucket" and "as_is" not in it:
            self.names.add(it["bucket"])
        ids = {name: self.uploads.get(it[name], "none") for name in ("upload", "after_upload") if name in it}
        reply = self.client.send({**it, "bucket": it.get("as_is") or self.name(it["bucket"]), **ids})
        if it["op"] == "ListMultipartUploads" and "entries" in reply:
            known = {theirs: own for own, theirs in self.uploads.items()}
            reply["entries"] = [(key, known.get(theirs, "an unknown upload")) for key, theirs in reply["entries"]]
        return reply

    def begin(self):
        """Makes the objects and uploads of the model's store on the server."""
        for bucket, content in self.store.buckets.items():
            self.make({"op": "CreateBucket", "bucket": bucket})
            for key, it in content.objects.items():
                self.make({"op": "PutObject", "bucket": bucket, "key": key, "body": it.data, "magic_length": it.header})
            for id, upload in sorted(content.uploads.items()):
                named = {"bucket": bucket, "key": upload.key}
                self.uploads[id] = self.make({"op": "CreateMultipartUpload", **named}).get("upload")
                for number, data in upload.parts.items():
                    self.make({"op": "UploadPart", **named, "upload": id, "part": number, "body": data})

    def make(self, it):
        """The server's reply to a request before the run. Without its effect no reply of the run could be compared."""
        reply = self.send(it)
        if "error" in reply:
            raise Stop(f"the server refuses {it['op']}, before the first request of the run: {reply['error']}")
        return reply

    def request(self, where, it, is_lost=False):
        """Sends a request, and compares its reply unless that is lost. Gives the model's reply."""
        model, server = self.store.do(it), self.send(it)
        self.sent += 1
        if "as_is" in it and "error" not in server:
            self.odd.add(it["as_is"])
        if "upload" in model and "upload" in server:
            self.uploads[model["upload"]] = server["upload"]
        if not is_lost:
            self.compared += 1
            self.found += [Difference(where, it["op"], *one) for one in compared(it["op"], model, server)]
        return model

    def pages(self, operation, bucket, **said):
        """All entries of a listing of the server's, page by page."""
        found, behind = [], {"after": ""} if operation == "ListObjectsV2" else {}
        while behind is not None:
            reply = self.send({"op": operation, "bucket": bucket, "prefix": "", "max": BATCH, **behind, **said})
            # (a server that does not go on from a place gives the same page again)
            entries = [it for it in reply.get("entries", []) if it not in found]
            found += entries
            behind = None
            if reply.get("more") and entries:
                behind = {"after": entries[-1][0]} | ({} if operation == "ListObjectsV2" else {"after_upload": entries[-1][1]})
        return found

    def differ(self, what, model, server, detail=""):
        self.found.append(Difference("at the end,", what, model, server, repr(detail)))

    def end(self):
        """Compares each object's bytes and length header, and each upload's parts."""
        for bucket, content in self.store.buckets.items():
            listed = [key for key, _ in self.pages("ListObjectsV2", bucket)]
            self.missing("object", sorted(content.objects, key=str.encode), listed)
            for key in filter(content.objects.__contains__, listed):
                self.same("object", {"op": "GetObject", "bucket": bucket, "key": key})
            uploads = [(it.key, id) for id, it in content.uploads.items()]
            left = self.pages("ListMultipartUploads", bucket)
            self.missing("upload", uploads, left)
            for key, id in filter(uploads.__contains__, left):
                self.same("upload", {"op": "ListParts", "bucket": bucket, "key": key, "upload": id})

    def missing(self, what, model, server):
        for it in model:
            if it not in server:
                self.differ(f"an {what}", "is there", "is absent", it)
        for it in server:
            if it not in model:
                self.differ(f"an {what}", "is absent", "is there", it)

    def same(self, what, it):
        self.stands += 1
        for one in compared(it["op"], self.store.do(it), self.send(it)):
            self.found.append(Difference(f"at the end, {it['key']},", f"an {what}", *one))

    def clean(self):
        """Deletes everything that the run left on the server. A bucket whose name it did not choose is deleted only if it is empty."""
        for bucket in self.names:
            for it in self.pages("ListObjectsV2", bucket):
                self.send({"op": "DeleteObject", "bucket": bucket, "key": it[0]})
            self.abort_all(self.name(bucket))
            self.send({"op": "DeleteBucket", "bucket": bucket})
        for name in self.odd:
            self.client.send({"op": "DeleteBucket", "bucket": name})

    def abort_all(self, name):
        """Aborts the uploads of a bucket, by the server's own ids. It stops when a listing does not get shorter."""
        before, left = None, []
        while before is None or left and left != before:
            before = left
            left = self.client.send({"op": "ListMultipartUploads", "bucket": name, "prefix": "", "max": BATCH}).get("entries", [])
            for key, id in left:
                self.client.send({"op": "AbortMultipartUpload", "bucket": name, "key": key, "upload": id})
