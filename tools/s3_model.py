"""The model of S3 that the program runs over, read from crates/s3_types/specs (in words: docs/WHY.md): what each request is answered, and what it leaves.

A request is a line of a trace, as a dictionary; `body` has the bytes of a put or a part. A reply is a dictionary too. It has only `error` if the
request is refused, and otherwise the content of S3's reply.
"""
import dataclasses
import hashlib

MINIMUM = 5242880  # bytes: the least size of a part that is not the last, in a store made by `init`
MOST_KEYS = 1000
MOST_PARTS = 10000


class Refused(Exception):
    """The S3 error code of a refusal."""


@dataclasses.dataclass
class Object:
    """An object's bytes, and its length header or None."""
    data: bytes
    header: int = None


@dataclasses.dataclass
class Upload:
    """A multipart upload: its key, and the bytes of its parts by number."""
    key: str
    parts: dict


class Bucket:
    """A bucket's objects by key, and its uploads by id."""

    def __init__(self):
        self.objects, self.uploads = {}, {}

    def live(self, it):
        """The upload that a request names. An id counts only with its own key."""
        found = self.uploads.get(it["upload"])
        if found is None or found.key != it["key"]:
            raise Refused("NoSuchUpload")
        return found

    def found(self, key):
        if key not in self.objects:
            raise Refused("NoSuchKey")
        return self.objects[key]


def md5(data):
    return hashlib.md5(data).hexdigest()


def is_bucket(name):
    """Whether a text is a bucket's name by the model's rules, which are only some of S3's."""
    fits = 3 <= len(name) <= 63 and all(it.isascii() and (it.islower() or it.isdigit() or it in ".-") for it in name)
    return fits and name[0] not in ".-" and name[-1] not in ".-"


def entry_of(it, key, length):
    """The entry of a key in a listing: the key with its length, or, with a delimiter, its common prefix."""
    head, slash, _ = key[len(it["prefix"]):].partition("/")
    return (it["prefix"] + head + slash,) if "delimiter" in it and slash else (key, length)


def page(them, limit, entries="entries"):
    return {entries: them[:limit], "more": len(them) > limit}


class Store:
    """Buckets, the next upload's id, and the least size of a part that is not the last."""

    def __init__(self, minimum=MINIMUM):
        self.minimum, self.next, self.buckets = minimum, 1, {}

    def do(self, it):
        """Does a request, and gives its reply. A refused request changes nothing."""
        try:
            if it["op"] == "CreateBucket":
                return self.create_bucket(it["bucket"])
            if it["bucket"] not in self.buckets:
                raise Refused("NoSuchBucket")
            return getattr(self, it["op"])(self.buckets[it["bucket"]], it) or {}
        except Refused as code:
            return {"error": str(code)}

    def create_bucket(self, name):
        if not is_bucket(name):
            raise Refused("InvalidBucketName")
        if name in self.buckets:
            raise Refused("BucketAlreadyExists")
        self.buckets[name] = Bucket()
        return {}

    def PutObject(self, bucket, it):
        bucket.objects[it["key"]] = Object(it["body"], it.get("magic_length"))
        return {"etag": md5(it["body"])}

    def GetObject(self, bucket, it):
        found = bucket.found(it["key"])
        return {"bytes": md5(found.data), "length": len(found.data), "magic_length": found.header}

    def HeadObject(self, bucket, it):
        found = bucket.found(it["key"])
        return {"length": len(found.data), "magic_length": found.header}

    def DeleteObject(self, bucket, it):
        bucket.objects.pop(it["key"], None)

    def DeleteObjects(self, bucket, it):
        if len(it["keys"]) > MOST_KEYS:
            raise Refused("MalformedXML")
        for key in it["keys"]:
            bucket.objects.pop(key, None)
        return {"deleted": sorted({*it["keys"]})}

    def CopyObject(self, bucket, it):
        bucket.objects[it["key"]] = bucket.found(it["source"])

    def ListObjectsV2(self, bucket, it):
        below = {entry_of(it, key, len(found.data)) for key, found in bucket.objects.items() if key.startswith(it["prefix"])}
        behind = [one for one in below if one[0].encode() > it["after"].encode()]
        return page(sorted(behind, key=lambda one: one[0].encode()), it["max"])

    def CreateMultipartUpload(self, bucket, it):
        bucket.uploads[self.next] = Upload(it["key"], {})
        self.next += 1
        return {"upload": self.next - 1}

    def UploadPart(self, bucket, it):
        upload = bucket.live(it)
        if not 1 <= it["part"] <= MOST_PARTS:
            raise Refused("InvalidArgument")
        upload.parts[it["part"]] = it["body"]
        return {"etag": md5(it["body"])}

    def CompleteMultipartUpload(self, bucket, it):
        sent, numbers = bucket.live(it).parts, [one["part"] for one in it["parts"]]
        if not numbers:
            raise Refused("MalformedXML")
        if numbers != sorted({*numbers}):
            raise Refused("InvalidPartOrder")
        if any(one["part"] not in sent or md5(sent[one["part"]]) != one["etag"] for one in it["parts"]):
            raise Refused("InvalidPart")
        if any(len(sent[one]) < self.minimum for one in numbers[:-1]):
            raise Refused("EntityTooSmall")
        bucket.objects[it["key"]] = Object(b"".join(sent[one] for one in numbers))
        del bucket.uploads[it["upload"]]
        digests = b"".join(bytes.fromhex(one["etag"]) for one in it["parts"])
        return {"etag": f"{md5(digests)}-{len(numbers)}"}

    def AbortMultipartUpload(self, bucket, it):
        bucket.live(it)
        del bucket.uploads[it["upload"]]

    def ListParts(self, bucket, it):
        return {"entries": [(number, len(data), md5(data)) for number, data in sorted(bucket.live(it).parts.items())]}

    def ListMultipartUploads(self, bucket, it):
        behind = (it["after"].encode(), it["after_upload"]) if "after" in it else (b"", 0)
        found = sorted((upload.key.encode(), id) for id, upload in bucket.uploads.items() if upload.key.startswith(it["prefix"]))
        return page([(key.decode(), id) for key, id in found if (key, id) > behind], it["max"])
