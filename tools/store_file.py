"""Reads a store from its file (docs/FORMATS.md has the format): the image at the beginning of the log, and the changes after it."""
from job_runs import Stop
from s3_model import Object, Store, Upload

LOG = b"S3ALOG01"
IMAGE = b"S3AIMG01"


class Reader:
    """Reads fields of bytes from left to right. Numbers are big-endian."""

    def __init__(self, data):
        self.data, self.at = data, 0

    def take(self, length):
        if self.at + length > len(self.data):
            raise Stop(f"the store's file ends within the field at byte {self.at}")
        self.at += length
        return self.data[self.at - length:self.at]

    def number(self, length=8):
        return int.from_bytes(self.take(length), "big")

    def text(self, length=8):
        return self.take(self.number(length)).decode()

    def header(self):
        """A length header. The file has the length plus 1, or 0 if there is no header."""
        written = self.number()
        return written - 1 if written else None

    def is_open(self):
        """Whether the gate is open, which means that a record follows."""
        return self.take(1) == b"\x01"


def read_upload(reader, bucket):
    id, key = reader.number(), reader.text(2)
    parts = {}
    for _ in range(reader.number(2)):
        number = reader.number(2)
        parts[number] = reader.take(reader.number())
    bucket.uploads[id] = Upload(key, parts)


def read_image(data):
    """The store in an image."""
    reader = Reader(data)
    if reader.take(8) != IMAGE:
        raise Stop("the store's file does not begin as one")
    store = Store(reader.number())
    store.next = reader.number()
    for _ in range(reader.number()):
        name = reader.text(2)
        store.do({"op": "CreateBucket", "bucket": name})
        for _ in range(reader.number()):
            key, header = reader.text(2), reader.header()
            store.buckets[name].objects[key] = Object(reader.take(reader.number()), header)
        for _ in range(reader.number()):
            read_upload(reader, store.buckets[name])
    return store


def tags(reader):
    """The parts that a completion names. A part's own tag has the count 0."""
    found = [(reader.number(4), reader.take(32).decode(), reader.number(4)) for _ in range(reader.number(4))]
    return [{"part": number, "etag": tag} for number, tag, _ in found]


# For each kind of record: the operation, and its fields after the bucket.
RECORDS = {
    1: ("CreateBucket", {}),
    2: ("PutObject", {"key": Reader.text, "magic_length": Reader.header, "body": lambda it: it.take(it.number())}),
    3: ("DeleteObject", {"key": Reader.text}),
    4: ("DeleteObjects", {"keys": lambda it: [it.text() for _ in range(it.number(4))]}),
    5: ("CopyObject", {"source": Reader.text, "key": Reader.text}),
    6: ("CreateMultipartUpload", {"key": Reader.text}),
    7: ("UploadPart", {"key": Reader.text, "upload": Reader.number, "part": lambda it: it.number(4), "body": lambda it: it.take(it.number())}),
    8: ("CompleteMultipartUpload", {"key": Reader.text, "upload": Reader.number, "parts": tags}),
    9: ("AbortMultipartUpload", {"key": Reader.text, "upload": Reader.number}),
}


def read_record(body):
    """The request in a record of the log."""
    reader = Reader(body)
    operation, fields = RECORDS[reader.number(1)]
    return {"op": operation, "bucket": reader.text(), **{name: read(reader) for name, read in fields.items()}}


def read_store(data):
    """The store at the beginning of a file, and the changes after it."""
    reader = Reader(data)
    if not data.startswith(LOG):
        return read_image(data), []
    reader.take(8)
    store, changes = read_image(reader.take(reader.number())), []
    while reader.is_open():
        changes.append(read_record(reader.take(reader.number())))
    return store, changes
