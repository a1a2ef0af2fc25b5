"""Directed cases: requests that a job seldom or never sends, written as in a trace. s3_model gives the model's reply to each."""
import dataclasses

from comparing import Session
from s3_model import Store, md5

BUCKET = "lake"


@dataclasses.dataclass
class Case:
    """A case: its name, its requests (a function of the least size of a part in bytes), and the largest such size for which it is tried."""
    name: str
    requests: object
    most: int = 1 << 30


def play_case(case, client, prefix, minimum):
    """Sends the requests of a case, and gives the session."""
    store = Store(minimum)
    store.do({"op": "CreateBucket", "bucket": BUCKET})
    session = Session(client, prefix, store)
    try:
        session.begin()
        for n, it in enumerate(case.requests(minimum), 1):
            session.request(f"request {n}", {"bucket": BUCKET, **it})
        session.end()
    finally:
        session.clean()
    return session


# ---- requests

def request(operation, **members):
    return {"op": operation, **members}


def put(key, body=b"hello", **more):
    return request("PutObject", key=key, body=body, **more)


def head(key, **more):
    return request("HeadObject", key=key, **more)


def get(key, **more):
    return request("GetObject", key=key, **more)


def delete(key):
    return request("DeleteObject", key=key)


def batch(*keys):
    return request("DeleteObjects", keys=list(keys))


def copy(source, key):
    return request("CopyObject", source=source, key=key)


def keys(prefix="", after="", most=1000, **more):
    return request("ListObjectsV2", prefix=prefix, after=after, max=most, **more)


def folded(prefix="", after="", most=1000):
    return keys(prefix, after, most, delimiter="/")


def create(key="k", **more):
    return request("CreateMultipartUpload", key=key, **more)


def part(number, body=b"hello", upload=1, key="k", **more):
    return request("UploadPart", key=key, upload=upload, part=number, body=body, **more)


def complete(*parts, upload=1, key="k", **more):
    """A completion. Its parts are given by number and bytes."""
    return request("CompleteMultipartUpload", key=key, upload=upload, parts=[{"part": n, "etag": md5(body)} for n, body in parts], **more)


def abort(upload=1, key="k", **more):
    return request("AbortMultipartUpload", key=key, upload=upload, **more)


def parts(upload=1, key="k", **more):
    return request("ListParts", key=key, upload=upload, **more)


def uploads(prefix="", most=1000, **behind):
    return request("ListMultipartUploads", prefix=prefix, max=most, **behind)


def bucket(name, as_is=True):
    return request("CreateBucket", bucket=name, **({"as_is": name} if as_is else {}))


ONE = (1, b"hello")
DONE = [create(), part(*ONE), complete(ONE)]


def two(m):
    """An upload with two parts. The first one has the least size."""
    return [create(), part(1, b"a" * m), part(2, b"b")]


def named(m):
    return (1, b"a" * m), (2, b"b")


# ---- listings

TREE = ("a", "a/", "a/b", "a/b/c", "a/b/d", "a/c", "a0", "b/x", "b/y/z", "caf\u00e9/1", "z")
PLACES = ("", "a", "a/", "a/a", "a/b", "a/b/", "a/b/c", "a/zz", "a0", "b", "b/", "b/x", "b/y/", "c", "zz")


def listings():
    """All listings of a small tree: with each prefix, start position, delimiter and size of a page."""
    many = [keys(prefix, after, most, **said) for prefix in ("", "a", "a/", "a/b", "b/", "none") for after in PLACES
            for most in (1, 2, 1000) for said in ({}, {"delimiter": "/"})]
    return [put(key, key.encode()) for key in TREE] + many


def many_uploads():
    """Uploads to three keys, two of them to one key, in another order than that of the keys."""
    return [create("m"), create("z"), create("a"), create("m")]


CASES = [
    Case("a completion", lambda m: [*DONE, head("k"), get("k"), keys()]),
    Case("a completion of two parts", lambda m: [*two(m), complete(*named(m)), head("k"), get("k")]),
    Case("live uploads", lambda m: [*many_uploads(), uploads()]),
    Case("live uploads by prefix", lambda m: [create("a/x"), create("b/x"), uploads("a/"), uploads("b"), uploads("c")]),
    Case("a bucket that is absent", lambda m: [it | {"bucket": "gone"} for it in (put("k"), get("k"), delete("k"), keys(), create(), uploads(),
                                                                               batch("k"), copy("k", "l"))]),
    Case("HEAD in a bucket that is absent", lambda m: [head("k", bucket="gone")]),
    Case("pages of uploads", lambda m: [create("a"), create("b"), create("c"), uploads(most=1), uploads(most=1, after="a", after_upload=1),
                                        uploads(most=2, after="b", after_upload=2)]),
    Case("pages of uploads of one key", lambda m: [create("a"), create("a"), create("a"), uploads(most=1, after="a", after_upload=1)]),
    Case("the same completion again", lambda m: [*DONE, complete(ONE)]),
    Case("the same completion, object overwritten since", lambda m: [*DONE, put("k", b"new"), complete(ONE)]),
    Case("the same completion, object deleted since", lambda m: [*DONE, delete("k"), complete(ONE)]),
    Case("completion of an aborted upload", lambda m: [create(), part(*ONE), abort(), complete(ONE)]),
    Case("completion of an unknown upload", lambda m: [complete(ONE, upload=77)]),
    Case("ListParts of a completed upload", lambda m: [*DONE, parts()]),
    Case("ListParts of an aborted upload", lambda m: [create(), part(*ONE), abort(), parts()]),
    Case("UploadPart to a completed upload", lambda m: [*DONE, part(2)]),
    Case("UploadPart to an aborted upload", lambda m: [create(), abort(), part(*ONE)]),
    Case("parts 2, 1", lambda m: [*two(m), complete(*named(m)[::-1])]),
    Case("parts 2, 1, both large enough", lambda m: [create(), part(1, b"a" * m), part(2, b"b" * m), complete((2, b"b" * m), (1, b"a" * m))]),
    Case("part 1 twice", lambda m: [*two(m), complete(named(m)[0], named(m)[0])]),
    Case("an absent part 4, then 1", lambda m: [*two(m), complete((4, b"x"), named(m)[0])]),
    Case("completion of some of the parts", lambda m: [*two(m), complete(named(m)[1]), get("k")]),
    Case("no parts, unknown upload", lambda m: [complete(upload=77)]),
    Case("no parts, live upload", lambda m: [create(), part(*ONE), complete()]),
    Case("part 0", lambda m: [create(), part(0)]),
    Case("part 10001", lambda m: [create(), part(10001)]),
    Case("part 100000", lambda m: [create(), part(100000)]),
    Case("part 10000", lambda m: [create(), part(10000), complete((10000, b"hello")), get("k")]),
    Case("completion that names part 0", lambda m: [create(), part(*ONE), complete((0, b"hello"))]),
    Case("an upload's id with another key: a part", lambda m: [create(), part(1, key="l")]),
    Case("an upload's id with another key: a completion", lambda m: [create(), part(*ONE), complete(ONE, key="l")]),
    Case("an upload's id with another key: an abort", lambda m: [create(), part(*ONE), abort(key="l")]),
    Case("an upload's id with another key: its parts", lambda m: [create(), part(*ONE), parts(key="l")]),
    Case("a batch of 1001 keys", lambda m: [put("k0"), put("k1"), batch(*(f"k{n}" for n in range(1001)))]),
    Case("a batch of 1000 keys", lambda m: [put("k0"), put("k1"), batch(*(f"k{n}" for n in range(1000)))]),
    Case("a batch with a key twice", lambda m: [put("k"), batch("k", "k")]),
    Case("a batch of no keys", lambda m: [put("k"), batch()]),
    Case("a page of 0 keys", lambda m: [put("k"), keys(most=0)]),
    Case("a page of 2000 over 1001 keys", lambda m: [*(put(f"k{n}", b"") for n in range(1001)), keys(most=2000)]),
    Case("a copy onto itself", lambda m: [put("k"), copy("k", "k"), get("k")]),
    Case("one's own bucket again", lambda m: [bucket(BUCKET, False)]),
    *(Case(f"a bucket named {name}", lambda m, name=name: [bucket(name)]) for name in ("la..ke", "192.168.0.1", "Lake", "lake-", "-lake", "la", "la_ke")),
    *(Case(f"a key with {name}", lambda m, key=f"a{odd}b": [put(key), get(key), keys(), create(key), uploads(), abort(key=key), batch(key)])
      for name, odd in (("U+FFFF", "\uffff"), ("0x01", "\x01"), ("LF", "\n"))),
    Case("a missing part", lambda m: [*two(m), complete(named(m)[0], (3, b"b"))]),
    Case("a wrong tag", lambda m: [*two(m), complete(named(m)[0], (2, b"c"))]),
    Case("a part that is too small", lambda m: [create(), part(1, b"a" * (m - 1)), part(2), complete((1, b"a" * (m - 1)), (2, b"hello"))]),
    Case("an abort twice", lambda m: [create(), part(*ONE), abort(), abort()]),
    Case("an abort of an unknown upload", lambda m: [abort(upload=77)]),
    Case("an abort of a completed upload", lambda m: [*DONE, abort()]),
    Case("absent keys", lambda m: [head("k"), get("k"), delete("k"), copy("k", "l"), batch("k", "l")]),
    Case("listings", lambda m: listings()),
    Case("a part of no bytes", lambda m: [create(), part(1, b""), complete((1, b"")), get("k")]),
    Case("a part sent again", lambda m: [create(), part(1, b"old"), part(1, b"new"), parts(), complete((1, b"new")), get("k")]),
    Case("a length header", lambda m: [put("k", b"", magic_length=5), head("k"), copy("k", "l"), head("l"), put("k"), head("k")]),
    Case("no length header after a completion", lambda m: [put("k", b"", magic_length=5), *DONE, head("k")]),
    Case("1001 parts", lambda m: [create(), *(part(n, b"%04d" % n) for n in range(1, 1002)), parts(),
                                  complete(*((n, b"%04d" % n) for n in range(1, 1002))), get("k")], 4),
    Case("odd keys", lambda m: [it for key in ("a b", "a+b", "a%20b", "caf\u00e9", "a?b=c", "a#b", "a&b;c", "a'b\"c", "tab\\x", "<x>", "\U0001f600", "k" * 1024)
                                for it in (put(key, key.encode()), get(key), copy(key, "copy"), get("copy"))] + [keys(), batch("a b", "a+b", "a&b;c"), keys()]),
]
