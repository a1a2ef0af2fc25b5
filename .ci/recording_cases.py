"""Cases of tools/record: requests and replies as the Amazon S3 API reference writes them, and the lines that must be recorded."""
import asyncio
import json
import os
import socket
import sys

import exchanges
from exchanges import Reply, Request
from followed import Followed
from recorder import Recorder

NAMES = ["*", "localhost", "s3.example.com"]
HELLO, NOTHING = "5d41402abc4b2a76b9719d911017c592", "d41d8cd98f00b204e9800998ecf8427e"
A, B, C = (it * 32 for it in "abc")
CHUNKED = {"content-encoding": "aws-chunked", "x-amz-decoded-content-length": "5"}
SIGNED = b"3;chunk-signature=ad80\r\nhel\r\n2;chunk-signature=0055\r\nlo\r\n0;chunk-signature=b6c6\r\n\r\n"
TRAILER = b"5\r\nhello\r\n0\r\nx-amz-checksum-crc32:NhCmhg==\r\n\r\n"
SPACE = 'xmlns="http://s3.amazonaws.com/doc/2006-03-01/"'
OK, GONE = Reply(200, {}), Reply(204, {})


def error(status, code):
    return Reply(status, {}, f'<?xml version="1.0"?>\n<Error><Code>{code}</Code><Message>m</Message></Error>'.encode())


def batch(keys, more=""):
    return f"<Delete {SPACE}>{''.join(f'<Object><Key>{it}</Key>{more}</Object>' for it in keys)}<Quiet>true</Quiet></Delete>".encode()


def failed(*pairs):
    rows = "".join(f"<Error><Key>{key}</Key><Code>{code}</Code></Error>" for key, code in pairs)
    return Reply(200, {}, f"<DeleteResult {SPACE}><Deleted><Key>a</Key></Deleted>{rows}</DeleteResult>".encode())


def completion(*tags):
    rows = "".join(f"<Part><PartNumber>{at}</PartNumber><ETag>&quot;{it}&quot;</ETag></Part>" for at, it in enumerate(tags, 1))
    return f"<CompleteMultipartUpload {SPACE}>{rows}</CompleteMultipartUpload>".encode()


def copied(result, tag):
    return Reply(200, {}, f'<{result} {SPACE}><ETag>"{tag}"</ETag></{result}>'.encode())


def source(text, **more):
    return {"x-amz-copy-source": text, **{f"x-amz-copy-source-{name}": it for name, it in more.items()}}


PUT = {"op": "PutObject", "bucket": "lake", "key": "k", "etag": HELLO, "length": 5, "outcome": "answered", "effect": True}
COPY = {"op": "CopyObject", "bucket": "lake", "source": "s", "key": "k", "outcome": "answered", "effect": True, "reply_etag": A}
PLACE = {"bucket": "lake", "key": "k", "outcome": "answered", "effect": True}
DELETED = {"op": "DeleteObjects", "bucket": "lake", "keys": ["a", "b"], "outcome": "answered", "effect": True}
JOINED = {"op": "CompleteMultipartUpload", **PLACE, "upload": "u", "parts": [{"etag": A, "part": 1}, {"etag": B, "part": 2}]}
PART = {"op": "UploadPart", **PLACE, "upload": "u", "part": 2, "etag": HELLO, "length": 5}
UNSURE = "the reply has an error for these keys that does not say what became of them"
# Each case: its name, the request line, headers, body, the reply (None if there was none), and the lines.
MAPPED = [
    ("a put", "PUT /lake/k", {}, b"hello", Reply(200, {"etag": f'"{HELLO}"'}), [PUT]),
    ("a put that the store encrypts", "PUT /lake/k", {}, b"hello", Reply(200, {"etag": f'"{A}"'}), [PUT | {"reply_etag": A}]),
    ("a key in percents", "PUT /lake/a%2Bb+c%20d/%C3%A9//", {}, b"", OK, [PUT | {"key": "a+b+c d/é//", "etag": NOTHING, "length": 0}]),
    ("a bucket in the host's name", "PUT /k", {"host": "la.ke.s3.example.com:443"}, b"hello", OK, [PUT | {"bucket": "la.ke"}]),
    ("the endpoint's own name", "PUT /lake/k", {"host": "S3.example.com"}, b"hello", OK, [PUT]),
    ("an address", "PUT /lake/k", {"host": "[::1]:9000"}, b"hello", OK, [PUT]),
    ("a signed address", "PUT /lake/k?X-Amz-Algorithm=a&X-Amz-Signature=b&x-id=PutObject", {}, b"hello", OK, [PUT]),
    ("signed chunks", "PUT /lake/k", CHUNKED, SIGNED, OK, [PUT]),
    ("chunks with a trailer", "PUT /lake/k", {"x-amz-content-sha256": "STREAMING-UNSIGNED-PAYLOAD-TRAILER"}, TRAILER, OK, [PUT]),
    ("chunks that end early", "PUT /lake/k", CHUNKED, SIGNED[:30], OK,
     [PUT | {"etag": NOTHING, "length": 0, "effect": None, "why": "its chunks are broken"}]),
    ("chunks that run together", "PUT /lake/k", CHUNKED, b"3\r\nhel--2\r\nlo\r\n0\r\n\r\n", OK,
     [PUT | {"etag": NOTHING, "length": 0, "effect": None, "why": "its chunks are broken"}]),
    ("chunks of another length", "PUT /lake/k", CHUNKED | {"x-amz-decoded-content-length": "6"}, SIGNED, OK,
     [PUT | {"etag": NOTHING, "length": 0, "effect": None, "why": "its chunks are broken"}]),
    ("a length header", "PUT /lake/k", {"x-amz-meta-x-hadoop-s3a-magic-data-length": "7"}, b"hello", OK, [PUT | {"magic_length": 7}]),
    ("a put on a condition", "PUT /lake/k", {"if-none-match": "*"}, b"hello", error(412, "PreconditionFailed"),
     [PUT | {"effect": False, "error": "PreconditionFailed"}]),
    ("a redirection", "PUT /lake/k", {}, b"hello", error(307, "TemporaryRedirect"), [PUT | {"effect": False, "error": "TemporaryRedirect"}]),
    ("slow down", "PUT /lake/k", {}, b"hello", error(503, "SlowDown"), [PUT | {"effect": False, "error": "SlowDown", "outcome": "slow"}]),
    ("an inner error", "PUT /lake/k", {}, b"hello", error(500, "InternalError"),
     [PUT | {"effect": None, "error": "InternalError", "why": "the reply is InternalError"}]),
    ("a bad gateway", "PUT /lake/k", {}, b"hello", Reply(502, {}, b"<html>"), [PUT | {"effect": None, "error": "502", "why": "the reply is 502"}]),
    ("not implemented", "PUT /lake/k", {}, b"hello", error(501, "NotImplemented"), [PUT | {"effect": False, "error": "NotImplemented"}]),
    ("no reply", "PUT /lake/k", {}, b"hello", None, [PUT | {"effect": None, "outcome": "lost", "why": "gone"}]),
    ("an unknown argument", "PUT /lake/k?renameObject", {}, b"hello", OK, [PUT | {"effect": None, "why": "the argument renameObject is not known"}]),
    ("an unknown argument, refused", "PUT /lake/k?renameObject", {}, b"hello", error(400, "InvalidRequest"),
     [PUT | {"effect": False, "error": "InvalidRequest"}]),
    *((f"{method} {sub}, which is none", f"{method} /lake/k?{sub}", {}, b"hello", OK,
       [(PUT if method == "PUT" else {"op": "DeleteObject", **PLACE}) | {"effect": None, "why": f"the argument {sub} is not known"}])
      for method, sub in (("PUT", "torrent"), ("PUT", "website"), ("PUT", "append"), ("DELETE", "acl"))),
    ("a part without its upload", "PUT /lake/k?partNumber=2", {}, b"hello", OK,
     [PUT | {"part": 2, "effect": None, "why": "the argument partNumber is not known"}]),
    ("a put of a version", "PUT /lake/k?versionId=v", {}, b"hello", OK, [PUT | {"version": "v", "effect": None, "why": "it names a version"}]),
    ("an append", "PUT /lake/k", {"x-amz-write-offset-bytes": "9"}, b"hello", OK, [PUT | {"effect": None, "why": "it appends to an object"}]),
    ("a form", "POST /lake", {"content-type": "multipart/form-data; boundary=b"}, b"hello", GONE,
     [PUT | {"key": "", "effect": None, "why": "it is an HTML form: write its key and the etag of its bytes"}]),
    *((f"{method} {sub}", f"{method} /lake/k?{sub}", {}, b"hello", OK, [{"op": "Other", **PLACE, "what": f"{method} {sub}"}])
      for method, sub in (("PUT", "acl"), ("PUT", "tagging"), ("DELETE", "tagging"), ("POST", "restore"), ("PUT", "retention"), ("GET", "attributes"))),
    ("versioning", "PUT /lake?versioning", {}, b"x", OK, [{"op": "Other", "bucket": "lake", "what": "PUT versioning", "effect": True, "outcome": "answered"}]),
    ("a copy", "PUT /lake/k", source("/lake/s"), b"", copied("CopyObjectResult", A), [COPY]),
    ("a source in percents", "PUT /lake/k", source("lake%2Fa%3FversionId%3D1%20b"), b"", copied("CopyObjectResult", A), [COPY | {"source": "a?versionId=1 b"}]),
    ("a source with a question mark", "PUT /lake/k", source("lake/a?b"), b"", copied("CopyObjectResult", A), [COPY | {"source": "a?b"}]),
    ("a copy from another bucket", "PUT /lake/k", source("other/s"), b"", copied("CopyObjectResult", A), [COPY | {"source_bucket": "other"}]),
    ("a copy of a version", "PUT /lake/k", source("lake/s?versionId=v"), b"", copied("CopyObjectResult", A),
     [COPY | {"effect": None, "why": "its source is a version"}]),
    ("a copy that fails late", "PUT /lake/k", source("lake/s"), b"", error(200, "InternalError"),
     [{it: COPY[it] for it in COPY if it != "reply_etag"} | {"effect": None, "error": "InternalError", "why": "the reply is InternalError"}]),
    ("a copy without a source", "PUT /lake/k", source("lake/s"), b"", error(404, "NoSuchKey"),
     [{it: COPY[it] for it in COPY if it != "reply_etag"} | {"effect": False, "error": "NoSuchKey"}]),
    ("a part", "PUT /lake/k?partNumber=2&uploadId=u", CHUNKED, SIGNED, OK, [PART]),
    ("a part that is a copy", "PUT /lake/k?partNumber=2&uploadId=u", source("/other/s", range="bytes=0-4"), b"", copied("CopyPartResult", A),
     [{"op": "UploadPartCopy", **PLACE, "upload": "u", "part": 2, "source": "s", "source_bucket": "other", "range": "bytes=0-4", "reply_etag": A}]),
    ("an upload", "POST /lake/k?uploads", {}, b"", Reply(200, {}, f"<R {SPACE}><Bucket>lake</Bucket><UploadId>u</UploadId></R>".encode()),
     [{"op": "CreateMultipartUpload", **PLACE, "upload": "u"}]),
    ("a completion", "POST /lake/k?uploadId=u", {}, completion(A, B), copied("CompleteMultipartUploadResult", f"{C}-2"), [JOINED]),
    ("a completion that fails late", "POST /lake/k?uploadId=u", {}, completion(A, B), Reply(200, {}, b" \n " + error(200, "InvalidPart").body),
     [JOINED | {"effect": False, "error": "InvalidPart"}]),
    ("a completion without parts", "POST /lake/k?uploadId=u", {}, completion(), error(400, "MalformedXML"),
     [{"op": "Other", **PLACE, "upload": "u", "what": "a completion without parts", "effect": False, "error": "MalformedXML"}]),
    ("an abort", "DELETE /lake/k?uploadId=u", {}, b"", GONE, [{"op": "AbortMultipartUpload", **PLACE, "upload": "u"}]),
    ("a deletion", "DELETE /lake/k?x-id=DeleteObject", {}, b"", GONE, [{"op": "DeleteObject", **PLACE}]),
    ("a deletion of a version", "DELETE /lake/k?versionId=v", {}, b"", GONE,
     [{"op": "DeleteObject", **PLACE, "version": "v", "effect": None, "why": "it names a version"}]),
    ("a batch", "POST /lake?delete", {}, batch(["a", "b"]), failed(), [DELETED]),
    ("a batch, deleted in part", "POST /lake/?delete=", {}, batch(["a", "b"]), failed(("b", "AccessDenied")), [DELETED | {"keys": ["a"], "failed": ["b"]}]),
    ("a batch, in doubt in part", "POST /lake?delete", {}, batch(["a", "b"]), failed(("b", "InternalError")),
     [DELETED | {"keys": ["a"]}, DELETED | {"keys": ["b"], "effect": None, "why": UNSURE}]),
    ("a batch, in doubt and refused", "POST /lake?delete", {}, batch(["a", "b", "c"]), failed(("b", "InternalError"), ("c", "AccessDenied")),
     [DELETED | {"keys": ["a"], "failed": ["c"]}, DELETED | {"keys": ["b"], "effect": None, "why": UNSURE}]),
    ("a batch with a key twice, one in error", "POST /lake?delete", {}, batch(["a", "b", "b"]), failed(("b", "AccessDenied")),
     [DELETED | {"keys": ["a"]}, DELETED | {"keys": ["b"], "effect": None, "why": UNSURE}]),
    ("a batch of versions", "POST /lake?delete", {}, batch(["a", "b"], "<VersionId>v</VersionId>"), failed(),
     [DELETED | {"effect": None, "why": "it names a version"}]),
    ("a batch that cannot be read", "POST /lake?delete", {}, b"<Delete>", OK, [DELETED | {"keys": [], "effect": None, "why": "its keys cannot be read"}]),
    ("a bucket", "PUT /lake", {}, b"", OK, [{"op": "CreateBucket", "bucket": "lake", "effect": True, "outcome": "answered"}]),
    ("all buckets", "GET /", {}, b"", OK, [{"op": "ListBuckets", "effect": True, "outcome": "answered"}]),
    ("an absent key", "HEAD /lake/k", {}, b"", Reply(404, {}), [{"op": "HeadObject", **PLACE, "effect": False, "error": "404"}]),
    ("a read of an error's text", "GET /lake/k", {}, b"", error(200, "NoSuchKey"), [{"op": "GetObject", **PLACE}]),
    ("a listing", "GET /lake?list-type=2&prefix=p%2F&delimiter=%2F&max-keys=3&start-after=p%2Fa", {}, b"",
     Reply(200, {}, f"<R {SPACE}><IsTruncated>true</IsTruncated><Contents><Key>k</Key></Contents><CommonPrefixes/></R>".encode()),
     [{"op": "ListObjectsV2", "bucket": "lake", "prefix": "p/", "delimiter": "/", "max": 3, "after": "p/a", "listed": 2, "more": True,
       "effect": True, "outcome": "answered"}]),
    ("uploads", "GET /lake?uploads", {}, b"", Reply(200, {}, f"<R {SPACE}><IsTruncated>false</IsTruncated><Upload/></R>".encode()),
     [{"op": "ListMultipartUploads", "bucket": "lake", "prefix": "", "listed": 1, "more": False, "effect": True, "outcome": "answered"}]),
]
READ = {"ListObjects": "GET /lake", "ListParts": "GET /lake/k?uploadId=u", "HeadBucket": "HEAD /lake", "DeleteBucket": "DELETE /lake",
        "Other": "OPTIONS /lake/k",
        "PutObject": "PUT /lake/k?x-amz-acl=private&AWSAccessKeyId=a&Signature=b&Expires=1", "DeleteObjects": "POST /lake?delete&versions"}


def request_of(line, headers, body):
    method, target = line.split(" ")
    return Request(method, headers.get("host", "localhost:8080"), target, headers, body)


def mapped(check):
    """Each exchange of the table, and requests to hosts that the recorder does not know."""
    for what, line, headers, body, reply, due in MAPPED:
        found, doubt = exchanges.asked(request_of(line, headers, body), NAMES)
        check.same(f"record, {what}", [exchanges.lost(found, "gone")] if reply is None else exchanges.answered(found, reply, doubt), due)
    for due, line in READ.items():
        check.same(f"record, {line}", exchanges.asked(request_of(line, {}, b""), NAMES)[0]["op"], due)
    for host, names in (("example.com", NAMES), ("lake.s3.example.org", NAMES), ("xs3.example.com", NAMES), ("", NAMES), ("127.0.0.1:80", NAMES[1:])):
        try:
            check.see(f"record, the host {host}", False, f"it is {exchanges.asked(request_of('PUT /lake/k', {'host': host}, b''), names)}")
        except exchanges.Strange:
            check.cases += 1


# ---- the tags at each key

def put(key, tag, effect=True, bucket="lake"):
    return {"op": "PutObject", "bucket": bucket, "key": key, "etag": tag, "effect": effect}


def joined(key, *tags, effect=True, upload="u"):
    return {"op": "CompleteMultipartUpload", "bucket": "lake", "key": key, "upload": upload, "effect": effect,
            "parts": [{"etag": it, "part": at} for at, it in enumerate(tags, 1)]}


def part(at, tag, named):
    return {"op": "UploadPart", "bucket": "lake", "key": "k", "upload": "u", "part": at, "etag": tag, "reply_etag": named, "effect": True}


def copy(key, effect=True, **more):
    return {"op": "CopyObject", "bucket": "far", "key": "k", "source": key, "source_bucket": "lake", "reply_etag": C, "effect": effect} | more


OPENING = {"op": "Object", "bucket": "lake", "key": "s", "etags": [A]}
WITHIN = {"op": "CopyObject", "bucket": "lake", "key": "t", "source": "s", "effect": True}
DELETION = {"op": "DeleteObject", "bucket": "lake", "key": "s", "effect": True}
TWO = {"op": "CompleteMultipartUpload", "parts": [{"etag": A, "part": 1}, {"etag": B, "part": 2}]}
UNSEEN = {"op": "PutObject", "etag": C, "effect": None, "why": "its source is in another bucket, and was not seen to be written: write the etag of its bytes"}
BEFORE = {"effect": False, "why": "the upload was completed before"}
MAYBE = {"effect": None, "why": "the upload may have been completed before, and the key changed since"}
# Each case: its name, the lines before, a line, and the members that the recorder adds to it.
FOLLOWED = [
    ("a copy of a put", [put("s", A)], copy("s"), {"op": "PutObject", "etag": A}),
    ("a copy of an upload", [joined("s", A, B)], copy("s"), TWO),
    ("a copy of what was there", [OPENING], copy("s"), {"op": "PutObject", "etag": A}),
    ("a copy of a copy", [joined("s", A, B), WITHIN], copy("t"), TWO),
    ("a copy of what was put anew", [OPENING, put("s", B)], copy("s"), {"op": "PutObject", "etag": B}),
    ("a copy of a refused put", [OPENING, put("s", B, False)], copy("s"), {"op": "PutObject", "etag": A}),
    ("a copy of a doubtful put", [OPENING, put("s", B, None)], copy("s"), UNSEEN),
    ("a copy of a copy of a doubtful put", [put("s", B, None), WITHIN], copy("t"), UNSEEN),
    ("a copy of nothing seen", [], copy("s"), UNSEEN),
    ("a copy of what was deleted", [OPENING, DELETION], copy("s"), UNSEEN),
    ("a lost copy", [OPENING], copy("s", None), {"op": "PutObject", "etag": A}),
    ("a refused copy", [OPENING], copy("s", False), {}),
    ("a copy within a bucket", [OPENING], WITHIN, {}),
    ("parts by other tags", [part(1, A, C), part(2, B, B)], joined("k", C, B), {"parts": joined("k", A, B)["parts"]}),
    ("a part that was sent again", [part(1, A, C), part(1, B, A)], joined("k", A), {"parts": joined("k", B)["parts"]}),
    ("a completion again", [joined("k", A)], joined("k", A), BEFORE),
    ("a completion after a refused one", [joined("k", A, effect=False)], joined("k", A), {}),
    ("a completion after a lost one", [joined("k", A, effect=None)], joined("k", A), {}),
    ("the same, with a put between", [joined("k", A, effect=None), put("k", B)], joined("k", A), MAYBE),
    ("another upload", [joined("k", A)], joined("k", B, upload="v"), {}),
]


def followed(check):
    for what, before, line, due in FOLLOWED:
        them = Followed()
        for it in before:
            them.take(it)
        check.same(f"record, {what}", them.line_of(line), line | due)


# ---- the order of changes, and the file

async def changes_in_turn(recorder):
    """The names of the requests in the order in which they were sent on, with a `|` at each step."""
    let = []

    async def send(name, line, body=b"hello"):
        await recorder.begin(name, request_of(line, {}, body))
        let.append(name)

    tasks = [asyncio.ensure_future(send(name, line)) for name, line in (
        ("first", "PUT /lake/a"), ("second", "PUT /lake/b"), ("part", "PUT /lake/c?partNumber=1&uploadId=u"), ("third", "DELETE /lake/a"),
        ("fourth", "PUT /lake/d"))]
    await settled()
    for step in (lambda: recorder.reply("part", OK), lambda: recorder.reply("first", OK), lambda: recorder.lose("second", "gone"),
                 lambda: recorder.unsent("third")):
        let.append("|")
        step()
        await settled()
    recorder.finish()
    await asyncio.gather(*tasks)
    return let


async def settled():
    for _ in range(10):
        await asyncio.sleep(0)


def in_order(check):
    """A change waits until the change before it is answered or lost. The recorder adds its lines after a claim without an LF."""
    path = f"{check.room}/order.jsonl"
    with open(path, "w", encoding="utf-8") as it:
        it.write('{"op":"Job"}\n{"bucket":"lake","effect":true,"key":"x","n":7,"op":"DeleteObject"}')

    async def record():
        return await asyncio.wait_for(changes_in_turn(Recorder(path, NAMES)), 20)
    check.same("record, the order of changes", asyncio.run(record()), ["first", "part", "|", "|", "second", "|", "third", "|", "fourth"])
    with open(path, encoding="utf-8") as them:
        lines = [json.loads(it) for it in them]
    check.same("record, the lines", [(it.get("n"), it["op"], it.get("key"), it.get("effect"), it.get("outcome")) for it in lines],
               [(None, "Job", None, None, None), (7, "DeleteObject", "x", True, None), (10, "UploadPart", "c", True, "answered"),
                (8, "PutObject", "a", True, "answered"), (9, "PutObject", "b", None, "lost"), (11, "DeleteObject", "a", False, "lost"),
                (12, "PutObject", "d", None, "lost")])


# ---- the command line

PROXY = f"""#!{sys.executable}
import sys
words = sys.argv[1:]
path = next(it[6:] for it in words if it.startswith("trace="))
with open(path, "a") as out:
    out.write('{{"bucket":"b","effect":null,"key":"k","n":1,"op":"PutObject","why":"no reply"}}\\n')
    out.write('{{"bucket":"b","effect":null,"key":"k","n":2,"op":"GetObject","why":"no reply"}}\\n')
    out.write('{{"bucket":"b","effect":true,"keys":["k","l"],"n":3,"op":"DeleteObjects"}}\\n')
    out.write('{{"bucket":"b","effect":null,"keys":["k","l"],"n":4,"op":"DeleteObjects","why":"no reply"}}\\n')
print(" ".join(it for it in words if not it.startswith(("trace=", "/"))))
sys.exit(3 if "fails" in words else 0)
"""
STARTED = "--quiet --mode reverse:{} --listen-host 127.0.0.1 --listen-port {} -s --set --set endpoint_names=*,localhost,localhost,t" \
    " --set pass_others=false --set keep_host_header=true"


def words(check):
    """What `record` says about wrong words, what it starts, and what it says at its end."""
    room = f"{check.room}/proxy"
    os.mkdir(room)
    with open(f"{room}/mitmdump", "w", encoding="utf-8") as it:
        it.write(PROXY)
    os.chmod(f"{room}/mitmdump", 0o755)
    with socket.create_server(("127.0.0.1", 0)) as held:
        port, trace = held.getsockname()[1], f"{room}/a.jsonl"
        url = "http://s3.example.com"
        tried = lambda path, *given: check.run("record", *given, over={"PATH": f"{path}:{os.path.dirname(sys.executable)}:/usr/bin:/bin"})
        for wrong in ("s3.example.com", "ftp://s3.example.com", "http://s3.example.com/lake", "http://[s3", "http://s3.example.com:99999", "http://s3?x=y"):
            check.same(f"record, {wrong}", tried(room, wrong, trace), (1, "", f"record: {wrong} is no URL of an endpoint; write it as http://127.0.0.1:9000\n"))
        check.same("record, a port that is taken", tried(room, "--port", str(port), url, trace),
                   (1, "", f"record: the proxy cannot listen at 127.0.0.1:{port}: Address already in use\n"))
    with open(f"{room}/b.jsonl", "w", encoding="utf-8") as it:
        it.write('{"op":"Job"}\n{"op":"Object","bucket":"b","key":"k"}\n')
    free = ["--port", str(port)]
    check.same("record, a wrong trace", tried(room, *free, url, f"{room}/b.jsonl"), (1, "", f"record: line 2 of {room}/b.jsonl lacks the member etags\n"))
    check.same("record, a folder", tried(room, *free, url, room), (1, "", f"record: {room} is no file\n"))
    said = f"{trace}: 4 requests, 1 change\ndecide line 1: PutObject b/k: no reply\ndecide line 4: DeleteObjects b/k l: no reply\n"
    with socket.create_server(("127.0.0.1", 0)) as served:
        own = f"http://localhost:{served.getsockname()[1]}"
        check.same("record", tried(room, *free, "--host", "t", own + "/", trace, "--", "more"), (0, f"{STARTED.format(own, port)} more\n{said}", ""))
    check.same("record, no server", tried(room, *free, own, trace), (1, "", f"record: {own} cannot be reached: Connection refused\n"))
    status, said, why = tried(room, *free, "--forward", url, f"{room}/c.jsonl", "--", "fails")
    check.same("record, a proxy that fails", (status, why), (1, "record: the proxy ended with status 3: the trace may lack requests\n"))
    check.see("record --forward", "--mode" not in said and "=s3.example.com --set pass_others=true" in said, said)
    status, said, error_text = check.run("record", "--help")
    check.see("record --help", status == 0 and said.startswith("usage: record "), said[:100])


def records(check):
    for look in (mapped, followed, in_order, words):
        try:
            look(check)
        except asyncio.TimeoutError:
            check.see(f"record, {look.__name__}", False, "a change waits for ever")
