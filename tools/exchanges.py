"""Turns requests to S3 and their replies into lines of a trace. A request is a method, a host, a target, headers and a body; no proxy is involved here."""
import dataclasses
import hashlib
import ipaddress
import urllib.parse
import xml.etree.ElementTree as ET

CHANGES = ("PutObject", "CopyObject", "DeleteObject", "DeleteObjects", "CompleteMultipartUpload")
# Query arguments that name something other than the bucket or the object itself. With these methods none of them changes an object's bytes.
OF_BUCKETS = ("abac", "accelerate", "acl", "analytics", "cors", "encryption", "intelligent-tiering", "inventory", "lifecycle", "location", "logging",
              "metadataConfiguration", "metadataInventoryTable", "metadataJournalTable", "metadataTable", "metrics", "notification", "object-lock",
              "ownershipControls", "policy", "policyStatus", "publicAccessBlock", "replication", "requestPayment", "session", "tagging",
              "versioning", "versions", "website")
OF_OBJECTS = {"GET": ("acl", "attributes", "legal-hold", "retention", "tagging", "torrent"), "PUT": ("acl", "legal-hold", "retention", "tagging"),
              "DELETE": ("tagging",), "POST": ("restore", "select")}
# Arguments that a change may have, besides `x-id` and those of its signature.
PLAIN = {"DeleteObject": ("versionId",), "DeleteObjects": ("delete",), "CompleteMultipartUpload": ("uploadId",)}
SIGNATURE = ("awsaccesskeyid", "signature", "expires", "x-id")
PASSED_ON = {"uploadId": "upload", "prefix": "prefix", "delimiter": "delimiter", "start-after": "after", "marker": "after", "key-marker": "after",
             "continuation-token": "token", "upload-id-marker": "after_upload", "versionId": "version"}
# Operations whose reply may have the status 200 and still be an error.
LATE = ("CopyObject", "UploadPartCopy", "CompleteMultipartUpload")
# Errors that do not say whether the request took effect.
UNSURE = ("InternalError", "InternalServerError", "ServiceUnavailable")


class Strange(Exception):
    """Why a request cannot be a line of a trace."""


@dataclasses.dataclass
class Request:
    """A request as it came. The names of headers are in lower case; the target is the path with its query, as it was sent."""
    method: str
    host: str
    target: str
    headers: dict
    body: bytes = b""


@dataclasses.dataclass
class Reply:
    """A reply. `status` is its HTTP status."""
    status: int
    headers: dict
    body: bytes = b""


# ---- XML

def root(body):
    try:
        return ET.fromstring(body.strip())
    except (ET.ParseError, ValueError, LookupError):
        return None


def name_of(element):
    return element.tag.rpartition("}")[2]


def texts(body, name):
    """The texts of all elements with this name."""
    top = root(body)
    return [] if top is None else [it.text or "" for it in top.iter() if name_of(it) == name]


def rows(body, name):
    """The elements with this name right below the root. Each is a map from its children's names to their texts."""
    top = root(body)
    return [] if top is None else [{name_of(it): it.text or "" for it in row} for row in top if name_of(row) == name]


def tag_of(text):
    """A tag without its quotes."""
    return (text or "").strip().strip('"')


# ---- where a request goes

def bucket_in(host, names):
    """The bucket in a host's name, or an empty text if the bucket is in the path. The name `*` stands for every IP address."""
    host = host.lower().rstrip(".")
    if host in names or "*" in names and is_address(host):
        return ""
    for name in sorted(names, key=len, reverse=True):
        if host.endswith(f".{name}"):
            return host[:-len(name) - 1]
    raise Strange(f"{host or 'a request without a host'} is no known name of the endpoint; name it by --host")


def is_address(host):
    try:
        return bool(ipaddress.ip_address(host.strip("[]")))
    except ValueError:
        return False


def host_name(header):
    """The name in a Host header, without the port."""
    return header.rpartition(":")[0] if ":" in header and not header.endswith("]") else header


def place_of(request, names):
    """The bucket, the key and the query's arguments. `names` are those of the endpoint."""
    path, _, query = request.target.partition("?")
    path = urllib.parse.unquote_to_bytes(path).decode(errors="replace").removeprefix("/")
    bucket = bucket_in(host_name(request.host), names)
    if not bucket:
        bucket, _, path = path.partition("/")
    return bucket, path, dict(urllib.parse.parse_qsl(query, keep_blank_values=True))


# ---- the request

def payload(request):
    """The bytes of the body, without the framing of `aws-chunked`. None if the framing is broken."""
    is_chunked = "aws-chunked" in request.headers.get("content-encoding", "") or \
        request.headers.get("x-amz-content-sha256", "").startswith("STREAMING-")
    if not is_chunked:
        return request.body
    found, at = [], 0
    while True:
        end = request.body.find(b"\r\n", at)
        size = request.body[at:max(end, at)].split(b";")[0].strip()
        if end < 0 or not size or size.strip(b"0123456789abcdefABCDEF"):
            return None
        at = end + 2 + int(size, 16)
        if int(size, 16) == 0:
            break
        found.append(request.body[end + 2:at])
        if request.body[at:at + 2] != b"\r\n":
            return None
        at += 2
    data = b"".join(found)
    return data if request.headers.get("x-amz-decoded-content-length", str(len(data))) == str(len(data)) else None


def number(text):
    """The text as a number if it is one, and otherwise the text."""
    return int(text) if text.isascii() and text.isdigit() and len(text) <= 18 else text


def subresource(method, key, args):
    """The argument that names a subresource, or an empty text."""
    known = OF_OBJECTS.get(method, ()) if key else () if "delete" in args else OF_BUCKETS
    return next((it for it in args if it in known), "")


def operation(method, bucket, key, args, headers):
    """The name of the operation, as in the Amazon S3 API reference."""
    if subresource(method, key, args):
        return "Other"
    if not bucket:
        return "ListBuckets" if method == "GET" else "Other"
    if not key and method == "GET":
        return "ListMultipartUploads" if "uploads" in args else "ListObjectsV2" if args.get("list-type") == "2" else "ListObjects"
    if not key and method == "POST":
        is_form = headers.get("content-type", "").startswith("multipart/form-data")
        return "DeleteObjects" if "delete" in args else "PutObject" if is_form else "Other"
    if not key:
        return {"PUT": "CreateBucket", "HEAD": "HeadBucket", "DELETE": "DeleteBucket"}.get(method, "Other")
    if method == "PUT":
        is_copy, is_part = "x-amz-copy-source" in headers, "partNumber" in args and "uploadId" in args
        return ("UploadPartCopy" if is_copy else "UploadPart") if is_part else "CopyObject" if is_copy else "PutObject"
    if method == "POST":
        return "CreateMultipartUpload" if "uploads" in args else "CompleteMultipartUpload" if "uploadId" in args else "Other"
    if method == "DELETE":
        return "AbortMultipartUpload" if "uploadId" in args else "DeleteObject"
    return {"HEAD": "HeadObject", "GET": "ListParts" if "uploadId" in args else "GetObject"}.get(method, "Other")


def doubts(line, args, headers):
    """The reasons why the request does not say what the change leaves."""
    if "version" in line:
        yield "it names a version"
    for it in args:
        if it not in PLAIN.get(line["op"], ()) and it.lower() not in SIGNATURE and not it.lower().startswith("x-amz-"):
            yield f"the argument {it} is not known"
    if "x-amz-write-offset-bytes" in headers:
        yield "it appends to an object"
    if "\ufffd" in line.get("key", ""):
        yield "the key is not UTF-8"
    if line["op"] == "PutObject" and not line["key"]:
        yield "it is an HTML form: write its key and the etag of its bytes"


def asked(request, names):
    """The members of a line that follow from the request, and the reason if they do not say what it leaves."""
    bucket, key, args = place_of(request, names)
    method, headers = request.method, request.headers
    line = {"op": operation(method, bucket, key, args, headers)}
    line |= {name: it for name, it in (("bucket", bucket), ("key", key)) if it}
    line |= {to: args[name] for name, to in PASSED_ON.items() if args.get(name)}
    line |= {"max": number(args[it]) for it in ("max-keys", "max-uploads", "max-parts") if args.get(it)}
    if line["op"] == "PutObject":
        line.setdefault("key", "")
    why = list(doubts(line, args, headers)) if line["op"] in CHANGES else []
    if line["op"].startswith("List") and "key" not in line and bucket:
        line.setdefault("prefix", "")
    if "partNumber" in args:
        line["part"] = number(args["partNumber"])
    if line["op"] == "Other":
        line["what"] = f"{method} {subresource(method, key, args)}".rstrip()
    elif line["op"] in ("PutObject", "UploadPart"):
        why += put_into(line, request)
    elif line["op"] in ("CopyObject", "UploadPartCopy"):
        why += copied_into(line, headers)
    elif line["op"] == "CompleteMultipartUpload":
        line["parts"] = [{"etag": tag_of(it.get("ETag")), "part": number(it.get("PartNumber", ""))} for it in rows(request.body, "Part")]
        if not line["parts"]:
            line = {name: it for name, it in line.items() if name != "parts"} | {"op": "Other", "what": "a completion without parts"}
    elif line["op"] == "DeleteObjects":
        found = rows(request.body, "Object")
        line["keys"] = [it.get("Key", "") for it in found]
        why += ["it names a version" for it in found if it.get("VersionId")] + ([] if found else ["its keys cannot be read"])
    return line, why[0] if why else None


def put_into(line, request):
    """Adds the members of a put or a part, and gives the reasons for doubt."""
    data = payload(request)
    line |= {"etag": hashlib.md5(data or b"").hexdigest(), "length": len(data or b"")}
    magic = request.headers.get("x-amz-meta-x-hadoop-s3a-magic-data-length")
    if magic is not None:
        line["magic_length"] = number(magic)
    return ["its chunks are broken"] if data is None else []


def copied_into(line, headers):
    """Adds the members of a copy, and gives the reasons for doubt."""
    source, _, version = headers["x-amz-copy-source"].partition("?versionId=")
    bucket, _, line["source"] = urllib.parse.unquote_to_bytes(source).decode(errors="replace").removeprefix("/").partition("/")
    if bucket != line["bucket"]:
        line["source_bucket"] = bucket
    if "x-amz-copy-source-range" in headers:
        line["range"] = headers["x-amz-copy-source-range"]
    if bucket.startswith("arn:"):
        return ["its source is an access point"]
    return ["its source is a version"] if version else []


# ---- the reply

def effect_of(operation, reply):
    """Whether the request took effect (None if the reply does not say it), and the error code."""
    is_good = 200 <= reply.status < 300
    top = None if is_good and operation not in LATE else root(reply.body)
    is_error = top is not None and name_of(top) == "Error"
    if is_good and not is_error:
        return True, None
    code = [*(it.text or "" for it in top if name_of(it) == "Code"), ""][0] if is_error else ""
    code = code or str(reply.status)
    is_unsure = code in UNSURE or reply.status >= 500 and code not in ("SlowDown", "NotImplemented")
    return None if is_unsure else False, code


def lost(line, why):
    """The line of a request whose reply nobody saw."""
    return line | {"effect": None, "outcome": "lost", "why": why}


def answered(line, reply, doubt=None):
    """The lines of a request with a reply: one, or two if part of a batch is in doubt. `doubt` is the reason that `asked` gave."""
    effect, error = effect_of(line["op"], reply)
    line = line | {"effect": effect, "outcome": "slow" if error == "SlowDown" else "answered"}
    if error:
        line |= {"error": error}
    if effect is None:
        line |= {"why": f"the reply is {error}"}
    elif effect and doubt:
        line |= {"effect": None, "why": doubt}
    return [line] if effect is not True else batch(line, reply) if line["op"] == "DeleteObjects" else [line | told(line, reply)]


def told(line, reply):
    """The members that a successful reply adds."""
    operation = line["op"]
    if operation == "CreateMultipartUpload":
        return {"upload": [*texts(reply.body, "UploadId"), ""][0]}
    if operation in ("PutObject", "UploadPart"):
        tag = tag_of(reply.headers.get("etag"))
        return {"reply_etag": tag} if tag not in ("", line["etag"]) else {}
    if operation in ("CopyObject", "UploadPartCopy"):
        return {"reply_etag": tag_of([*texts(reply.body, "ETag"), ""][0])}
    if operation.startswith("List") and operation != "ListBuckets":
        entries = {"ListMultipartUploads": ("Upload",), "ListParts": ("Part",)}.get(operation, ("Contents",))
        count = sum(len(rows(reply.body, it)) for it in (*entries, "CommonPrefixes"))
        return {"listed": count, "more": texts(reply.body, "IsTruncated")[:1] == ["true"]}
    return {}


def batch(line, reply):
    """The lines of a batch: one for the deleted keys, and one for the keys about which the reply does not say it."""
    errors = rows(reply.body, "Error")
    named = [it.get("Key", "") for it in errors]
    unsure = [key for key, it in zip(named, errors) if it.get("Code") in UNSURE or line["keys"].count(key) > 1]
    refused = [it for it in named if it not in unsure]
    seen = line | {"keys": [it for it in line["keys"] if it not in named]} | ({"failed": refused} if refused else {})
    if not unsure:
        return [seen]
    return [seen, line | {"keys": unsure, "effect": None, "why": "the reply has an error for these keys that does not say what became of them"}]
