"""Sends requests to an S3 endpoint with boto3, and turns the replies into those of s3_model."""
import hashlib

from job_runs import Stop

HEADER = "x-hadoop-s3a-magic-data-length"
# What boto3 says where it reaches no server, and where it cannot send to it.
UNREACHED = ("EndpointConnectionError", "ConnectTimeoutError")
UNSENT = ("EndpointResolutionError", "NoCredentialsError", "PartialCredentialsError", "ProxyConnectionError", "SSLError")


class NoServer(Stop):
    """Why requests cannot be sent to the endpoint."""


def connect(endpoint):
    """A client of an endpoint. It sends each request once, and checks no argument, so that the server does."""
    try:
        import boto3
        from botocore.config import Config
        from botocore.exceptions import BotoCoreError, ClientError
        from botocore.parsers import ResponseParserError
    except ImportError:
        raise Stop("the Python package boto3 is missing: install it (Debian has it as python3-boto3)") from None
    said = {"signature_version": "s3v4", "s3": {"addressing_style": "path"}, "retries": {"total_max_attempts": 1}, "parameter_validation": False}
    try:
        # (newer versions add a checksum to each put, which older servers refuse)
        config = Config(**said, request_checksum_calculation="when_required", response_checksum_validation="when_required")
    except TypeError:
        config = Config(**said)
    try:
        client = boto3.client("s3", endpoint_url=endpoint, region_name="us-east-1", config=config)
    except (BotoCoreError, ValueError) as why:
        raise NoServer(f"boto3 makes no client of {endpoint}: {why}") from None
    return Client(client, endpoint, ClientError, (BotoCoreError, ResponseParserError))


def tag_of(reply):
    return reply.get("ETag", "").strip('"')


def header_of(reply):
    """The length header of an object, or None."""
    said = reply.get("Metadata", {}).get(HEADER)
    return int(said) if said and said.isdigit() else said


def page(entries, reply):
    return {"entries": entries, "more": reply.get("IsTruncated", False)}


class Client:
    """A boto3 client, and the exceptions that it raises if a request is refused or has no reply."""

    def __init__(self, client, endpoint, refused, failed):
        self.client, self.endpoint, self.refused, self.failed = client, endpoint, refused, failed

    def send(self, it):
        """The reply to a request. It has only `error` if the server refused the request, or if boto3 cannot read the reply."""
        try:
            return getattr(self, it["op"])(it)
        except self.refused as why:
            return {"error": code_of(why.response)}
        except self.failed as why:
            name = type(why).__name__
            if name in UNREACHED:
                raise NoServer(f"{self.endpoint} cannot be reached") from None
            if name in UNSENT:
                raise NoServer(f"{self.endpoint} cannot be used: {why}") from None
            return {"error": name}

    def where(self, it):
        return {name: it[word] for name, word in (("Bucket", "bucket"), ("Key", "key"), ("UploadId", "upload")) if word in it}

    def CreateBucket(self, it):
        self.client.create_bucket(Bucket=it["bucket"])
        return {}

    def DeleteBucket(self, it):
        self.client.delete_bucket(Bucket=it["bucket"])
        return {}

    def PutObject(self, it):
        header = it.get("magic_length")
        said = {} if header is None else {"Metadata": {HEADER: str(header)}}
        return {"etag": tag_of(self.client.put_object(**self.where(it), Body=it["body"], **said))}

    def GetObject(self, it):
        reply = self.client.get_object(**self.where(it))
        data = reply["Body"].read()
        return {"bytes": hashlib.md5(data).hexdigest(), "length": len(data), "magic_length": header_of(reply)}

    def HeadObject(self, it):
        reply = self.client.head_object(**self.where(it))
        return {"length": reply["ContentLength"], "magic_length": header_of(reply)}

    def DeleteObject(self, it):
        self.client.delete_object(**self.where(it))
        return {}

    def DeleteObjects(self, it):
        reply = self.client.delete_objects(Bucket=it["bucket"], Delete={"Objects": [{"Key": key} for key in it["keys"]]})
        if reply.get("Errors"):
            return {"error": reply["Errors"][0].get("Code", "")}
        return {"deleted": sorted(one["Key"] for one in reply.get("Deleted", []))}

    def CopyObject(self, it):
        self.client.copy_object(**self.where(it), CopySource={"Bucket": it["bucket"], "Key": it["source"]})
        return {}

    def ListObjectsV2(self, it):
        said = {"Delimiter": it["delimiter"]} if "delimiter" in it else {}
        reply = self.client.list_objects_v2(Bucket=it["bucket"], Prefix=it["prefix"], StartAfter=it["after"], MaxKeys=it["max"], **said)
        entries = [(one["Key"], one["Size"]) for one in reply.get("Contents", [])] + [(one["Prefix"],) for one in reply.get("CommonPrefixes", [])]
        # (S3 lists keys and common prefixes apart. Each of the two lists must be in order.)
        return page(sorted(entries, key=lambda one: one[0].encode()) if said else entries, reply)

    def CreateMultipartUpload(self, it):
        return {"upload": self.client.create_multipart_upload(**self.where(it))["UploadId"]}

    def UploadPart(self, it):
        return {"etag": tag_of(self.client.upload_part(**self.where(it), PartNumber=it["part"], Body=it["body"]))}

    def CompleteMultipartUpload(self, it):
        parts = [{"PartNumber": one["part"], "ETag": one["etag"]} for one in it["parts"]]
        return {"etag": tag_of(self.client.complete_multipart_upload(**self.where(it), MultipartUpload={"Parts": parts}))}

    def AbortMultipartUpload(self, it):
        self.client.abort_multipart_upload(**self.where(it))
        return {}

    def ListParts(self, it):
        """All parts of an upload, from as many pages as the server sends."""
        entries, behind = [], 0
        while behind is not None:
            reply = self.client.list_parts(**self.where(it), PartNumberMarker=behind)
            entries += [(one["PartNumber"], one["Size"], tag_of(one)) for one in reply.get("Parts", [])]
            behind = entries[-1][0] if reply.get("IsTruncated") and entries else None
        return {"entries": entries}

    def ListMultipartUploads(self, it):
        said = {"KeyMarker": it["after"], "UploadIdMarker": it["after_upload"]} if "after" in it else {}
        reply = self.client.list_multipart_uploads(Bucket=it["bucket"], Prefix=it["prefix"], MaxUploads=it["max"], **said)
        return page([(one["Key"], one["UploadId"]) for one in reply.get("Uploads", [])], reply)


def code_of(response):
    """The code of a refusal. If the reply has no code, such as that to a HEAD request, this is its status."""
    return response.get("Error", {}).get("Code") or str(response.get("ResponseMetadata", {}).get("HTTPStatusCode", ""))
