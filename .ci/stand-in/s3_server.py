"""A stand-in for an S3 server, in the words of boto3. It follows the model's rules as docs/MODEL.md has them, and shares no code with tools/.

The environment tells it the least size of a part that is not the last (LEAST), and the file into which it writes at the end what was not deleted
(LEFT). It refuses to delete keys that end in `stuck` in a batch.
"""
import atexit
import hashlib
import io
import json
import os
import re

from botocore.exceptions import ClientError

MOST = 1000  # the most parts in a page


def refuse(code):
    raise ClientError({"Error": {"Code": code}})


def tag(data):
    return hashlib.md5(data).hexdigest()


class Server:
    def __init__(self):
        self.buckets, self.least, self.begun = {}, int(os.environ["LEAST"]), 0
        atexit.register(self.tell)

    def tell(self):
        with open(os.environ["LEFT"], "w", encoding="utf-8") as it:
            json.dump({name: [sorted(objects), sorted(uploads)] for name, (objects, uploads) in self.buckets.items()}, it)

    def objects(self, Bucket):
        return self.buckets[Bucket][0] if Bucket in self.buckets else refuse("NoSuchBucket")

    def object(self, Bucket, Key):
        objects = self.objects(Bucket)
        return objects[Key] if Key in objects else refuse("NoSuchKey")

    def upload(self, Bucket, Key, UploadId):
        self.objects(Bucket)
        key, parts = self.buckets[Bucket][1].get(UploadId, (None, None))
        return parts if key == Key else refuse("NoSuchUpload")

    # ---- buckets

    def create_bucket(self, Bucket):
        if not re.fullmatch(r"[a-z0-9][a-z0-9.-]{1,61}[a-z0-9]", Bucket):
            refuse("InvalidBucketName")
        if Bucket in self.buckets:
            refuse("BucketAlreadyExists")
        self.buckets[Bucket] = {}, {}

    def delete_bucket(self, Bucket):
        if self.objects(Bucket) or self.buckets[Bucket][1]:
            refuse("BucketNotEmpty")
        del self.buckets[Bucket]

    # ---- objects

    def put_object(self, Bucket, Key, Body, Metadata=None):
        self.objects(Bucket)[Key] = bytes(Body), dict(Metadata or {})
        return {"ETag": f'"{tag(Body)}"'}

    def get_object(self, Bucket, Key):
        data, said = self.object(Bucket, Key)
        return {"Body": io.BytesIO(data), "Metadata": said}

    def head_object(self, Bucket, Key):
        data, said = self.object(Bucket, Key)
        return {"ContentLength": len(data), "Metadata": said}

    def delete_object(self, Bucket, Key):
        self.objects(Bucket).pop(Key, None)

    def delete_objects(self, Bucket, Delete):
        objects, keys = self.objects(Bucket), list(dict.fromkeys(it["Key"] for it in Delete["Objects"]))
        if len(keys) > 1000:
            refuse("MalformedXML")
        gone = [it for it in keys if not it.endswith("stuck")]
        for it in gone:
            objects.pop(it, None)
        return {"Deleted": [{"Key": it} for it in gone], "Errors": [{"Key": it, "Code": "AccessDenied"} for it in keys if it not in gone]}

    def copy_object(self, Bucket, Key, CopySource):
        self.objects(Bucket)[Key] = self.object(CopySource["Bucket"], CopySource["Key"])

    def list_objects_v2(self, Bucket, Prefix="", StartAfter="", MaxKeys=1000, Delimiter=None):
        objects, entries = self.objects(Bucket), {}
        for key in objects:
            if key.startswith(Prefix):
                end = key.find(Delimiter, len(Prefix)) if Delimiter else -1
                entries[key if end < 0 else key[:end + 1]] = end < 0
        behind = sorted((it for it in entries if it.encode() > StartAfter.encode()), key=str.encode)
        page = behind[:MaxKeys]
        return {"Contents": [{"Key": it, "Size": len(objects[it][0])} for it in page if entries[it]],
                "CommonPrefixes": [{"Prefix": it} for it in page if not entries[it]], "IsTruncated": len(behind) > MaxKeys}

    # ---- uploads

    def create_multipart_upload(self, Bucket, Key):
        self.objects(Bucket)
        self.begun += 1
        self.buckets[Bucket][1][f"upload-{self.begun:09}"] = Key, {}
        return {"UploadId": f"upload-{self.begun:09}"}

    def upload_part(self, Bucket, Key, UploadId, PartNumber, Body):
        parts = self.upload(Bucket, Key, UploadId)
        if PartNumber not in range(1, 10001):
            refuse("InvalidArgument")
        parts[PartNumber] = bytes(Body)
        return {"ETag": f'"{tag(Body)}"'}

    def complete_multipart_upload(self, Bucket, Key, UploadId, MultipartUpload):
        parts, named = self.upload(Bucket, Key, UploadId), [(it["PartNumber"], it["ETag"]) for it in MultipartUpload["Parts"]]
        if not named:
            refuse("MalformedXML")
        if any(after[0] <= before[0] for before, after in zip(named, named[1:])):
            refuse("InvalidPartOrder")
        if any(tag(parts[number]) != etag if number in parts else True for number, etag in named):
            refuse("InvalidPart")
        if any(len(parts[number]) < self.least for number, _ in named[:-1]):
            refuse("EntityTooSmall")
        self.objects(Bucket)[Key] = b"".join(parts[number] for number, _ in named), {}
        del self.buckets[Bucket][1][UploadId]
        return {"ETag": f'"{tag(b"".join(hashlib.md5(parts[number]).digest() for number, _ in named))}-{len(named)}"'}

    def abort_multipart_upload(self, Bucket, Key, UploadId):
        self.upload(Bucket, Key, UploadId)
        del self.buckets[Bucket][1][UploadId]

    def list_parts(self, Bucket, Key, UploadId, PartNumberMarker=0):
        parts = self.upload(Bucket, Key, UploadId)
        behind = [it for it in sorted(parts) if it > PartNumberMarker]
        page = [{"PartNumber": it, "Size": len(parts[it]), "ETag": f'"{tag(parts[it])}"'} for it in behind[:MOST]]
        return {"Parts": page, "IsTruncated": len(behind) > MOST}

    def list_multipart_uploads(self, Bucket, Prefix="", MaxUploads=1000, KeyMarker="", UploadIdMarker=""):
        self.objects(Bucket)
        all_of = sorted(((key.encode(), id) for id, (key, _) in self.buckets[Bucket][1].items() if key.startswith(Prefix)))
        behind = [it for it in all_of if it > (KeyMarker.encode(), UploadIdMarker)]
        page = [{"Key": key.decode(), "UploadId": id} for key, id in behind[:MaxUploads]]
        return {"Uploads": page, "IsTruncated": len(behind) > MaxUploads}
