"""A stand-in for boto3, for .ci/tools: a client that returns the replies of the file REPLIES in their order.

A line of REPLIES is the name of the method that must be called next, and its reply as JSON, or `refused` and an error code, or `unreadable`, or
`unreached`. `Body` in a reply is a text. Each call is written to the file CALLS. With SERVER in the environment the client is a server of its own.
"""
import io
import json
import os

from botocore.exceptions import ClientError, EndpointConnectionError
from botocore.parsers import ResponseParserError


class Client:
    def __init__(self, replies, calls):
        with open(replies, encoding="utf-8") as it:
            self.replies, self.calls = [line.split(" ", 1) for line in it.read().splitlines()], calls

    def __getattr__(self, method):
        def call(**said):
            with open(self.calls, "a", encoding="utf-8") as it:
                it.write(json.dumps([method, {name: str(value) for name, value in said.items()}]) + "\n")
            due, reply = self.replies.pop(0)
            assert method == due, f"{method} was called, and {due} is next"
            if reply.startswith("refused "):
                raise ClientError({"Error": {"Code": reply.split(" ")[1]}})
            if reply == "unreached":
                raise EndpointConnectionError
            if reply == "unreadable":
                raise ResponseParserError
            found = json.loads(reply)
            return found | ({"Body": io.BytesIO(found["Body"].encode())} if "Body" in found else {})
        return call


def client(*_, **__):
    if "SERVER" in os.environ:
        from s3_server import Server
        return Server()
    return Client(os.environ["REPLIES"], os.environ["CALLS"])
