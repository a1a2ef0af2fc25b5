"""Cases of what tools/recorder.py does inside mitmproxy. They need no mitmproxy: what the addon takes of it stands here."""
import asyncio
import contextlib
import gzip
import hashlib
import io
import json
import sys
import types

import recorder

NAMES = "localhost,s3.example.com"
CLAIM = '{"op":"Job"}\n'
ZIPPED = gzip.compress(b"hello", mtime=0)


class Message:
    """A request or a reply, as mitmproxy has it: `raw` are the bytes that were sent, `content` is what they hold when unpacked."""

    def __init__(self, headers, raw, content):
        self.headers, self.raw_content, self.content, self.stream = headers, raw, content, False

    def get_content(self, strict):
        return self.content


class Asked(Message):
    """A request. It came to the address of the proxy, and names its host in a header."""

    def __init__(self, line, host, headers, raw, content):
        super().__init__(headers, raw, content)
        self.method, self.path = line.split(" ")
        self.host_header, self.host, self.pretty_host = host, "127.0.0.1", "127.0.0.1"


class Replied(Message):
    def __init__(self, status_code, raw=b""):
        super().__init__({}, raw, raw)
        self.status_code = status_code


class Flow:
    """A request with what becomes of it."""

    def __init__(self, line="PUT /lake/k", host="localhost:8080", headers=None, raw=b"hello", content=None):
        self.id, self.request, self.response, self.error = id(self), Asked(line, host, headers or {}, raw, raw if content is None else content), None, None
        self.client_conn, self.is_killed = types.SimpleNamespace(connected=True), False

    def kill(self):
        self.is_killed = True


class Proxy:
    """The addon in a proxy of its own: the options that it added, and whether it ended the proxy."""

    def __init__(self, path, pass_others=False):
        self.path, self.is_ended = path, False
        with open(path, "w", encoding="utf-8") as it:
            it.write(CLAIM)
        options = types.SimpleNamespace(trace=path, endpoint_names=NAMES, pass_others=pass_others)
        answer = types.SimpleNamespace(make=lambda status, text, headers: Replied(status, text.encode()))
        sys.modules["mitmproxy"] = types.SimpleNamespace(
            ctx=types.SimpleNamespace(options=options, master=types.SimpleNamespace(shutdown=self.end)), http=types.SimpleNamespace(Response=answer))
        self.addon = recorder.Addon()

    def end(self):
        self.is_ended = True

    async def take(self, flow, status=None, body=b""):
        """Takes a request, and its reply where it has a status."""
        await asyncio.wait_for(self.addon.request(flow), 20)
        if status and not flow.response:
            flow.response = Replied(status, body)
            self.addon.responseheaders(flow)
            if not flow.response.stream:
                self.addon.response(flow)
        return flow

    def lines(self):
        with open(self.path, encoding="utf-8") as them:
            return [json.loads(it) for it in them][1:]


def record(path, play, **words):
    """What `play` gives, the lines that were recorded, the proxy, its status, and what it said. `play` is given the proxy."""
    async def run():
        proxy.addon.running()
        return await play(proxy)
    kept = sys.modules.get("mitmproxy")
    said, status = io.StringIO(), 0
    with contextlib.redirect_stderr(said):
        proxy = Proxy(path, **words)
        found = asyncio.run(run())
        try:
            proxy.addon.done()
        except SystemExit as end:
            status = end.code
    sys.modules.pop("mitmproxy")
    if kept:
        sys.modules["mitmproxy"] = kept
    return found, proxy.lines(), proxy, status, said.getvalue()


def tag(data):
    return hashlib.md5(data).hexdigest()


def outcomes(check):
    """What is recorded of a reply, of none, of one that comes late, and of requests that are not sent on."""
    async def play(proxy):
        await proxy.take(Flow(host="lake.s3.example.com", line="PUT /put", headers={"Content-Encoding": "gzip"}, raw=ZIPPED, content=b"hello"), 200)
        get = await proxy.take(Flow("GET /lake/get", raw=b""), 200, b"hello")
        proxy.addon.response(get)
        late = b'<?xml version="1.0"?>\n<Error><Code>InvalidPart</Code></Error>'
        part = b"<CompleteMultipartUpload><Part><PartNumber>1</PartNumber><ETag>a</ETag></Part></CompleteMultipartUpload>"
        complete = await proxy.take(Flow("POST /lake/late?uploadId=u", raw=part), 200, late)
        lost = await proxy.take(Flow("PUT /lake/lost"))
        lost.error = "server closed connection"
        proxy.addon.error(lost)
        gone = Flow("PUT /lake/gone")
        gone.client_conn.connected = False
        await proxy.take(gone)
        under_way = await proxy.take(Flow("PUT /lake/under-way"))
        return [it.response.stream for it in (get, complete)], [it.is_killed for it in (gone, under_way)]

    found, lines, _, status, _ = record(f"{check.room}/outcomes.jsonl", play)
    due = [("put", True, None), ("get", True, None), ("late", False, None), ("lost", None, "no reply: server closed connection"),
           ("gone", False, "the client went away before it was sent on"), ("under-way", None, "the recording ended before its reply")]
    check.same("record, what became of requests", [(it["key"], it["effect"], it.get("why")) for it in lines], due)
    check.same("record, the bytes that were sent", [lines[0][it] for it in ("bucket", "etag", "length")], ["lake", tag(ZIPPED), len(ZIPPED)])
    check.same("record, whose bytes pass through, and which requests do not", found, ([True, False], [True, False]))
    check.same("record, the proxy's status", status, 0)


def others(check):
    """Requests to hosts that are none of the endpoint's are refused, or passed on where this is asked for. They have no line."""
    async def play(proxy):
        flow = await proxy.take(Flow(host="other.example.org"))
        return flow.response and flow.response.status_code

    for passed, due in ((False, 400), (True, None)):
        found, lines, _, status, said = record(f"{check.room}/others.jsonl", play, pass_others=passed)
        told = "record: 1 request to other.example.org has no line\n"
        check.same("record, another host", (found, lines, status, said), (due, [], 0, told))


def failures(check):
    """Where a line cannot be made or written, the proxy ends, with status 1, and the request is not sent on."""
    async def strange(proxy):
        flow = Flow()
        flow.request.headers = None
        return (await proxy.take(flow)).is_killed

    async def full(proxy):
        first = await proxy.take(Flow("PUT /lake/first"))
        kept, proxy.addon.recorder.out = proxy.addon.recorder.out, types.SimpleNamespace(write=lambda data: len(data) - 1)
        first.response = Replied(200)
        proxy.addon.response(first)
        proxy.addon.recorder.out = kept
        # (the change after it must not wait for ever)
        second = await proxy.take(Flow("PUT /lake/second"), 200)
        return second.response.status_code

    for what, play, due in (("a request that cannot be read", strange, (True, [])), ("a full disk", full, (200, ["second"]))):
        found, lines, proxy, status, said = record(f"{check.room}/failures.jsonl", play)
        check.same(f"record, {what}", (found, [it["key"] for it in lines]), due)
        check.same(f"record, {what}: the proxy ends", (proxy.is_ended, status), (True, 1))
        check.see(f"record, {what}: what is said", said.startswith("record: ") and said.count("\n") == 1, said)


def addon(check):
    for look in (outcomes, others, failures):
        try:
            look(check)
        except asyncio.TimeoutError:
            check.see(f"record, {look.__name__}", False, "a change waits for ever")
