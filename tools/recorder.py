"""Addon of mitmproxy: writes a line of a trace for each S3 request that goes through the proxy. `tools/record` starts it.

By hand: mitmdump -s tools/recorder.py --set keep_host_header=true --set trace=FILE --set "endpoint_names=*,NAME"
"""
import asyncio
import json
import os
import sys

sys.dont_write_bytecode = True
sys.path.insert(0, os.path.dirname(os.path.abspath(__file__)))
import exchanges
from followed import Followed, lines_in
from job_runs import Stop


def text_of(line):
    return json.dumps(line, sort_keys=True, separators=(",", ":"), ensure_ascii=False) + "\n"


class Sent:
    """A request that has no reply yet: its number, its line so far, and the reason if the line is in doubt."""

    def __init__(self, n, line, doubt):
        self.n, self.line, self.doubt = n, line, doubt
        self.has_turn = False


class Recorder:
    """Writes the lines of requests. A change waits until the change before it has its reply, so the lines have the order of the store."""

    def __init__(self, path, names):
        self.followed, self.names = Followed(), names
        self.sent, self.turn = {}, asyncio.Lock()
        self.out = open(path, "a+b", buffering=0)
        # (the file may have a claim already, or an earlier recording)
        self.n = self.followed.take_all(lines_in(path), path)
        end = self.out.seek(0, os.SEEK_END)
        if end and os.pread(self.out.fileno(), 1, end - 1) != b"\n":
            self.out.write(b"\n")

    def write(self, sent, lines):
        for line in lines:
            line = self.followed.line_of(line) | {"n": sent.n}
            self.followed.take(line)
            data = text_of(line).encode()
            if self.out.write(data) != len(data):
                raise OSError("the disk is full")

    async def begin(self, which, request):
        """Takes a request, and returns when it may be sent on. `which` names the request."""
        line, doubt = exchanges.asked(request, self.names)
        self.n += 1
        self.sent[which] = sent = Sent(self.n, line, doubt)
        if line["op"] in exchanges.CHANGES:
            await self.turn.acquire()
            if which in self.sent:
                sent.has_turn = True
            else:
                self.turn.release()

    def end(self, which, lines_of):
        """Writes the line of a request that is over, and lets the next change go. Does nothing if the line is written already."""
        sent = self.sent.pop(which, None)
        if sent is None:
            return
        try:
            self.write(sent, lines_of(sent))
        finally:
            if sent.has_turn:
                self.turn.release()

    def reply(self, which, reply):
        self.end(which, lambda sent: exchanges.answered(sent.line, reply, sent.doubt))

    def lose(self, which, why):
        self.end(which, lambda sent: [exchanges.lost(sent.line, why)])

    def unsent(self, which):
        """Writes the line of a request that is not sent on, because its client went away while it waited."""
        self.end(which, lambda sent: [exchanges.lost(sent.line, "the client went away before it was sent on") | {"effect": False}])

    def finish(self):
        """Writes the lines of the requests that have no reply yet."""
        for which in [*self.sent]:
            self.lose(which, "the recording ended before its reply")
        self.out.close()


class Addon:
    """The methods that mitmproxy calls."""

    def __init__(self):
        self.recorder, self.passed, self.has_failed = None, {}, False

    def load(self, loader):
        loader.add_option("trace", str, "trace.jsonl", "the file to which the lines are added")
        loader.add_option("endpoint_names", str, "*", "names of the endpoint, with commas between; a bucket may stand before each. * is every IP address")
        loader.add_option("pass_others", bool, False, "pass on what goes to other hosts, without a line")

    def running(self):
        from mitmproxy import ctx
        try:
            self.recorder = Recorder(ctx.options.trace, ctx.options.endpoint_names.lower().split(","))
        except (OSError, Stop) as why:
            self.stop(why)

    def stop(self, why):
        """Ends the proxy, because its trace would miss a line."""
        from mitmproxy import ctx
        self.has_failed = True
        print(f"record: {why}", file=sys.stderr, flush=True)
        ctx.master.shutdown()

    def refuse(self, flow, status, why):
        from mitmproxy import http
        flow.response = http.Response.make(status, f"record: {why}\n", {"content-type": "text/plain"})

    async def request(self, flow):
        from mitmproxy import ctx
        if self.recorder is None:
            return self.refuse(flow, 503, "the recording has not begun")
        try:
            await self.recorder.begin(flow.id, request_of(flow.request))
        except exchanges.Strange as why:
            host = flow.request.host_header or flow.request.host
            self.passed[host] = self.passed.get(host, 0) + 1
            return None if ctx.options.pass_others else self.refuse(flow, 400, why)
        except Exception as why:
            self.stop(f"a {flow.request.method} of {flow.request.path} cannot be recorded: {why!r}")
            return flow.kill()
        if not flow.client_conn.connected:
            self.tell("unsent", flow.id)
            flow.kill()

    def responseheaders(self, flow):
        """Streams the bytes of objects that are read, because no line needs them."""
        sent = self.recorder and self.recorder.sent.get(flow.id)
        if sent and sent.line["op"] == "GetObject" and flow.response.status_code < 300:
            flow.response.stream = True

    def response(self, flow):
        reply = flow.response
        self.tell("reply", flow.id, exchanges.Reply(reply.status_code, headers_of(reply), reply.get_content(strict=False) or b""))

    def error(self, flow):
        self.tell("lose", flow.id, f"no reply: {flow.error}")

    def tell(self, what, *words):
        """Calls a method of the recorder, if there is a recorder."""
        try:
            if self.recorder:
                getattr(self.recorder, what)(*words)
        except Exception as why:
            self.stop(f"a line cannot be written: {why!r}")

    def done(self):
        self.tell("finish")
        for host, count in self.passed.items():
            told = "1 request" if count == 1 else f"{count} requests"
            print(f"record: {told} to {host} {'has' if count == 1 else 'have'} no line", file=sys.stderr, flush=True)
        if self.has_failed:
            sys.exit(1)


def headers_of(message):
    return {name.lower(): it for name, it in message.headers.items()}


def request_of(request):
    """Turns a request of mitmproxy into a Request."""
    host = request.host_header or request.pretty_host
    return exchanges.Request(request.method, host, request.path, headers_of(request), request.raw_content or b"")


addons = [Addon()]
