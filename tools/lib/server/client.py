"""A client of a language server that speaks over a process's standard input and output: it sends, waits, and keeps what comes."""

import json
import os
import re
import select
import subprocess
import tempfile
import time
from collections import defaultdict

LENGTH = re.compile(rb"Content-Length: (\d+)")
PIECE = 1 << 16
TICK = os.sysconf("SC_CLK_TCK")


class Silence(Exception):
    """The server did not answer in time, or ended."""


class Refusal(Exception):
    """The server answered a request with an error."""

    def __init__(self, error):
        super().__init__(f"{error['code']}: {error['message']}")
        self.code = error["code"]


def framed(message, is_ascii=False):
    """The bytes of a message: with characters as they are, or with those beyond ASCII escaped."""
    body = json.dumps(message, ensure_ascii=is_ascii).encode("utf-8", "surrogatepass")
    return b"Content-Length: %d\r\n\r\n%b" % (len(body), body)


class Client:
    """A server, and all that it has said so far."""

    def __init__(self, tools, seconds=20):
        self.tools, self.seconds, self.offer, self.legend = tools, seconds, None, None
        self.errors = tempfile.TemporaryFile()
        self.process = subprocess.Popen([tools, "lsp"], stdin=subprocess.PIPE, stdout=subprocess.PIPE, stderr=self.errors, bufsize=0)
        self.to, self.out = self.process.stdin.fileno(), self.process.stdout.fileno()
        os.set_blocking(self.to, False)
        self.unsent, self.unread = bytearray(), bytearray()
        self.answers, self.published, self.others = {}, defaultdict(list), []
        self.count = self.versions = 0
        # The language and the version of each open document, and how many times each should have been published.
        self.opened, self.wanted = {}, defaultdict(int)
        self.is_over = self.is_shut = False

    def __enter__(self):
        return self

    def __exit__(self, *_):
        if self.process.poll() is None:
            self.process.kill()
        self.process.wait()
        self.process.stdout.close()
        self.errors.close()

    # What goes out and comes in.

    def send_bytes(self, data):
        self.unsent += data

    def send(self, message):
        self.count += 1
        self.send_bytes(framed({"jsonrpc": "2.0", **message}, self.count % 2 == 0))

    def take(self):
        """Takes the messages that are whole from what was read."""
        while True:
            head, mark, rest = self.unread.partition(b"\r\n\r\n")
            if not mark:
                return
            lengths = [found for found in map(LENGTH.fullmatch, bytes(head).split(b"\r\n")) if found]
            if len(lengths) != 1:
                raise Silence(f"no header: {bytes(head[:200])!r}")
            size = int(lengths[0][1])
            if len(rest) < size:
                return
            self.unread = rest[size:]
            self.keep(json.loads(bytes(rest[:size]).decode("utf-8")))

    def keep(self, message):
        if message.get("jsonrpc") != "2.0":
            raise Silence(f"no message of JSON-RPC 2.0: {message}")
        if "method" not in message:
            if ("result" in message) == ("error" in message) or message["id"] in self.answers:
                raise Silence(f"no answer, or a second one: {message}")
            self.answers[message["id"]] = message
        elif message["method"] == "textDocument/publishDiagnostics":
            self.published[message["params"]["uri"]].append(message["params"])
        else:
            self.others.append(message)

    def wait(self, is_there, what):
        """Sends and reads until something is there, or the server has ended."""
        until = time.monotonic() + self.seconds
        while not is_there():
            left = until - time.monotonic()
            if self.is_over or left <= 0:
                raise Silence(f"{what}: " + ("the server has ended" if self.is_over else f"nothing in {self.seconds} seconds"))
            writes = [self.to] if self.unsent else []
            readable, writable, _ = select.select([self.out], writes, [], left)
            if writable:
                self.write()
            if readable:
                self.read()

    def read(self):
        piece = os.read(self.out, PIECE)
        self.is_over = not piece
        self.unread += piece
        self.take()

    def write(self):
        try:
            del self.unsent[: os.write(self.to, self.unsent[:PIECE])]
        except BrokenPipeError:
            self.unsent.clear()

    # Requests and notifications.

    def ask(self, method, params=None):
        """The whole answer to a request."""
        self.count += 1
        number = self.count
        self.send({"id": number, "method": method, **({} if params is None else {"params": params})})
        return self.answer(number, method)

    def answer(self, number, what="an answer"):
        self.wait(lambda: number in self.answers, what)
        return self.answers[number]

    def request(self, method, params=None):
        """The result of a request; an error is raised."""
        answer = self.ask(method, params)
        if "error" in answer:
            raise Refusal(answer["error"])
        return answer["result"]

    def notify(self, method, params=None):
        self.send({"method": method, **({} if params is None else {"params": params})})

    def fence(self):
        """Waits until all that was sent is done: the server takes one message after the other."""
        self.ask("no/such/method")

    def initialize(self, capabilities=None):
        result = self.request("initialize", {"processId": os.getpid(), "rootUri": None, "capabilities": capabilities or {}})
        self.notify("initialized", {})
        self.offer = result
        self.legend = result["capabilities"]["semanticTokensProvider"]["legend"]
        return result

    # Documents.

    def expect(self, uri, language, is_judged):
        """Notes that a document is published now, and after a rule text that is opened, saved or closed each open scenario."""
        others = [it for it, (other, _) in self.opened.items() if other == "lcscenario" and language == "lcrules" and is_judged]
        for it in [uri, *others]:
            self.wanted[it] += 1

    def diagnostics(self, uri, count):
        """What is published of a document after `count` earlier times, with the version of the text that it has now."""
        self.wait(lambda: len(self.published[uri]) > count, f"diagnostics of {uri}")
        found = self.published[uri][-1]
        version = self.opened[uri][1] if uri in self.opened else None
        if found.get("version") != version or set(found) - {"version"} != {"uri", "diagnostics"}:
            raise Silence(f"diagnostics of {uri} of another form, or not of version {version}: {found}")
        return found["diagnostics"]

    def open(self, uri, language, text):
        self.versions += 1
        count, self.opened[uri] = len(self.published[uri]), (language, self.versions)
        self.expect(uri, language, True)
        document = {"uri": uri, "languageId": language, "version": self.versions, "text": text}
        self.notify("textDocument/didOpen", {"textDocument": document})
        return self.diagnostics(uri, count)

    def change(self, uri, changes):
        self.versions += 1
        language, count = self.opened[uri][0], len(self.published[uri])
        self.opened[uri] = (language, self.versions)
        self.expect(uri, language, False)
        self.notify("textDocument/didChange", {"textDocument": {"uri": uri, "version": self.versions}, "contentChanges": changes})
        return self.diagnostics(uri, count)

    def save(self, uri):
        count = len(self.published[uri])
        self.expect(uri, self.opened[uri][0], True)
        self.notify("textDocument/didSave", {"textDocument": {"uri": uri}})
        return self.diagnostics(uri, count)

    def close(self, uri):
        """Closes a document; its diagnostics are gone then."""
        count, (language, _) = len(self.published[uri]), self.opened.pop(uri)
        self.expect(uri, language, True)
        self.notify("textDocument/didClose", {"textDocument": {"uri": uri}})
        if found := self.diagnostics(uri, count):
            raise Silence(f"diagnostics of {uri}, which is closed: {found}")

    # The process.

    def processor_seconds(self):
        """The seconds of the processor that the server has taken; by the scheduler's own count, which is finer, where there is one."""
        try:
            with open(f"/proc/{self.process.pid}/schedstat", encoding="ascii") as file:
                return int(file.read().split()[0]) / 1e9
        except FileNotFoundError:
            with open(f"/proc/{self.process.pid}/stat", encoding="ascii") as file:
                fields = file.read().rpartition(")")[2].split()
            return (int(fields[11]) + int(fields[12])) / TICK

    def most_memory(self):
        """The most megabytes that the server has had in memory."""
        with open(f"/proc/{self.process.pid}/status", encoding="ascii") as file:
            return next(int(line.split()[1]) for line in file if line.startswith("VmHWM")) / 1024

    def end_input(self):
        """Sends what is left, ends the server's input, reads all, and returns its status."""
        self.wait(lambda: self.is_over or not self.unsent, "the server's input")
        self.process.stdin.close()
        while not self.is_over:
            if not select.select([self.out], [], [], self.seconds)[0]:
                raise Silence(f"the server goes on for {self.seconds} seconds after its input")
            self.read()
        return self.process.wait(self.seconds)

    def finish(self):
        """Ends the server as an editor does, and returns its status. It has published what it should, and sent nothing else."""
        self.request("shutdown")
        counts = {uri: len(it) for uri, it in self.published.items()}
        if counts != self.wanted or self.others:
            raise Silence(f"published so many times: {counts}, not {dict(self.wanted)}; and {self.others[:3]}")
        self.notify("exit")
        return self.end_input()

    def standard_error(self):
        self.errors.seek(0)
        return self.errors.read().decode("utf-8", "replace")
