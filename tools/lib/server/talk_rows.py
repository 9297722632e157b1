"""Whole talks with a server: the bytes that a client sends, what the server answers, and the status that it ends with."""

from dataclasses import dataclass, field

from client import framed

URI = "file:///bus.rules"
RULES = "packet BUS = mid 0x0883 length 16;\nfield VOLTS = BUS u16be at 12;\n"
DEPTH = 100_000
# How many bytes the header lines of a message may have, with the empty line, and its body.
LONGEST_HEADERS, LONGEST_BODY = 8_192, 67_108_864
# The errors: their numbers (JSON-RPC 2.0, "Error object"; LSP 3.17, "ErrorCodes") and sentences.
NOT_JSON = "-32700 the message is not JSON"
TOO_LONG = "-32700 a message has over 67,108,864 bytes"
NO_MESSAGE = "-32600 it is neither a request nor a notification"
TWICE = "-32600 the server is initialized already"
SHUT = "-32600 the server is shut down"
NO_METHOD = "-32601 the server has no such method"
NO_PARAMETERS = "-32602 the parameters are not those of the method"
NOT_OPEN = "-32602 the document is not open"
NEW = "-32002 the first request is `initialize`"


def message(**members):
    return framed({"jsonrpc": "2.0", **members}, is_ascii=True)


def request(number, method, params=None):
    return message(id=number, method=method, **({} if params is None else {"params": params}))


def note(method, params=None):
    return message(method=method, **({} if params is None else {"params": params}))


def body(data, size=None):
    """A body of any bytes, with its header."""
    return b"Content-Length: %d\r\n\r\n%b" % (len(data) if size is None else size, data)


def opened(text=RULES, uri=URI, version=1, language="lcrules"):
    return note("textDocument/didOpen", {"textDocument": {"uri": uri, "languageId": language, "version": version, "text": text}})


def changes(version, *parts, uri=URI):
    return note("textDocument/didChange", {"textDocument": {"uri": uri, "version": version}, "contentChanges": list(parts)})


def at(line, character, **more):
    return {"textDocument": {"uri": URI}, "position": {"line": line, "character": character}, **more}


HELLO = request(1, "initialize", {"processId": None, "rootUri": None, "capabilities": {}})
READY = note("initialized", {})
BYE = request(9, "shutdown")
EXIT = note("exit")
HOVER = request(2, "textDocument/hover", at(0, 8))
HOVER_BODY, BYE_BODY = (it.partition(b"\r\n\r\n")[2] for it in (HOVER, BYE))
START, TAIL = HELLO + READY, BYE + EXIT
DOCUMENT = {"textDocument": {"uri": URI}}
OPENED, SAVED, CLOSED = (note(f"textDocument/did{what}", DOCUMENT) for what in ("Open", "Save", "Close"))
NOTHING = {"start": {"line": 0, "character": 0}}
REQUEST = b'{"jsonrpc":"2.0","id":3,"method":"no/such","params":%b}'
DEEP = b"[" * DEPTH + b"]" * DEPTH
DEEP_OBJECT = b'{"a":' * DEPTH + b"1" + b"}" * DEPTH


@dataclass
class Talk:
    """What is sent, and what is answered: `ID ok`, `ID CODE SENTENCE` of an error, `diagnostics VERSION COUNT`; `|` parts what may come
    instead."""

    title: str
    sent: bytes
    answers: list = field(default_factory=list)
    status: int = 0


def spoiled(title, data, *answers):
    """Bytes between two messages; both messages are answered."""
    return Talk(title, START + data + HOVER + TAIL, ["1 ok", *answers, f"2 {NOT_OPEN}", "9 ok"])


def headed(title, header):
    """A request behind a header of its own, and another one."""
    sent = header.replace(b"SIZE", b"%d" % len(HOVER_BODY)) + HOVER_BODY
    return Talk(title, START + sent + HOVER + TAIL, ["1 ok", *2 * [f"2 {NOT_OPEN}"], "9 ok"])


def padded(size):
    """Header lines of this size, with the empty line."""
    front, end = b"Content-Length: %d\r\nContent-Type: " % len(HOVER_BODY), b"\r\n\r\n"
    return front + b"x" * (size - len(front) - len(end)) + end


def asked(title, method, params, answer):
    """A request about an open document of two lines."""
    return Talk(title, START + opened() + request(2, method, params) + TAIL, ["1 ok", "diagnostics 1 3", answer, "9 ok"])


LIFE = [
    Talk("a client that comes and goes", START + BYE + EXIT, ["1 ok", "9 ok"]),
    Talk("exit without shutdown", START + EXIT, ["1 ok"], 1),
    Talk("exit before all else", EXIT, [], 1),
    Talk("no byte", b"", [], 1),
    Talk("the input ends after shutdown", START + BYE, ["1 ok", "9 ok"]),
    Talk("the input ends without shutdown", START, ["1 ok"], 1),
    Talk("the input ends inside a header", HELLO + b"Content-Len", ["1 ok"], 1),
    Talk("the input ends inside a body", HELLO + BYE + EXIT[:-3], ["1 ok", "9 ok"], 0),
    Talk("nothing is read after exit", HELLO + BYE + EXIT + HOVER, ["1 ok", "9 ok"]),
    Talk("a request before initialize", HOVER + HELLO + BYE + EXIT, [f"2 {NEW}", "1 ok", "9 ok"]),
    Talk("shutdown before initialize", BYE + EXIT, [f"9 {NEW}"], 1),
    Talk("an unknown request before initialize", request(2, "no/such") + EXIT, [f"2 {NEW}"], 1),
    Talk("a document opened before initialize", opened() + HELLO + HOVER + TAIL, ["1 ok", f"2 {NOT_OPEN}", "9 ok"]),
    Talk("initialize twice", HELLO + request(2, "initialize", {"capabilities": {}}) + TAIL, ["1 ok", f"2 {TWICE}", "9 ok"]),
    Talk("no initialized", HELLO + opened() + TAIL, ["1 ok", "diagnostics 1 3", "9 ok"]),
    Talk("a request after shutdown", START + BYE + HOVER + EXIT, ["1 ok", "9 ok", f"2 {SHUT}"]),
    Talk(
        "initialize after shutdown",
        HELLO + BYE + request(2, "initialize", {"capabilities": {}}) + EXIT,
        ["1 ok", "9 ok", f"2 {SHUT}"],
    ),
    Talk("a document opened after shutdown", START + BYE + opened() + EXIT, ["1 ok", "9 ok"]),
    Talk("shutdown twice", START + BYE + request(10, "shutdown") + EXIT, ["1 ok", "9 ok", f"10 {SHUT}"]),
]

ERRORS = [
    Talk("an unknown method", START + request(2, "workspace/symbol", {"query": ""}) + TAIL, ["1 ok", f"2 {NO_METHOD}", "9 ok"]),
    Talk("an unknown method of the protocol", START + request(2, "$/more") + TAIL, ["1 ok", f"2 {NO_METHOD}", "9 ok"]),
    Talk("an unknown notification", START + note("$/setTrace", {"value": "off"}) + note("no/such", [1]) + TAIL, ["1 ok", "9 ok"]),
    Talk("a request is cancelled", START + HOVER + note("$/cancelRequest", {"id": 2}) + TAIL, ["1 ok", f"2 {NOT_OPEN}", "9 ok"]),
    Talk("an answer to nothing", START + message(id=77, result=None) + TAIL, ["1 ok", "9 ok"]),
    Talk("ids of several kinds", HELLO + request("a", "shutdown") + request(-4, "shutdown") + EXIT, ["1 ok", '"a" ok', f"-4 {SHUT}"]),
    Talk("a large id", START + request(2**31 - 1, "no/such") + TAIL, ["1 ok", f"2147483647 {NO_METHOD}", "9 ok"]),
    Talk(
        "a text as id, with signs",
        START + request('é"\n\U0001f600', "no/such") + TAIL,
        ["1 ok", '"é\\"\\n\U0001f600" ' + NO_METHOD, "9 ok"],
    ),
    asked("hover without parameters", "textDocument/hover", None, f"2 {NO_PARAMETERS}"),
    asked("hover with a list of parameters", "textDocument/hover", [1, 2], f"2 {NO_PARAMETERS}"),
    asked("hover without a position", "textDocument/hover", DOCUMENT, f"2 {NO_PARAMETERS}"),
    asked("hover without a document", "textDocument/hover", {"position": {"line": 0, "character": 0}}, f"2 {NO_PARAMETERS}"),
    asked("hover with a text as line", "textDocument/hover", at("0", 0), f"2 {NO_PARAMETERS}"),
    asked("hover with a negative line", "textDocument/hover", at(-1, 0), f"2 {NO_PARAMETERS}"),
    asked("hover with half a character", "textDocument/hover", at(0, 0.5), f"2 {NO_PARAMETERS}"),
    asked("hover with the URI of a number", "textDocument/hover", {**at(0, 0), "textDocument": {"uri": 7}}, f"2 {NO_PARAMETERS}"),
    asked("hover far beyond the end", "textDocument/hover", at(2**31 - 1, 2**31 - 1), "2 ok"),
    asked("hover beyond 32 bits", "textDocument/hover", at(2**32, 2**63), "2 ok"),
    asked("completion without a position", "textDocument/completion", DOCUMENT, f"2 {NO_PARAMETERS}"),
    asked("code actions without a range", "textDocument/codeAction", {**DOCUMENT, "context": {"diagnostics": []}}, f"2 {NO_PARAMETERS}"),
    asked("rename without a new name", "textDocument/rename", at(0, 8), f"2 {NO_PARAMETERS}"),
    asked("rename to a number", "textDocument/rename", at(0, 8, newName=7), f"2 {NO_PARAMETERS}"),
    asked("tokens without a range", "textDocument/semanticTokens/range", DOCUMENT, f"2 {NO_PARAMETERS}"),
    asked("tokens of half a range", "textDocument/semanticTokens/range", {**DOCUMENT, "range": NOTHING}, f"2 {NO_PARAMETERS}"),
    asked("formatting without a range", "textDocument/rangeFormatting", {**DOCUMENT, "options": {}}, f"2 {NO_PARAMETERS}"),
]

SPOILED = [
    spoiled("not JSON", body(b"{"), f"null {NOT_JSON}"),
    spoiled("an empty body", body(b""), f"null {NOT_JSON}"),
    spoiled("two values", body(b"{} {}"), f"null {NOT_JSON}"),
    spoiled("not UTF-8", body(b'{"jsonrpc":"2.0","id":3,"method":"\xff"}'), f"null {NOT_JSON}"),
    spoiled("a list", body(b"[]"), f"null {NO_MESSAGE}"),
    spoiled("a text", body(b'"hover"'), f"null {NO_MESSAGE}"),
    spoiled("an empty object", body(b"{}"), f"null {NO_MESSAGE}"),
    spoiled("a list as id", body(b'{"jsonrpc":"2.0","id":[],"method":"no/such"}'), f"null {NO_MESSAGE}"),
    spoiled("a number as method", body(b'{"jsonrpc":"2.0","id":3,"method":4}'), f"3 {NO_MESSAGE}|null {NO_MESSAGE}"),
    spoiled("deep lists", body(DEEP), f"null {NOT_JSON}|null {NO_MESSAGE}"),
    spoiled("deep objects", body(DEEP_OBJECT), f"null {NOT_JSON}|null {NO_MESSAGE}"),
    spoiled("deep parameters", body(REQUEST % DEEP), f"null {NOT_JSON}|3 {NO_METHOD}"),
    spoiled("lists that are not closed", body(b"[" * DEPTH), f"null {NOT_JSON}"),
    spoiled("a number of many digits", body(REQUEST % (b"[%b]" % (b"9" * 5000))), f"null {NOT_JSON}|3 {NO_METHOD}"),
    spoiled("bytes", b"\x00\xff\r\n:: \r\r\n"),
    spoiled("lines", b"GET / HTTP/1.1\r\nHost: here\r\n\r\n"),
    spoiled("empty lines", b"\r\n\r\n\r\n"),
    spoiled("many bytes", b"x" * 70_000 + b"\r\n"),
    spoiled("many empty lines", b"\r\n" * 20_000),
    spoiled("a length that is none", b"Content-Length: many\r\n\r\n"),
    spoiled("a length below 0", b"Content-Length: -5\r\n\r\n"),
    spoiled("no length", b"Content-Length:\r\n\r\n"),
    spoiled("a length of 2^64", b"Content-Length: 18446744073709551616\r\n\r\n", f"null {TOO_LONG}"),
    spoiled("a length of 1 TB", b"Content-Length: 1000000000000\r\n\r\n", f"null {TOO_LONG}"),
    spoiled("a length of many digits", b"Content-Length: %b\r\n\r\n" % (b"9" * 5000), f"null {TOO_LONG}"),
    spoiled("too short a length", body(HOVER_BODY, 9), f"null {NOT_JSON}"),
    spoiled("line feeds alone between header and body", b"Content-Length: 2\n\n{}"),
    spoiled("headers in front of a message", b"Content-Type: application/vscode-jsonrpc; charset=utf-8\r\n"),
    spoiled("one byte more than a body may have", b"Content-Length: %d\r\n\r\n" % (LONGEST_BODY + 1), f"null {TOO_LONG}"),
    # The input ends inside a body that is as long as it may be.
    Talk("as many bytes as a body may have", HELLO + BYE + b"Content-Length: %d\r\n\r\n{}" % LONGEST_BODY, ["1 ok", "9 ok"]),
    # Bytes in front of a header that is cut where they are as many as header lines may be.
    Talk(
        "as many bytes as header lines may have, less some",
        START + b"".join(b"x" * (LONGEST_HEADERS - it) + HOVER for it in range(24)) + TAIL,
        ["1 ok", *24 * [f"2 {NOT_OPEN}"], "9 ok"],
    ),
    spoiled("lines, as many bytes as header lines may have", b"x" * (LONGEST_HEADERS - 4) + b"\r\n\r\n"),
    headed("no blank before a length", b"Content-Length:SIZE\r\n\r\n"),
    headed("several blanks before a length", b"Content-Length:   SIZE\r\n\r\n"),
    headed("a blank behind a length", b"Content-Length: SIZE \r\n\r\n"),
    headed("zeros before a length", b"Content-Length: 000SIZE\r\n\r\n"),
    headed("a length of large letters", b"CONTENT-LENGTH: SIZE\r\n\r\n"),
    headed("two lengths, of which the last counts", b"Content-Length: 3\r\nContent-Length: SIZE\r\n\r\n"),
    headed("header lines as long as they may be", padded(LONGEST_HEADERS)),
    spoiled("header lines of a byte more", padded(LONGEST_HEADERS + 1) + HOVER_BODY),
    Talk(
        "a header after the length",
        HELLO.replace(b"\r\n\r\n", b"\r\nContent-Type: application/vscode-jsonrpc; charset=utf-8\r\n\r\n", 1) + TAIL,
        ["1 ok", "9 ok"],
    ),
    Talk("the header's name in small letters", HELLO.replace(b"Content-Length", b"content-length") + TAIL, ["1 ok", "9 ok"]),
    Talk("too long a length", HELLO + body(BYE_BODY, len(BYE_BODY) + 7) + HOVER + BYE + EXIT, ["1 ok", f"null {NOT_JSON}", "9 ok"]),
]

DOCUMENTS = [
    Talk("a change of an unknown document", START + changes(2, {"text": ""}) + TAIL, ["1 ok", "9 ok"]),
    Talk(
        "other notifications about an unknown document",
        START + SAVED + CLOSED + TAIL,
        ["1 ok", "9 ok"],
    ),
    Talk(
        "an older version",
        START + opened(version=7) + changes(3, {"text": "packet"}) + TAIL,
        ["1 ok", "diagnostics 7 3", "diagnostics 3 1", "9 ok"],
    ),
    Talk(
        "no version",
        START + opened(version=None) + changes(None, {"text": "packet"}) + TAIL,
        ["1 ok", "diagnostics - 3", "diagnostics - 1", "9 ok"],
    ),
    Talk(
        "changes that are none",
        START + opened("packet") + changes(2, {}, 7, {"text": 8}, {"range": NOTHING, "text": "x"}) + TAIL,
        ["1 ok", "diagnostics 1 1", "diagnostics 2 1", "9 ok"],
    ),
    Talk(
        "no change",
        START + opened() + changes(2) + TAIL,
        ["1 ok", "diagnostics 1 3", "diagnostics 2 0", "9 ok"],
    ),
    Talk(
        "opened, closed and opened again",
        START + opened("packet") + CLOSED + changes(3, {"text": ""}) + opened(version=8) + TAIL,
        ["1 ok", "diagnostics 1 1", "diagnostics - 0", "diagnostics 8 3", "9 ok"],
    ),
    Talk(
        "opened twice",
        START + opened("packet") + opened(version=2) + TAIL,
        ["1 ok", "diagnostics 1 1", "diagnostics 2 3", "9 ok"],
    ),
    Talk("a document without a text", START + OPENED + HOVER + TAIL, ["1 ok", f"2 {NOT_OPEN}", "9 ok"]),
    Talk("notifications without parameters", START + note("textDocument/didOpen") + note("textDocument/didChange") + TAIL, ["1 ok", "9 ok"]),
    Talk("an empty text", START + opened("") + TAIL, ["1 ok", "diagnostics 1 1", "9 ok"]),
    Talk("a text of 65,536 bytes", START + opened(" " * 65_536) + TAIL, ["1 ok", "diagnostics 1 1", "9 ok"]),
    Talk("a text of 65,537 bytes", START + opened(" " * 65_537) + TAIL, ["1 ok", "diagnostics 1 1", "9 ok"]),
    Talk("a text of 4,000,000 bytes", START + opened("# \u00e9\n" * 800_000) + TAIL, ["1 ok", "diagnostics 1 1", "9 ok"]),
    Talk("an URI with signs", START + opened(uri="untitled:\U0001f600 \"%20\\") + TAIL, ["1 ok", "diagnostics 1 3", "9 ok"]),
    Talk(
        "half of a pair of units",
        START + opened("# \ud83d\n") + HOVER + TAIL,
        ["1 ok", f"diagnostics 1 1|null {NOT_JSON}", f"2 ok|2 {NOT_OPEN}", "9 ok"],
    ),
]

TALKS = [*LIFE, *ERRORS, *SPOILED, *DOCUMENTS]
