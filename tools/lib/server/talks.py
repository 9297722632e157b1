"""Tries the talks of talk_rows.py: each with a server of its own."""

import json
import subprocess

from talk_rows import HELLO, HOVER, READY, TAIL, TALKS, opened

SECONDS = 20


def messages(out):
    """The messages that a server wrote; a text where the bytes are none."""
    while out:
        head, _, rest = out.partition(b"\r\n\r\n")
        name, _, size = head.partition(b": ")
        if name != b"Content-Length" or not size.isdigit() or len(rest) < int(size):
            yield f"no message: {out[:100]!r}"
            return
        yield json.loads(rest[: int(size)].decode("utf-8"))
        out = rest[int(size) :]


def summary(message):
    """A message in a few words: `ID ok`, `ID CODE SENTENCE`, or `diagnostics VERSION COUNT`."""
    if isinstance(message, str):
        return message
    if message.get("jsonrpc") != "2.0":
        return f"not JSON-RPC 2.0: {message}"
    if "method" in message:
        params = message["params"]
        return f"diagnostics {params.get('version', '-')} {len(params['diagnostics'])}"
    said = "ok" if "result" in message else f"{message['error']['code']} {message['error']['message']}"
    return f"{json.dumps(message['id'], ensure_ascii=False)} {said}"


def faults_of_uris(talk, sent):
    """What is published is of a document that was opened."""
    uris = {it["params"]["uri"] for it in sent if isinstance(it, dict) and "params" in it}
    yield from (f"{talk.title}: the URI {it}" for it in uris if json.dumps(it).encode() not in talk.sent)


def is_met(answers, found):
    return len(answers) == len(found) and all(it in answer.split("|") for answer, it in zip(answers, found))


def faults_of_talk(program, talk):
    try:
        ran = subprocess.run([program, "lsp", "--stdio"], input=talk.sent, capture_output=True, timeout=SECONDS)
    except subprocess.TimeoutExpired:
        yield f"{talk.title}: the server goes on for {SECONDS} seconds"
        return
    sent = list(messages(ran.stdout))
    yield from faults_of_uris(talk, sent)
    found = [summary(it) for it in sent]
    if not is_met(talk.answers, found):
        yield f"{talk.title}: {found}, not {talk.answers}"
    if ran.returncode != talk.status:
        yield f"{talk.title}: status {ran.returncode}, not {talk.status}"
    if ran.stderr:
        yield f"{talk.title}: on standard error stands {ran.stderr[:200]!r}"


def faults_of_pieces(program):
    """Bytes that come one by one are answered as those that come at once."""
    sent = HELLO + READY + opened("# \U0001f600") + HOVER + TAIL
    whole = subprocess.run([program, "lsp"], input=sent, stdout=subprocess.PIPE, timeout=SECONDS)
    with subprocess.Popen([program, "lsp"], stdin=subprocess.PIPE, stdout=subprocess.PIPE, bufsize=0) as server:
        for at in range(len(sent)):
            server.stdin.write(sent[at : at + 1])
        server.stdin.close()
        found = server.stdout.read()
    if (found, server.returncode) != (whole.stdout, 0) or not found:
        yield f"bytes one by one: {found!r} with status {server.returncode}, not {whole.stdout!r}"


def faults_of_ends(program):
    """A server whose reader has gone ends, and so does one whose output takes nothing."""
    with subprocess.Popen([program, "lsp"], stdin=subprocess.PIPE, stdout=subprocess.PIPE, stderr=subprocess.PIPE) as server:
        server.stdout.close()
        server.stdin.write(HELLO)
        server.stdin.flush()
        try:
            status = server.wait(SECONDS)
        except subprocess.TimeoutExpired:
            server.kill()
            status = "no end"
        if status or server.stderr.read():
            yield f"a reader that has gone: status {status}"
    with open("/dev/full", "wb") as full:
        ran = subprocess.run([program, "lsp"], input=HELLO, stdout=full, stderr=subprocess.PIPE, timeout=SECONDS)
    if (ran.returncode, ran.stderr) != (3, b"cannot use standard output: the device is full\n"):
        yield f"a full device: status {ran.returncode}, {ran.stderr!r}"


def faults_of_talks(program):
    yield from faults_of_ends(program)
    yield from faults_of_pieces(program)
    for talk in TALKS:
        yield from faults_of_talk(program, talk)
    print(f"{len(TALKS)} talks")
