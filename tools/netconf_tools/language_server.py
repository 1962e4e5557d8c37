"""A server of the Language Server Protocol, version 3.17, over standard input and output, with no library.

https://microsoft.github.io/language-server-protocol. Diagnostics are those of netconf-lint, over what the editor
holds. A place in the protocol counts from 0 and in units of UTF-16; before each token of a description stand letters
of ASCII alone, so that columns are the same in bytes."""

import contextlib
import json
import os
import queue
import threading
import urllib.parse
from collections.abc import Callable, Iterable
from typing import IO, Any

from netconf_tools.assistance import Assistance
from netconf_tools.expand import Description, Refused, described
from netconf_tools.findings import Finding, Note
from netconf_tools.text import Trouble
from netconf_tools.version import version

QUIET = 0.2
"""For how many seconds nothing may come before a text is checked: while somebody types it is not."""

MOST_HEADER, MOST_BODY = 4096, 1 << 26
"""How many bytes a line of a header and a message may have."""

SEVERITIES = {"error": 1, "warning": 2, "note": 3}
NOT_FOUND, BROKEN = -32601, -32603
"""The codes of a method that the server does not have, and of a failure in it."""

MALFORMED = (KeyError, IndexError, TypeError, ValueError, AttributeError)
"""What a message raises whose parts have other types than the protocol gives them. Of such a question the error is the
answer, and such a message that has no answer is passed over."""

CAPABILITIES = {
    "textDocumentSync": {"openClose": True, "change": 1, "save": True},
    "hoverProvider": True,
    "definitionProvider": True,
    "completionProvider": {"triggerCharacters": [" ", "."]},
}

Message = dict[str, Any]
"""A message of the protocol."""

Check = Callable[[Description], Iterable[Finding]]
"""What finds what is wrong with a description."""


def read_message(stream: IO[bytes]) -> Message | None:
    """The next message, or None at the end of the stream or where it has no form."""
    size = 0
    while line := stream.readline(MOST_HEADER):
        name, _, value = line.decode("ascii", "replace").partition(":")
        if name.lower() == "content-length" and value.strip().isdecimal():
            size = int(value.strip()[:12])
        elif not line.strip():
            break
    if not 0 < size <= MOST_BODY:
        return None
    try:
        message = json.loads(stream.read(size))
    except (ValueError, RecursionError):
        return None
    return message if isinstance(message, dict) else None


def write_message(stream: IO[bytes], message: Message) -> None:
    """Writes a message."""
    body = json.dumps({"jsonrpc": "2.0", **message}).encode()
    stream.write(b"Content-Length: %d\r\n\r\n%s" % (len(body), body))
    stream.flush()


def path_of(uri: str) -> str:
    """The path of a file that a URI names."""
    return urllib.parse.unquote(urllib.parse.urlparse(uri).path, errors="surrogateescape")


def uri_of(path: str) -> str:
    """The URI of a file."""
    return "file://" + urllib.parse.quote(os.path.abspath(path), errors="surrogateescape")


def span(line: int, column: int, width: int) -> Message:
    """A part of a line as the protocol has it."""
    first = max(column - 1, 0)
    return {"start": {"line": line - 1, "character": first}, "end": {"line": line - 1, "character": first + width}}


class Server:
    """The texts that an editor holds, and the answers to its questions."""

    def __init__(self, output: IO[bytes], check: Check) -> None:
        self.output, self.check = output, check
        self.texts: dict[str, str] = {}
        self.waiting: set[str] = set()
        """The texts that are to be checked."""
        self.shown: dict[str, set[str]] = {}
        """For each text the files for which diagnostics are shown."""
        self.is_down = False

    def handle(self, message: Message) -> bool:
        """Takes a message; returns false where the server is to end."""
        method, params = message.get("method"), message.get("params") or {}
        if method == "exit":
            return False
        if "id" in message and method is not None:
            self.answer(message["id"], str(method), params)
        elif method in (
            "textDocument/didOpen",
            "textDocument/didChange",
            "textDocument/didSave",
            "textDocument/didClose",
        ):
            with contextlib.suppress(*MALFORMED):
                self.change(str(method), params)
        return True

    def answer(self, number: object, method: str, params: Message) -> None:
        """Answers a question."""
        calls = {
            "textDocument/hover": self.hover,
            "textDocument/definition": self.definition,
            "textDocument/completion": self.completion,
            "initialize": self.initialize,
            "shutdown": self.shut_down,
        }
        if method not in calls:
            self.write({"id": number, "error": {"code": NOT_FOUND, "message": f"there is no method {method[:80]}"}})
            return
        try:
            result = calls[method](params)
        except (Trouble, *MALFORMED) as error:
            self.write({"id": number, "error": {"code": BROKEN, "message": str(error)[:400]}})
            return
        self.write({"id": number, "result": result})

    def write(self, message: Message) -> None:
        """Writes a message."""
        write_message(self.output, message)

    def initialize(self, params: Message) -> Message:
        """What the server offers."""
        return {"capabilities": CAPABILITIES, "serverInfo": {"name": "netconf-lsp", "version": version()}}

    def shut_down(self, params: Message) -> None:
        """The editor is about to end the server."""
        self.is_down = True

    def change(self, method: str, params: Message) -> None:
        """Takes the text of a document, or forgets it."""
        document = params.get("textDocument") or {}
        uri = str(document.get("uri", ""))
        changes = params.get("contentChanges") or [{}]
        text = document.get("text") if method.endswith("didOpen") else changes[-1].get("text")
        if method.endswith("didClose"):
            self.texts.pop(uri, None)
            self.waiting.discard(uri)
            self.publish(uri, {})
        elif isinstance(text, str):
            self.texts[uri] = text
            self.waiting.add(uri)
        elif uri in self.texts:
            self.waiting.add(uri)

    def description(self, uri: str) -> Description:
        """The description of a document as the editor holds it."""
        return described([(path_of(uri), self.texts[uri].encode("utf-8", "surrogateescape"))])

    def check_waiting(self) -> None:
        """Checks the texts that were changed, and shows what is found."""
        while self.waiting:
            uri = self.waiting.pop()
            try:
                findings = list(self.check(self.description(uri)))
            except Refused as refused:
                findings = refused.findings
            except Trouble as trouble:
                findings = [Finding(path_of(uri), 1, "error", "trouble", str(trouble))]
            by_file: dict[str, list[Message]] = {}
            for finding in findings:
                by_file.setdefault(uri if finding.file == path_of(uri) else uri_of(finding.file), []).append(
                    diagnostic(finding)
                )
            self.publish(uri, by_file)

    def publish(self, uri: str, by_file: dict[str, list[Message]]) -> None:
        """Shows the diagnostics of a text in its files, and clears those of others that were shown for it."""
        for other in {uri, *by_file, *self.shown.get(uri, set())}:
            params = {"uri": other, "diagnostics": by_file.get(other, [])}
            self.write({"method": "textDocument/publishDiagnostics", "params": params})
        self.shown[uri] = set(by_file)

    def place(self, params: Message) -> tuple[Description, Assistance, int] | None:
        """The description, the assistance and the place that a question is about, if there is such a place."""
        uri, position = params["textDocument"]["uri"], params["position"]
        try:
            description = self.description(uri)
        except Refused:
            return None
        at = description.offset(path_of(uri), position["line"] + 1, position["character"] + 1)
        return None if at is None else (description, Assistance(description), at)

    def hover(self, params: Message) -> Message | None:
        """What is shown at a place."""
        found = self.place(params)
        shown = found[1].hover(found[2]) if found else None
        if found is None or shown is None:
            return None
        (begin, end), text = shown
        first = found[0].place(begin)
        return {
            "contents": {"kind": "markdown", "value": f"```netconf\n{text}\n```"},
            "range": span(first.line, first.column, found[0].width(begin, end - begin)),
        }

    def definition(self, params: Message) -> Message | None:
        """Where what a place names is declared."""
        found = self.place(params)
        named = found[1].named(found[2]) if found else None
        if found is None or named is None:
            return None
        place = found[0].place(named.declared_at)
        uri = params["textDocument"]["uri"]
        return {
            "uri": uri if place.file == path_of(uri) else uri_of(place.file),
            "range": span(place.line, place.column, 0),
        }

    def completion(self, params: Message) -> list[Message]:
        """The words that may stand at a place."""
        found = self.place(params)
        return [{"label": word} for word in found[1].completions(found[2])] if found else []


def diagnostic(finding: Finding) -> Message:
    """A finding as the protocol has it."""
    related = [
        {"location": {"uri": uri_of(note.file), "range": range_of(note)}, "message": note.message}
        for note in finding.notes
    ]
    return {
        "range": range_of(finding),
        "severity": SEVERITIES[finding.severity],
        "code": finding.rule,
        "source": "netconf",
        "message": finding.message,
        "relatedInformation": related,
    }


def range_of(place: Finding | Note) -> Message:
    """The part of a file that a finding or a note is about."""
    return span(place.line, place.column, place.width if place.column else 0)


def serve(source: IO[bytes], output: IO[bytes], check: Check) -> int:
    """Serves an editor until it says that the server is to end; the status is 0 if it announced that before."""
    messages: queue.Queue[Message | None] = queue.Queue()

    def read() -> None:
        """Takes messages while they come."""
        while message := read_message(source):
            messages.put(message)
        messages.put(None)

    threading.Thread(target=read, daemon=True).start()
    server = Server(output, check)
    while True:
        try:
            message = messages.get(timeout=QUIET if server.waiting else None)
        except queue.Empty:
            server.check_waiting()
            continue
        if message is None or not server.handle(message):
            return 0 if server.is_down else 1
