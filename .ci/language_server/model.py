"""What `filgordd lsp` has to write for what it reads, as the crates lsp_server, client_texts and
session_workspace define it. Faults are those that the same program's `expand --json` tells."""
import json
import subprocess

import frames
import texts

NO_JSON = -32700, "no JSON"
INVALID_REQUEST = -32600, "no request, or not wanted now"
NOT_INITIALIZED = -32002, "not initialized"
UNKNOWN_METHOD = -32601, "unknown method"
INVALID_PARAMS = -32602, "parameters of another form, or no such document"
# What the server's line on standard error says, by why it ends.
NOT_SHUT = "the client did not ask to shut down"
BAD_HEAD = "the head of a message says no length, or one above 256 MB"

CAPABILITIES = {
    "serverInfo": {"name": "filgordd", "version": "0.1.0"},
    "capabilities": {
        "positionEncoding": "utf-16",
        "textDocumentSync": {"openClose": True, "change": 2},
        "hoverProvider": True,
        "definitionProvider": True,
        "documentSymbolProvider": True,
        "codeActionProvider": {"codeActionKinds": ["refactor.inline"]},
    },
}
REFUSALS = {
    "out of memory": "Memory",
    "too many tokens": "Tokens",
    "too many definitions": "Numbers",
}


# ---- members of parameters; None where there is none of the wanted form


def member(value, name):
    return value.get(name) if isinstance(value, dict) else None


def text_at(value, name):
    found = member(value, name)
    return found if isinstance(found, str) else None


def number_at(value, name, least, most):
    found = member(value, name)
    is_number = isinstance(found, int) and not isinstance(found, bool)
    return found if is_number and least <= found <= most else None


def place_at(value, name):
    place = member(value, name)
    line, column = (number_at(place, it, 0, 2**64 - 1) for it in ("line", "character"))
    return None if None in (line, column) else (line, column)


# The place that parameters of a question are about.
def place_asked(method, params):
    if method == ACTIONS:
        return place_at(member(params, "range"), "start")
    return place_at(params, "position")


# How many steps parameters ask for at most: a number, or none. None for another form.
def limit_of(params):
    if "limit" not in params:
        return ()
    limit = number_at(params, "limit", 0, 2**64 - 1)
    return None if limit is None else (limit,)


def uri_of(params):
    return text_at(member(params, "textDocument"), "uri")


def version_of(params):
    return number_at(member(params, "textDocument"), "version", -(2**63), 2**63 - 1)


# A change: its two places, or None where it is a whole text, and the new text.
def change_of(value):
    new = text_at(value, "text")
    if new is None or "range" not in value:
        return new if new is None else (None, new)
    places = place_at(value["range"], "start"), place_at(value["range"], "end")
    return None if None in places else (places, new)


def changes_in(params):
    values = member(params, "contentChanges")
    changes = [change_of(it) for it in values] if isinstance(values, list) else [None]
    return None if None in changes else changes


# ---- what is wrong with texts


class Differ(Exception):
    """The program tells of one place in two ways."""


class Program:
    """The program, with options for texts. It tells of each text once."""

    def __init__(self, path, options=()):
        self.path, self.options, self.replies = path, list(options), {}

    # What `expand --json` tells of a text. A byte order mark and a `#!` line are code to a server,
    # since an editor sends no file. A line in front keeps them from being taken for a file's.
    def reply(self, text):
        if text not in self.replies:
            words = [self.path, "expand", "--json", *self.options]
            ran = subprocess.run(words, input=f"\n{text}".encode(), capture_output=True)
            self.replies[text] = json.loads(ran.stdout)
        return self.replies[text]

    # What `expand` prints of the call at a place alone, laid out, and what it says of it.
    def call_at(self, text, at):
        line, column = text[:at].count("\n") + 2, at - text[:at].rfind("\n")
        words = [self.path, "expand", "--layout", *self.options, "--", f"-:{line}:{column}"]
        ran = subprocess.run(words, input=f"\n{text}".encode(), capture_output=True)
        told = ran.stderr.decode().splitlines()
        return ran.stdout.decode(), [it.split(": ", 1)[1] for it in told if it.startswith("line ")]

    # The lines that `trace --json` writes of the call at a place, in the program's own places.
    def steps_at(self, text, at, limit):
        line, column = text[:at].count("\n") + 2, at - text[:at].rfind("\n")
        most = ["--to", str(*limit)] if limit else []
        words = [self.path, "trace", "--json", *self.options, *most, "--", f"-:{line}:{column}"]
        ran = subprocess.run(words, input=f"\n{text}".encode(), capture_output=True)
        return [line_up(json.loads(it)) for it in ran.stdout.splitlines()]

    def can_read(self, text):
        return self.reply(text)["answer"] == "expansion"

    def diagnostics(self, text):
        reply = self.reply(text)
        if reply["answer"] == "refused":
            code, words = REFUSALS[reply["message"]], reply["message"]
            return [diagnostic(texts.range_of(text, 0, 0), 1, code, words)]
        if reply["answer"] == "unread":
            return [diagnostic(fault_range(text, reply["at"]), 1, reply["kind"], reply["message"])]
        shown = [it for it in reply["faults"] if it["kind"] != "NestedDefinition"]
        return [
            diagnostic(fault_range(text, it["at"]), 2, it["kind"], it["message"]) for it in shown
        ]


# A value that tells of a text behind a line feed, as one that tells of the text: its places, and
# origins in it, are a byte and a line up.
def line_up(value):
    if isinstance(value, list):
        return [line_up(it) for it in value]
    if not isinstance(value, dict):
        return value
    if set(value) == {"bytes", "start", "end"}:
        places = {it: [value[it][0] - 1, value[it][1]] for it in ("start", "end")}
        return {"bytes": [it - 1 for it in value["bytes"]], **places}
    found = {name: line_up(it) for name, it in value.items()}
    if "origins" in value:
        found["origins"] = origins_up(value["origins"])
    return found


def origins_up(numbers):
    up = []
    for text, start, end in zip(*[iter(numbers)] * 3):
        up += [text, start - 1, end - 1] if text == 0 else [text, start, end]
    return up


# Where a fault is in a text that was expanded behind a line feed: its bytes and its lines agree.
def fault_range(text, at):
    start, end = (texts.index_of_byte(text, max(byte - 1, 0)) for byte in at["bytes"])
    found = texts.range_of(text, start, end)
    for name, (line, column) in (("start", at["start"]), ("end", at["end"])):
        if found[name] != {"line": line - 1, "character": column}:
            raise Differ(f"the bytes and the lines of a fault: {at} in {text!r}")
    return found


def diagnostic(where, severity, code, words):
    return {
        "range": where,
        "severity": severity,
        "source": "filgordd",
        "code": code,
        "message": words,
    }


# ---- answers about a text


def symbol(text, it):
    return {
        "name": it.name.name,
        "detail": it.word,
        "kind": 12,
        "range": texts.range_of(text, it.piece[0].start, it.piece[-1].end),
        "selectionRange": texts.range_of(text, it.name.start, it.name.end),
    }


def symbols(program, uri, text, place):
    if not program.can_read(text):
        return []
    return [symbol(text, it) for it in texts.definitions(texts.trees_of(text))]


def definition(program, uri, text, place):
    if not program.can_read(text):
        return None
    trees = texts.trees_of(text)
    call = texts.call_around(trees, texts.index_of(text, *place))
    if not call:
        return None
    found = texts.definition_before(trees, call.start, call.name)
    return place_of_name(uri, text, found.name) if found else elsewhere(program, call.name)


def place_of_name(uri, text, name):
    return {"uri": uri, "range": texts.range_of(text, name.start, name.end)}


# The last definition of this name in the file that is handed over beside the texts.
def elsewhere(program, name):
    if "--with" not in program.options:
        return None
    path = program.options[program.options.index("--with") + 1]
    with open(path, encoding="utf-8") as file:
        text = file.read()
    found = [it.name for it in texts.definitions(texts.trees_of(text)) if it.name.name == name]
    return place_of_name(f"file://{path}", text, found[-1]) if found else None


class Around:
    """A range in which a place is."""

    def __init__(self, place):
        self.place = place

    def __eq__(self, other):
        places = [other["start"], self.place, other["end"]]
        return places == sorted(places, key=lambda it: (it["line"], it["character"]))

    def __repr__(self):
        return f"a range around {self.place}"


class Name:
    """A name of a macro."""

    def __eq__(self, other):
        return isinstance(other, str) and other != ""

    def __repr__(self):
        return "a name"


class Why:
    """Why a call stays: in these words, or in those for a call whose fault may be excused."""

    EXCUSED = "no definition of this macro is known here, or no rule of it fits"

    def __init__(self, words, behind=""):
        self.words, self.behind = words, behind

    def __eq__(self, other):
        found = isinstance(other, str) and other.removesuffix(self.behind)
        is_excused = found == self.EXCUSED and self.words in WITHOUT_FAULT
        return other == self.words + self.behind or (is_excused and other == found + self.behind)

    def __repr__(self):
        return self.words + self.behind


# What `expand` says of a call that may have no fault.
WITHOUT_FAULT = ("no definition of this macro is known here", "no rule matches this call")


# What comes of the call at a place, laid out, or None, and why it stays, or None.
def called(program, text, place):
    return called_at(program, text, texts.index_of(text, *place))


def called_at(program, text, at):
    if at is None or not program.can_read(text):
        return None, None
    laid, told = program.call_at(text, at)
    if laid or not told:
        return laid, None
    return None, None if told[0] == "no call is here" else told[0]


# Where what is at a place of a text was in an earlier one, if it was there.
def index_before(earlier, text, place):
    at = texts.index_of(text, *place)
    if earlier.startswith(text[:at]):
        return at
    behind = text[at:]
    return len(earlier) - len(behind) if earlier.endswith(behind) else None


# What is said behind a hover, and in front of an expansion, that is of an earlier text.
EARLIER_HOVER = "\n\nAs of the last text that could be read."
EARLIER_EXPANSION = "// as of the last text that could be read\n"


def hover(program, uri, text, place, earlier=None):
    if earlier is not None:
        return earlier_hover(program, text, place, earlier)
    laid, why = called(program, text, place)
    if laid is None and why is None:
        return None
    shown = Why(why) if laid is None else f"```rust\n{laid}\n```"
    around = Around(texts.place_of(text, texts.index_of(text, *place)))
    return {"contents": {"kind": "markdown", "value": shown}, "range": around}


def earlier_hover(program, text, place, earlier):
    laid, why = called_at(program, earlier, index_before(earlier, text, place))
    if laid is None and why is None:
        return None
    block = f"```rust\n{laid}\n```{EARLIER_HOVER}"
    shown = Why(why, EARLIER_HOVER) if laid is None else block
    return {"contents": {"kind": "markdown", "value": shown}}


def expansion(program, uri, text, place, earlier=None):
    if earlier is None:
        front, (laid, _why) = "", called(program, text, place)
    else:
        at = index_before(earlier, text, place)
        front, (laid, _why) = EARLIER_EXPANSION, called_at(program, earlier, at)
    return None if laid is None else {"name": Name(), "expansion": front + laid}


# What may be done at a place: a call that gives tokens may be replaced by them.
def actions(program, uri, text, place):
    laid, _why = called(program, text, place)
    if not laid:
        return []
    around = Around(texts.place_of(text, texts.index_of(text, *place)))
    edit = {"changes": {uri: [{"range": around, "newText": laid}]}}
    title = "Replace this call by its tokens"
    return [{"title": title, "kind": "refactor.inline", "edit": edit}]


# The lines that tell of the steps of the call at a place, if one is there.
def steps(program, uri, text, place, limit=()):
    lines = program.steps_at(text, texts.index_of(text, *place), limit)
    return lines if len(lines) > 1 else None


HOVER, EXPANSION = "textDocument/hover", "rust-analyzer/expandMacro"
SYMBOLS, DEFINITION = "textDocument/documentSymbol", "textDocument/definition"
ACTIONS, STEPS = "textDocument/codeAction", "filgordd/trace"
# Which answer each question gets: a new one has its function here.
ANSWERS = {
    SYMBOLS: symbols,
    DEFINITION: definition,
    HOVER: hover,
    EXPANSION: expansion,
    ACTIONS: actions,
    STEPS: steps,
}


# ---- the server


def response(id, result):
    return {"jsonrpc": "2.0", "id": id, "result": result}


def failure(id, error):
    return {"jsonrpc": "2.0", "id": id, "error": {"code": error[0], "message": error[1]}}


def published(params):
    return {"jsonrpc": "2.0", "method": "textDocument/publishDiagnostics", "params": params}


class Server:
    """A server: its phase is new, open, shut or ended. Of each text it has the version too, and of
    one that cannot be read the last that could be."""

    def __init__(self, program, is_quiet=False):
        self.program, self.is_quiet = program, is_quiet
        self.phase, self.has_asked, self.documents, self.earlier = "new", False, {}, {}

    # The messages that go for a body.
    def take(self, body):
        try:
            message = frames.read(body)
        except frames.NoJson:
            return [failure(None, NO_JSON)]
        is_object = isinstance(message, dict)
        if is_object and "method" in message and "id" in message:
            return [self.answer(message["id"], text_at(message, "method"), message.get("params"))]
        if is_object and "method" in message:
            return self.take_note(text_at(message, "method"), message.get("params"))
        return [] if is_object and "id" in message else [failure(None, INVALID_REQUEST)]

    # With which error a request is refused.
    def refused(self, method):
        if self.phase == "new":
            return None if method == "initialize" else NOT_INITIALIZED
        if self.phase == "shut" or method in ("initialize", None):
            return INVALID_REQUEST
        return None if method in ANSWERS or method == "shutdown" else UNKNOWN_METHOD

    def answer(self, id, method, params):
        error = self.refused(method)
        if error:
            return failure(id, error)
        if method == "initialize":
            self.phase = "open"
            return response(id, CAPABILITIES)
        if method == "shutdown":
            self.phase, self.has_asked = "shut", True
            return response(id, None)
        return self.answer_about(id, method, params)

    def answer_about(self, id, method, params):
        uri, place = uri_of(params), place_asked(method, params)
        if uri not in self.documents or (place is None and method != SYMBOLS):
            return failure(id, INVALID_PARAMS)
        limit = limit_of(params) if method == STEPS else ()
        if limit is None:
            return failure(id, INVALID_PARAMS)
        text, _version = self.documents[uri]
        more = [limit] if method == STEPS else []
        more += [self.earlier.get(uri)] if method in (HOVER, EXPANSION) else []
        return response(id, ANSWERS[method](self.program, uri, text, place, *more))

    def take_note(self, method, params):
        if method == "exit":
            self.phase = "ended"
        if self.phase != "open" or uri_of(params) is None:
            return []
        notes = {
            "textDocument/didOpen": self.opened,
            "textDocument/didChange": self.edited,
            "textDocument/didClose": self.closed,
        }
        return notes[method](uri_of(params), version_of(params), params) if method in notes else []

    def opened(self, uri, version, params):
        text = text_at(params["textDocument"], "text")
        if None in (version, text):
            return []
        self.earlier.pop(uri, None)
        return self.publish(uri, version, text)

    def edited(self, uri, version, params):
        changes = changes_in(params)
        if None in (version, changes) or uri not in self.documents:
            return []
        before, _version = self.documents[uri]
        text = before
        for places, new in changes:
            text = texts.changed(text, places, new)
        self.keep(uri, before, text)
        return self.publish(uri, version, text)

    # Keeps the last text that could be read, as long as none can be. Where no faults are told, none
    # is kept.
    def keep(self, uri, before, text):
        if self.is_quiet or self.program.can_read(text):
            self.earlier.pop(uri, None)
        elif self.program.can_read(before):
            self.earlier[uri] = before

    def closed(self, uri, _version, _params):
        self.documents.pop(uri, None)
        self.earlier.pop(uri, None)
        return [published({"uri": uri, "diagnostics": []})]

    # A text becomes another, of which the client is told.
    def publish(self, uri, version, text):
        self.documents[uri] = text, version
        if self.is_quiet:
            return []
        found = self.program.diagnostics(text)
        return [published({"uri": uri, "version": version, "diagnostics": found})]


class Run:
    """A run over a whole stream: what goes for each body, the status, and why it ends."""

    def __init__(self, server, stream):
        self.server, self.turns, self.why = server, [], None
        try:
            self.serve(stream)
        except frames.Broken:
            self.why = BAD_HEAD
        else:
            self.why = None if server.has_asked else NOT_SHUT
        self.status = 0 if self.why is None else 1

    def serve(self, stream):
        body, rest = frames.first_body(stream)
        while body is not None:
            self.turns.append((body, self.server.take(body)))
            if self.server.phase == "ended":
                return
            body, rest = frames.first_body(rest)
