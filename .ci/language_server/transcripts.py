"""Random transcripts of a client: what it sends, and how that is cut into pieces."""
import json
import re

import frames
import model
import texts

URIS = ["file:///a.rs", "file:///b%20c.rs", "untitled:ü 𝕏", ""]
# What keeps brackets and quotes in order, mostly.
WHOLE = [
    "macro_rules! swap { ($a:tt $b:tt) => { $b $a } }\n",
    "macro_rules! one { (1) => { 1 }; ($x:ident) => { swap!($x 1) } }\r\n",
    "macro_rules! again { () => { again!() } }\r",
    "macro_rules! bad { () }\n",
    "macro_rules! makes { ($n:ident) => { macro_rules! $n { () => { 2 } } } }\n",
    "/// of 𝕏 and é\r\n#[a] macro_rules! été (($x:expr) => { $x });\n",
    "pub(crate) macro 𝕏y($x:ident) { $x }\n",
    "macro e\u0301n { (a) => { b } }\n",
    "macro_rules! r#try { ($a:ident) => { $a } } try!(x); r#try!(1);\n",
    "//! inner ü\r#![b]\n",
    "swap!(p q);\n",
    "swap!{ 𝕏 \"é\u0301\" }\r\n",
    "/* 🦀 */ swap!(1);",
    "one!(1); one!(2); one!(z);\n",
    "fn f<'a>(x: &'a u8) { one!(q); swap!(x) }\n",
    "mod m { macro_rules! one { () => { 3 } } one!(); one!(1) }\n",
    "fn g() { macro_rules! swap { ($a:ident) => { $a } } swap!(x); { swap!(1) } }\n",
    "again!();\n",
    "makes!(late); late!();\n",
    "été!(1 +); été![2];\n",
    "unknown! { swap!(c) }\n",
    "'x' '🦀' b'y' 'ab' r#\"a\"b\"# \"s\\\"\" 1.0e5u8\n",
    "\u2028 \x85 \x0b\x0c",
    "x",
    "é",
    "e\u0301",
    "𝕏",
    " ",
    "\n",
    "\r\n",
    "\r",
    "",
]
# What breaks a text, often.
WILD = ["(", ")", "[", "]", "{", "}", "\"", "'", "/*", "*/", "//", "#", "🦀", "\0", "\\", "r#", "$"]
# Bodies that are no message.
NONE = [
    b"",
    b"{",
    b"nul",
    b"3",
    b'"x"',
    b"null",
    b"[]",
    b'[{"jsonrpc":"2.0","id":1,"method":"shutdown"}]',
    b"{}",
    b'{"jsonrpc":"2.0"}',
    b'{"jsonrpc":"2.0","params":{}}',
    b'{"id":1,"method":"shutdown",}',
    b'{"id":1e999,"method":"x"}',
    b'{"id":NaN,"method":"x"}',
    b'{"id":"\\ud800","method":"x"}',
    b'{"id":"\xff","method":"x"}',
    b'\xef\xbb\xbf{"id":1,"method":"x"}',
    b'{"id":1,"method":"x"} 2',
    b'{"id":"\n","method":"x"}',
    b"[" * 127 + b"]" * 127,
    b"[" * 128 + b"]" * 128,
]
# Messages that are read, and mean little.
ODD = [
    b'{"id":7}',
    b'{"id":null,"result":1}',
    b' {"jsonrpc":"2.0","id":1,"method":5} ',
    b'{"id":1,"method":null}',
    b'{"method":["x"]}',
    b'{"id":1,"id":2,"method":"x","method":"y"}',
    b'{"id":"\\ud83e\\udd80","method":"x"}',
    b'{"id":-0,"method":"x"}',
    b'{"id":18446744073709551616,"method":"x"}',
    b'{"id":18446744073709551615,"method":"x"}',
    b'{"id":-9223372036854775808,"method":"x"}',
    b'{"id":1e2,"method":"x"}',
    b'{"id":' + b"[" * 126 + b"]" * 126 + b',"method":"x"}',
]
IDS = [None, True, "", "a", "é𝕏\"\\\n", 0.5, -1.25, 1.0, 1e300, [1, {"b": 2}], {}, -3]
UNKNOWN = ["x", "", "$/progress", "textDocument/didSave", "Initialize", "initialize", "exit"]
QUIET = ["initialized", "$/cancelRequest", "$/setTrace", "x", "", "textDocument/hover", "shutdown"]
# What is no position, or far from each text.
FAR = [{"line": 9**9, "character": 0}, {"line": 0, "character": 2**64 - 1}]
BAD_PLACES = [None, {}, {"line": -1, "character": 0}, {"line": 0.0, "character": 0}, {"line": "0"}]
HEADS = [
    b"Content-Length: %d\r\n",
    b"content-length:%d\r\n",
    b"CONTENT-LENGTH:   00%d\r\n",
    b"Content-Type: application/vscode-jsonrpc; charset=utf-8\r\nContent-Length: %d\r\n",
    b"Content-Length: %d\r\nContent-Type: x\r\nContent-Length: 1\r\n",
    b"x\nContent-Length: %d\r\n",
]


class Client:
    """A client that knows of a model's texts what it needs for places in them."""

    def __init__(self, random, server):
        self.random, self.server, self.count = random, server, 0
        self.pick = random.choice

    def is_likely(self, percent):
        return self.random.randrange(100) < percent

    # ---- messages

    def sent(self, **message):
        how = {"ensure_ascii": self.is_likely(50), "indent": self.pick([None, 1])}
        return json.dumps({"jsonrpc": "2.0", **message}, **how).encode()

    def id(self):
        self.count += 1
        return self.pick(IDS) if self.is_likely(20) else self.count

    def request(self, method, params=None):
        more = {} if params is None and self.is_likely(50) else {"params": params}
        return self.sent(id=self.id(), method=method, **more)

    def note(self, method, params=None):
        more = {} if params is None and self.is_likely(50) else {"params": params}
        return self.sent(method=method, **more)

    # ---- texts

    def uri(self):
        opened = list(self.server.documents)
        return self.pick(opened if opened and self.is_likely(90) else URIS)

    def bit(self):
        return self.pick(WHOLE if self.is_likely(85) else WILD)

    # Definitions and calls of them, or anything.
    def new_text(self):
        begin = self.random.sample(WHOLE[:8], 6) if self.is_likely(60) else []
        more = self.random.choices(WHOLE, k=self.random.randrange(12))
        return "".join([*begin, *more, self.pick(["", "x", "// 𝕏", "swap!(q)"])])

    def version(self):
        self.count += 1
        return self.pick([2**53, -1, 0]) if self.is_likely(10) else self.count

    # A place of a text: between lines or trees, or anywhere, or none in it.
    def place(self, text, near=None):
        if self.is_likely(5):
            return self.pick([*FAR, {"line": len(texts.line_starts(text)), "character": 0}])
        if self.is_likely(5):
            return self.place_in_pair(text)
        gaps = [it.end() for it in re.finditer(r"\A|[\r\n;}]|\b(?=\w+!)", text)]
        at = self.pick(gaps) if self.is_likely(60) else self.random.randint(0, len(text))
        if near is not None:
            at = max(0, min(near + self.random.randint(-3, 6), len(text)))
        place = texts.place_of(text, at)
        if self.is_likely(8):
            place["character"] += self.pick([1, 1, 5, 1000])
        return place

    # The place within a surrogate pair, if the text has one.
    def place_in_pair(self, text):
        wide = [i for i, it in enumerate(text) if texts.units(it) == 2]
        place = texts.place_of(text, self.pick(wide or [0]))
        return {**place, "character": place["character"] + 1}

    def range(self, text):
        start = self.place(text)
        near = texts.index_of(text, start["line"], start["character"])
        end = dict(start) if self.is_likely(60) else self.place(text, near)
        return {"start": start, "end": end}

    # A change of a text, and the text behind it.
    def change(self, text):
        if self.is_likely(10):
            new = self.new_text()
            return {"text": new}, new
        value = {"text": self.bit(), "range": self.range(text)}
        if self.is_likely(50):
            value["rangeLength"] = self.random.randrange(9)
        places, new = model.change_of(value)
        if self.is_likely(5):
            value["text"] = new = "q" * (len(text) - len(texts.changed(text, places, "")))
        return value, texts.changed(text, places, new)

    # ---- what it tells

    def opening(self):
        uri = self.pick(URIS)
        text = {"uri": uri, "languageId": "rust", "version": self.version()}
        if self.is_likely(96):
            text["text"] = self.new_text()
        return self.note("textDocument/didOpen", {"textDocument": text})

    def edit(self):
        uri = self.uri()
        text, _version = self.server.documents.get(uri, ("", 0))
        changes = []
        for _ in range(self.pick([0, 1, 1, 1, 2, 5])):
            value, text = self.change(text)
            changes.append(value)
        if self.is_likely(3):
            changes.append(self.pick([{}, {"text": 1}, {"text": "a", "range": {}}, None]))
        return self.changing(uri, changes)

    def changing(self, uri, changes):
        text = {"uri": uri, "version": self.version()}
        params = {"textDocument": text, "contentChanges": changes}
        return self.note("textDocument/didChange", params)

    # Puts a text into order again, as who types does in the end.
    def mending(self):
        return self.changing(self.uri(), [{"text": self.new_text()}])

    def closing(self):
        return self.note("textDocument/didClose", {"textDocument": {"uri": self.uri()}})

    # ---- what it asks

    def question(self):
        uri, method = self.uri(), self.pick([model.DEFINITION, *model.ANSWERS])
        unread = list(self.server.earlier)
        if unread and self.is_likely(60):
            uri, method = self.pick(unread), self.pick([model.HOVER, model.EXPANSION])
        place = self.called_place(uri)
        about = {"position": place}
        if method == model.ACTIONS:
            about = {"range": {"start": place, "end": self.pick([place, FAR[0]])}, "context": {}}
        if method == model.STEPS and self.is_likely(40):
            odd = [-1, 1.5, None, "2"]
            about["limit"] = self.pick(odd if self.is_likely(15) else [0, 1, 2, 3, 2**64 - 1])
        params = {"textDocument": {"uri": uri}, **about}
        if self.is_likely(10):
            params = self.pick([None, [], {}, {"textDocument": {"uri": uri}}, about])
        return self.request(method, params)

    # A place, often in the name of a call.
    def called_place(self, uri):
        text, _version = self.server.documents.get(uri, ("", 0))
        calls = [it.span(1) for it in re.finditer(r"(\w+)! ?[({\[]", text)]
        if self.is_likely(5):
            return self.pick(BAD_PLACES)
        if not calls or self.is_likely(20):
            return self.place(text)
        start, end = self.pick(calls)
        return texts.place_of(text, self.random.randint(start, end))

    def symbols(self):
        return self.request(model.SYMBOLS, {"textDocument": {"uri": self.uri()}})

    def unknown(self):
        return self.request(self.pick(UNKNOWN), self.pick([None, {}, [1]]))

    def unheard(self):
        return self.note(self.pick(QUIET), self.pick([None, {}, {"id": 1}]))

    def no_message(self):
        return self.pick(NONE)

    def odd(self):
        return self.pick(ODD)

    # ---- a whole conversation

    def body(self):
        acts = {
            self.opening: 10,
            self.edit: 45,
            self.mending: 10,
            self.closing: 4,
            self.question: 25,
            self.symbols: 15,
            self.unknown: 3,
            self.unheard: 3,
            self.no_message: 3,
            self.odd: 3,
        }
        return self.random.choices(list(acts), acts.values())[0]()

    def bodies(self):
        for _ in range(self.pick([0, 0, 2, 4])):
            yield self.pick([self.body, self.no_message])()
        yield self.request("initialize", {"capabilities": {}})
        yield self.note("initialized", {})
        yield self.opening()
        for _ in range(self.random.randrange(10, 60)):
            yield self.body()
        if self.is_likely(80):
            yield self.request("shutdown")
            for _ in range(self.pick([0, 0, 3])):
                yield self.body()
        if self.is_likely(80):
            yield self.note("exit")
            for _ in range(self.pick([0, 0, 2])):
                yield self.body()


# The stream of a random client, and what a model of the server does for it.
def conversation(random, server):
    client, stream = Client(random, server), b""
    for body in client.bodies():
        head = random.choice(HEADS) if client.is_likely(20) else HEADS[0]
        stream += frames.framed(body, head)
        if server.phase != "ended":
            server.take(body)
    if client.is_likely(20):
        stream += frames.framed(b"{}")[:random.randrange(1, 20)]
    return stream


# A stream in random pieces, none of which has more bytes than are read at once.
def pieces(random, stream):
    most = random.choice([3, 40, 4096])
    while stream:
        size = random.randint(1, most if random.randrange(4) else 4096)
        yield stream[:size]
        stream = stream[size:]
