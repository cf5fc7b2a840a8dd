#!/usr/bin/env python3
"""What an editor waits for: bench/server.py PROGRAM

Starts `PROGRAM lsp` for each of two texts of 0.93 MB: functions and calls of one macro, in 28,300 pieces; and that of
bench/edits.sh, 12,000 pieces with 2,000 definitions. It opens the text, types a letter in its middle and takes it out again, and
asks about a call and about the whole text, also right behind a change. Prints the milliseconds by the clock until each answer
came: for changes until their diagnostics did.

Then it opens 100 texts of 50 KB, and prints the most memory of the process. Last it serves a crate of 20 files, of which ten are
open: a letter is typed in a function, and in a definition that all see."""
import json
import statistics
import subprocess
import sys
import tempfile
import time
from pathlib import Path

sys.dont_write_bytecode = True
sys.path.insert(0, str(Path(__file__).resolve().parent / "bindings"))
from texts import text_of  # noqa: E402

URI = "file:///a.rs"
DOCUMENT = {"textDocument": {"uri": URI}}
DEFINITION = "macro_rules! m{i} {{ ($a:ident $b:tt) => {{ fn $a() {{ let x = $b; }} }} }}\n"
FUNCTION = """m{m}!{{ g{i}_{k} (one, two) }}
/// Adds up, unless there is nothing to add.
fn f{i}_{k}(x: &T, y: U) -> U {{ let y = x + z; if y {{ a::b(&y, 1)? }} else {{ y.c(d, "e") }} }}
"""
STRUCT = "struct S{i} {{ one: Vec<u8>, two: a::T<U>, three: Option<&'a str> }}\n"


# The text of bench/edits.sh.
def text_of_edits():
    parts = []
    for i in range(2000):
        m = 1000 if 1000 <= i < 1005 else i
        parts.append(DEFINITION.format(i=i))
        parts += [FUNCTION.format(i=i, m=m, k=k) for k in range(2)]
        parts.append(STRUCT.format(i=i))
    return "".join(parts)


# Names, texts, and the lines of a function and of a call in their middle.
TEXTS = [
    ("28,300 pieces", lambda: text_of(930_000), 13001, 13002),
    ("12,000 pieces", text_of_edits, 8003, 8001),
]


class Server:
    def __init__(self, program, *options):
        self.ran = subprocess.Popen([program, "lsp", *options], stdin=subprocess.PIPE, stdout=subprocess.PIPE)

    def send(self, method, params=None, id=None):
        message = {"jsonrpc": "2.0", "method": method, **({} if params is None else {"params": params}), **({} if id is None else {"id": id})}
        body = json.dumps(message).encode()
        self.ran.stdin.write(b"Content-Length: %d\r\n\r\n" % len(body) + body)
        self.ran.stdin.flush()

    def message(self):
        length = 0
        while (line := self.ran.stdout.readline()) != b"\r\n":
            length = int(line.split(b":")[1])
        return json.loads(self.ran.stdout.read(length))

    # The milliseconds until the next message comes.
    def taken(self, method, params=None, id=None):
        start = time.perf_counter()
        self.send(method, params, id)
        self.message()
        return (time.perf_counter() - start) * 1e3

    def changed(self, line, turn):
        end = 3 if turn % 2 == 0 else 4
        where = {"start": {"line": line, "character": 3}, "end": {"line": line, "character": end}}
        changes = [{"range": where, "text": "z" if turn % 2 == 0 else ""}]
        params = {"textDocument": {"uri": URI, "version": turn + 2}, "contentChanges": changes}
        return self.taken("textDocument/didChange", params)

    def shown(self, line):
        place = {**DOCUMENT, "position": {"line": line, "character": 1}}
        return self.taken("textDocument/hover", place, 2)

    def symbols(self):
        return self.taken("textDocument/documentSymbol", DOCUMENT, 3)


# The milliseconds of each question and change.
def rows(server, function, call):
    yield "a letter changed", [server.changed(function, turn) for turn in range(40)]
    server.shown(call)
    yield "what is shown of a call", [server.shown(call) for _ in range(20)]
    yield "symbols", [server.symbols() for _ in range(20)]
    shown, listed = [], []
    for turn in range(40):
        server.changed(function, turn)
        (shown if turn % 2 == 0 else listed).append(server.shown(call) if turn % 2 == 0 else server.symbols())
    yield "what is shown behind a change", shown
    yield "symbols behind a change", listed


def opened(server, uri, text):
    it = {"uri": uri, "languageId": "rust", "version": 1, "text": text}
    return server.taken("textDocument/didOpen", {"textDocument": it})


# Ends a server, and answers its status.
def ended(server):
    server.taken("shutdown", None, 4)
    server.send("exit")
    return server.ran.wait()


def measure(program, name, text, function, call):
    server = Server(program)
    server.taken("initialize", {}, 1)
    print(f"{name}\n  opened: {opened(server, URI, text):.1f} ms")
    for what, times in rows(server, function, call):
        print(f"  {what}: {min(times):.1f} ms, median {statistics.median(times):.1f} ms")
    return ended(server)


# The most memory of a process, in MB.
def most_memory(process):
    lines = Path(f"/proc/{process}/status").read_text().splitlines()
    return next(int(it.split()[1]) for it in lines if it.startswith("VmHWM")) / 1024


def measure_many(program):
    server, text = Server(program), text_of(50_000)
    server.taken("initialize", {}, 1)
    times = [opened(server, f"file:///a{i}.rs", text) for i in range(100)]
    print(f"100 texts of 50 KB\n  opened: {sum(times):.0f} ms in all, {most_memory(server.ran.pid):.0f} MB")
    return ended(server)


# A crate of 20 files: definitions in a.rs, and calls of them in the others, 50 KB each.
def crate_files():
    others = [f"f{i}" for i in range(19)]
    yield "lib.rs", "#[macro_use]\nmod a;\n" + "".join(f"mod {it};\n" for it in others)
    yield "a.rs", "macro_rules! seen { () => { 1 } }\n" + text_of(50_000)
    for it in others:
        yield f"{it}.rs", text_of(50_000) + "fn last() { seen!() }\n"


# The milliseconds from a change of a text until a question behind it is answered.
def settled(server, uri, line, column, turn):
    end = column if turn % 2 == 0 else column + 1
    where = {"start": {"line": line, "character": column}, "end": {"line": line, "character": end}}
    changes = [{"range": where, "text": "2" if turn % 2 == 0 else ""}]
    start = time.perf_counter()
    server.send("textDocument/didChange", {"textDocument": {"uri": uri, "version": turn + 2}, "contentChanges": changes})
    server.send("x/unknown", None, 9)
    while server.message().get("id") != 9:
        pass
    return (time.perf_counter() - start) * 1e3


def measure_crate(program):
    with tempfile.TemporaryDirectory() as folder:
        for name, text in crate_files():
            Path(folder, name).write_text(text)
        server = Server(program, "--crate", f"{folder}/lib.rs")
        server.taken("initialize", {}, 1)
        for name, text in list(crate_files())[1:11]:
            opened(server, f"file://{folder}/{name}", text)
        print("a crate of 20 files of 50 KB, ten of them open")
        for what, name, *place in (("a function", "f0.rs", 1, 4), ("a definition that all see", "a.rs", 0, 28)):
            times = [settled(server, f"file://{folder}/{name}", *place, turn) for turn in range(20)]
            print(f"  a letter in {what}: {min(times):.1f} ms, median {statistics.median(times):.1f} ms")
        return ended(server)


def main():
    if len(sys.argv) != 2:
        sys.exit("usage: bench/server.py PROGRAM")
    program = sys.argv[1]
    found = [measure(program, name, text(), function, call) for name, text, function, call in TEXTS]
    sys.exit(max([*found, measure_many(program), measure_crate(program)]))


main()
