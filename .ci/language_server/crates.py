"""Random clients that have several texts of a crate open, and what they are told of them."""
import json
import os

import frames
import model

ONE = "macro_rules! one { (1) => { 1 } }\n"
EXPORTED = "#[macro_export]\nmacro_rules! two { (2) => { 2 } }\n"
# The files of a crate, each with the texts that it may have. The first one is on the disk.
FILES = {
    "lib.rs": [
        "#[macro_use]\nmod a;\nmod b;\nmod c;\nfn f() { one!(1); two!(1); }\n",
        "#[macro_use]\nmod a;\nmod b;\nmod c;\nmacro_rules! late { (1) => { 1 } }\n",
        "mod b;\n#[macro_use]\nmod a;\nmod c;\nfn f() { one!(1); }\n",
        "macro_rules! one { (7) => { 7 } }\nmod a;\nmod b;\nmod c;\n",
        "mod a { macro_rules! one { (1) => { 1 } } }\nmod b;\nmod c;\n",
        "#[macro_use]\nmod a;\nmod b;\nmod c;\nfn f() { one!(1);\n",
    ],
    "a.rs": [
        ONE + EXPORTED,
        "// 𝕏\n\n" + ONE + EXPORTED,
        "macro_rules! one { (1) => { 1 } (2) => { one!(3) } }\n",
        "macro_rules! one { (2) => { 2 } }\n#[macro_export]\nmacro_rules! two { (1) => { 1 } }\n",
        ONE + "fn g() { one!(9); }\nmacro_rules! two { (2) => { 2 } }\n",
        ONE + "fn g( { }\n",
    ],
    "b.rs": [
        "fn g() { one!(1); two!(2); }\n",
        "fn g() { one!(2); two!(1); one!(7); late!(2); }\n",
        "one!(1);\nmacro_rules! own { (1) => { one!(1) } }\nown!(1);\nown!(2);\n",
        "fn g() { one!(1); }}\n",
    ],
    "c.rs": [
        "use crate::two;\nfn h() { two!(1); }\n",
        "use crate::two as three;\nfn h() { three!(1); two!(1); }\n",
        "fn h() { two!(1); two!(2); one!(1); one!(2) }\n",
    ],
}


class Crate:
    """A crate in a folder, by a program that is started anew for each question."""

    def __init__(self, serve, folder):
        self.serve, self.folder, self.known = serve, folder, {}

    # What is told of a text of this name, where the files of the crate have these texts.
    def diagnostics(self, files, name, text):
        asked = (tuple(sorted(files.items())), name, text)
        if asked not in self.known:
            self.known[asked] = self.told(files, name, text)
        return self.known[asked]

    def told(self, files, name, text):
        write(self.folder, files)
        uri = f"file://{self.folder}/{name}"
        written = self.serve(self.folder, [opened(uri, 1, text)])
        return [it["params"] for it in frames.written(written) if "method" in it][0]["diagnostics"]


def write(folder, files):
    os.makedirs(folder, exist_ok=True)
    for name, text in files.items():
        with open(f"{folder}/{name}", "w", encoding="utf-8") as file:
            file.write(text)


def told(method, params):
    message = {"jsonrpc": "2.0", "method": f"textDocument/{method}", "params": params}
    return frames.framed(json.dumps(message).encode())


def opened(uri, version, text):
    it = {"uri": uri, "languageId": "rust", "version": version, "text": text}
    return told("didOpen", {"textDocument": it})


def edited(uri, version, text):
    it = {"textDocument": {"uri": uri, "version": version}, "contentChanges": [{"text": text}]}
    return told("didChange", it)


def closed(uri):
    return told("didClose", {"textDocument": {"uri": uri}})


class Client:
    """A client, the texts that it has open, and what it was told of each last. A text counts for
    the others as it was when it could be read last since it was opened, and else as on the disk."""

    def __init__(self, chance, crate, folder):
        self.chance, self.crate, self.folder = chance, crate, folder
        self.files = {name: texts[0] for name, texts in FILES.items()}
        self.texts, self.versions, self.known, self.version = {}, {}, {}, 0
        self.sent, self.wanted = [], []

    def uri(self, name):
        return f"file://{self.folder}/{name}"

    # One note, and what has to be told for it.
    def step(self):
        name = self.chance.choice(list(FILES))
        if name in self.texts and self.chance.random() < 0.2:
            return self.close(name)
        text = self.chance.choice(FILES[name])
        text = " " * self.chance.choice([0, 0, 3]) + text
        self.version += 1
        if name in self.texts and self.chance.random() < 0.9:
            self.sent.append(edited(self.uri(name), self.version, text))
        else:
            self.sent.append(opened(self.uri(name), self.version, text))
            self.forget(name)
        self.texts[name], self.versions[name] = text, self.version
        self.tell(name)

    def forget(self, name):
        for kept in (self.texts, self.versions, self.known):
            kept.pop(name, None)

    def close(self, name):
        self.sent.append(closed(self.uri(name)))
        self.forget(name)
        self.files[name] = FILES[name][0]
        self.wanted.append(model.published({"uri": self.uri(name), "diagnostics": []}))
        self.tell(None)

    def can_read(self, name):
        found = self.crate.diagnostics(self.files, name, self.texts[name])
        return all(it["severity"] != 1 for it in found)

    # What has to be told of each open text: of the one that was changed, and of those of which it
    # is not what it was.
    def tell(self, own):
        if own and self.can_read(own):
            self.files[own] = self.texts[own]
        for name, text in self.texts.items():
            found = self.crate.diagnostics(self.files, name, text)
            if name == own or found != self.known[name]:
                self.known[name] = found
                params = {"uri": self.uri(name), "version": self.versions[name]}
                self.wanted.append(model.published({**params, "diagnostics": found}))
