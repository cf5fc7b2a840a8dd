#!/usr/bin/env python3
"""Compares what a program answers as JSON with what it answers as text.

    compare.py PROGRAM [COUNT] [SEED]

It makes COUNT (1,000) random scripts of edits, expansions, sources and preludes from SEED (1) on, and runs
`replay` over each, as text and as JSON. Each line of JSON is read by json.loads, and says what the text says, with
places whose lines and columns are those of their bytes. Then the last text of each script is explained both ways:
each fault is told alike. The status is 0 if nothing differs."""
import concurrent.futures
import json
import os
import random
import re
import subprocess
import sys

MESSAGES = {"out of memory": "Memory", "too many tokens": "Tokens", "too many definitions": "Numbers"}
BARE = {"edited": "edited", "bad_edit": "bad edit", "bad_prelude": "bad prelude"}
# What scripts put into a text: most of it keeps brackets and quotes in order.
WHOLE = [
    "macro_rules! swap { ($a:tt $b:tt) => { $b $a } }\n",
    "macro_rules! pair { ($a:expr, $b:expr) => { $a + $b }; (zero) => { 0 } }\n",
    "macro_rules! row { ($($k:ident => $v:expr),* $(,)?) => { [$($v),*] } }\r\n",
    "macro_rules! both { ($($a:ident)* $b:ident) => { $b } }\r",
    "macro_rules! again { () => { again!() } }\n",
    "macro_rules! outer { ($($t:tt)*) => { row!($($t)* ,, ) } }\n",
    "macro_rules! bad { () }\n",
    "macro 𝕏y($x:ident, '\u202e') { $x }\n",
    "swap!(p q);\n", "swap!{ \"é\\u{301}\t\x01\" }\n", "pair!(1 2);\n", "pair!(1, 2);", "row!(a => 1, b 2);\n",
    "row!(𝕏 => \"\x7f\u202e\", b => 2);\r\n", "both!(x y);\n", "again!();\n", "outer!(a => 1);\n", "𝕏y!(1);\n",
    "/* 🦀\u2028 */ ", "mod m { fn f() { pair!('a') } }\n", "unknown!{ swap!(1) }\n", "r#\"\\ \"\"#", "'\\''", " ", "\t", "é",
]
WILD = ["(", ")", "[", "]", "{", "}", "\"", "'", "/*", "*/", "#", "\0", "$", "\\", "r#"]


def bit(chance):
    return chance.choice(WHOLE if chance.randrange(100) < 93 else WILD)


def escaped(text):
    return text.replace("\\", "\\\\").replace("\n", "\\n").replace("\r", "\\r")


# A byte of a text, mostly at a boundary.
def offset(chance, text):
    if chance.randrange(100) < 90:
        return len(text[: chance.randrange(len(text) + 1)].encode())
    return chance.randrange(len(text.encode()) + 3)


# An edit, and the text after it.
def edit(chance, text):
    start, end = sorted((offset(chance, text), offset(chance, text)))
    if chance.randrange(100) < 60:
        end = start
    if chance.randrange(100) < 5:
        start, end = end + 1, start
    new = "".join(bit(chance) for _ in range(chance.randrange(4)))
    line = f"edit {start} {end} {escaped(new)}\n"
    data = text.encode()
    try:
        changed = (data[:start] + new.encode() + data[end:]).decode()
        [it.decode() for it in (data[:start], data[start:end])]
    except UnicodeDecodeError:
        return line, text
    return line, changed if start <= end <= len(data) else text


# A script: its lines, each with the text of the session after it, and that of a source if one is read.
def script(chance):
    text, lines = "", [("origins\n", "", None)] if chance.randrange(2) else []
    for _ in range(chance.randrange(2, 16)):
        source, kind = None, chance.randrange(100)
        if kind < 50:
            line, text = edit(chance, text)
        elif kind < 85:
            line = "expand\n"
        elif kind < 93:
            source = "".join(bit(chance) for _ in range(chance.randrange(3)))
            home = chance.choice(["-", "a@2021", "𝕏@2024"])
            line = f"source {chance.randrange(1, 4)} {home} {escaped(source)}\n"
        else:
            line = chance.choice(["prelude\n", "prelude 1\n", "prelude 2:0 1\n", "prelude 3:1,0\n"])
        lines.append((line, text, source))
    return lines


# The position of a byte of a text: line and column from 0, in UTF-16 code units.
def position(data, byte):
    front = data[:byte].decode()
    start = max(front.rfind("\n"), front.rfind("\r"))
    if front.endswith("\r") and data[byte : byte + 1] == b"\n":
        start = max(front[:-1].rfind("\n"), front[:-1].rfind("\r"))
        front = front[:-1]
        lines = front.count("\n") + front.count("\r") - front.count("\r\n")
        return [lines, len(front[start + 1 :].encode("utf-16-le")) // 2 + 1]
    lines = front.count("\n") + front.count("\r") - front.count("\r\n")
    return [lines, len(front[start + 1 :].encode("utf-16-le")) // 2]


# All places in a value.
def places(value):
    if isinstance(value, dict):
        if "bytes" in value:
            yield value
        for it in value.values():
            yield from places(it)
    elif isinstance(value, list):
        for it in value:
            yield from places(it)


def placed(value, text):
    data = text.encode()
    for it in places(value):
        start, end = it["bytes"]
        if it != {"bytes": [start, end], "start": position(data, start), "end": position(data, end)}:
            return False
    return True


# A place of a fault as text.
def fault(what, it):
    return f"{what} {it['kind']} {it['at']['bytes'][0]} {it['at']['bytes'][1]}\n"


def origin(text, start, end):
    return f"origin {start} {end} in {text}\n" if text else f"origin {start} {end}\n"


# The lines of text that a line of JSON stands for.
def as_text(value, origins):
    answer = value["answer"]
    if answer in BARE:
        return BARE[answer] + "\n"
    if answer == "unread":
        return fault("unread", value)
    if answer == "refused":
        return f"refused {MESSAGES[value['message']]}\n"
    if answer == "source":
        return f"source {value['source']} {value['definitions']}\n"
    if answer == "prelude":
        return f"prelude {value['definitions']}\n"
    printed, of = value["text"], value["origins"]
    told = f"printed {len(printed.encode())}\n{printed}" + "".join(fault("fault", it) for it in value["faults"])
    told += f"expanded {value['expanded']}\n"
    if origins:
        told += "".join(origin(*it) for it in zip(of[::3], of[1::3], of[2::3]))
    ranges = value["ranges"]
    tokens = [printed.encode()[a:b] for a, b in zip(ranges[::2], ranges[1::2])]
    whole = b"".join(b"".join(tokens).split()) == b"".join(printed.encode().split())
    return told if whole and len(of) == 3 * len(tokens) else "other tokens"


def ran(program, text, *words):
    done = subprocess.run([program, *words], input=text.encode(), capture_output=True, timeout=100)
    return done.stdout.decode(), done.stderr.decode(), done.returncode


# What differs in the answers to a script.
def replayed(program, lines):
    text = "".join(line for line, _text, _source in lines)
    told, why, status = ran(program, text, "replay")
    found, silent, same = ran(program, text, "replay", "--json")
    origins = lines[0][0] == "origins\n"
    asked = lines[origins:]
    values = [json.loads(line) for line in found.split("\n")[:-1]]
    if (why, status) != (silent, same) or status or len(values) != len(asked) or found.count("\n") != len(values):
        return f"ends otherwise: {why!r} {silent!r} {len(values)} of {len(asked)} lines"
    for value, (_line, after, source) in zip(values, asked):
        if value["v"] != 1 or not placed(value, after if source is None else source):
            return f"another place: {value}"
    if "".join(as_text(value, origins) for value in values) != told:
        return "says something else"
    return None


# The line and the column of a byte in characters, from 1, as messages have them.
def shown(data, byte):
    begin = data.rfind(b"\n", 0, byte) + 1
    return data.count(b"\n", 0, byte) + 1, len(data[begin:byte].decode()) + 1


# The head of the message about a fault.
def head(data, it):
    if it.get("why") == "NoRuleFits":
        rule = next(rule for rule in it["rules"] if rule["rule"] == it["nearest"])
        return (f"error: no rule matches this call of `{it['definition']['name']}`", shown(data, rule["at"]["bytes"][0]))
    return (f"error: {it['message']}", shown(data, it["at"]["bytes"][0]))


# What differs in the explanations of a text.
def explained(program, text):
    told, silent, status = ran(program, text, "explain")
    line, nothing, same = ran(program, text, "explain", "--json")
    value = json.loads(line)
    if silent or nothing or status != same or line.count("\n") != 1 or value["v"] != 1 or not placed(value, text):
        return f"explained otherwise: {line}"
    faults = [value] if value["answer"] == "unread" else value["faults"]
    heads = [head(text.encode(), it) for it in faults[:100]]
    found = re.findall(r"^(error: .*)\n *--> .*:(\d+):(\d+)$", told, re.M)
    if [(title, (int(a), int(b))) for title, a, b in found] != heads:
        return f"explains other faults: {found} {heads}"
    return None


def compared(program, seed):
    lines = script(random.Random(seed))
    text = lines[-1][1]
    why = replayed(program, lines) or explained(program, text)
    return f"seed {seed}: {why}" if why else None


def main():
    program = os.path.abspath(sys.argv[1])
    count, first = (int(it) for it in [*sys.argv[2:], *["1000", "1"][len(sys.argv) - 2 :]])
    with concurrent.futures.ThreadPoolExecutor(4) as pool:
        found = [it for it in pool.map(lambda seed: compared(program, seed), range(first, first + count)) if it]
    print("\n".join(found[:10]) or f"{count} scripts: nothing differs")
    sys.exit(1 if found else 0)


if __name__ == "__main__":
    main()
