"""Texts as the server sees them: places by line and UTF-16 column, changes, and tokens, of which
the definitions of macros and their calls are made. An index counts characters."""
import re

LINE_END = re.compile(r"\r\n|\n|\r")
BLANK = r"\t\n\v\f\r\x20\x85\u200e\u200f\u2028\u2029"


# ---- places


def units(text):
    return sum(2 if ord(it) > 0xFFFF else 1 for it in text)


def line_starts(text):
    return [0, *(it.end() for it in LINE_END.finditer(text))]


# The index of a line and a column. Behind the end of a line is its end, behind the last line that
# of the text, and within a surrogate pair the begin of the pair.
def index_of(text, line, column):
    starts = line_starts(text)
    if line >= len(starts):
        return len(text)
    at = starts[line]
    while at < len(text) and text[at] not in "\r\n" and units(text[at]) <= column:
        column -= units(text[at])
        at += 1
    return at


def place_of(text, at):
    starts = [it for it in line_starts(text) if it <= at]
    return {"line": len(starts) - 1, "character": units(text[starts[-1]:at])}


def range_of(text, start, end):
    return {"start": place_of(text, start), "end": place_of(text, end)}


def index_of_byte(text, byte):
    return len(text.encode()[:byte].decode())


# A text with another in place of what is between two places, or in place of all.
def changed(text, places, new):
    if places is None:
        return new
    (start, end) = (index_of(text, *place) for place in places)
    return text[:min(start, end)] + new + text[end:]


# ---- tokens


class Token:
    """A token: `kind` is word, mark, value or group; a group has its first bracket as `text`, and
    `inner` tokens. `name` is a word without its `r#`."""

    def __init__(self, kind, text, start, end, inner=None):
        self.kind, self.text, self.start, self.end, self.inner = kind, text, start, end, inner
        self.name = text.removeprefix("r#")

    def is_mark(self, text):
        return self.kind == "mark" and self.text == text

    def is_word(self, text):
        return self.kind == "word" and self.text == text

    def is_group(self, brackets):
        return self.kind == "group" and self.text in brackets


# The characters that pass, as what stands in brackets in a regular expression.
def character_class(passes):
    found, start = [], None
    for code in range(0x110001):
        is_in = code < 0x110000 and passes(chr(code))
        if is_in and start is None:
            start = code
        elif not is_in and start is not None:
            found.append(f"\\U{start:08x}-\\U{code - 1:08x}")
            start = None
    return "".join(found)


FIRST = character_class(str.isidentifier)
NEXT = character_class(lambda it: ("a" + it).isidentifier())
WORD = f"[{FIRST}][{NEXT}]*"
# The tokens of a text that can be read. One behind others is tried only where these do not fit.
TOKEN = re.compile(
    rf"""
      (?P<line>//[^\n]*)
    | (?P<block>/\*)
    | (?P<blank>[{BLANK}]+)
    | (?P<raw>(?:br|cr|r)(?P<hashes>\#*)".*?"(?P=hashes)(?:{WORD})?)
    | (?P<guarded>(?P<guards>\#+)"(?:\\.|[^"\\])*"(?P=guards)(?:{WORD})?)
    | (?P<string>[bc]?"(?:\\.|[^"\\])*"(?:{WORD})?)
    | (?P<letters>'[{FIRST}0-9][{NEXT}]+')
    | (?P<letter>b?'[^\\]'(?:{WORD})?)
    | (?P<lifetime>'{WORD})
    | (?P<escape>b?'(?:\\.|[^'\\/\n]|\n(?='))*'(?:{WORD})?)
    | (?P<word>(?:r\#)?{WORD})
    | (?P<number>[0-9][{NEXT}]*(?:\.[0-9][{NEXT}]*)?)
    | (?P<mark>.)
    """,
    re.X | re.S,
)


# Where a block comment ends that begins at an index: each `/*` in it has a `*/` of its own.
def block_end(text, at):
    depth = 0
    for it in re.compile(r"/\*|\*/").finditer(text, at):
        depth += 1 if it[0] == "/*" else -1
        if depth == 0:
            return it.end()
    raise ValueError("a comment is open")


# The style of a comment that is documentation: "outer", "inner" or None.
def doc_style(text):
    if text.startswith(("//!", "/*!")):
        return "inner"
    plain = text.startswith(("////", "/***")) or text == "/**/"
    return "outer" if text.startswith(("///", "/**")) and not plain else None


# A documentation comment as an attribute: each token of it is where the comment is.
def attribute(style, start, end):
    yield Token("mark", "#", start, end)
    if style == "inner":
        yield Token("mark", "!", start, end)
    yield Token("group", "[", start, end, [Token("word", "doc", start, end)])


# The tokens of a text that can be read, in one list, with its brackets.
def flat_tokens(text):
    at = 0
    while at < len(text):
        it = TOKEN.match(text, at)
        kind, start, at = it.lastgroup, at, it.end()
        if kind == "block":
            at = block_end(text, start)
        if kind in ("line", "block"):
            style = doc_style(text[start:at])
            yield from attribute(style, start, at) if style else ()
        elif kind == "lifetime":
            yield Token("mark", "'", start, start + 1)
            yield Token("word", it[0][1:], start + 1, at)
        elif kind != "blank":
            kind = kind if kind in ("word", "mark") else "value"
            yield Token(kind, it[0], start, at)


# The trees of a text that can be read.
def trees_of(text):
    lists, openings = [[]], []
    for token in flat_tokens(text):
        if token.kind == "mark" and token.text in "([{":
            openings.append(token)
            lists.append([])
        elif token.kind == "mark" and token.text in ")]}":
            opening, inner = openings.pop(), lists.pop()
            group = Token("group", opening.text, opening.start, token.end, inner)
            lists[-1].append(group)
        else:
            lists[-1].append(token)
    (trees,) = lists
    return trees


# ---- definitions


class Definition:
    def __init__(self, word, name, piece):
        self.word, self.name, self.piece = word, name, piece


# A list of trees is cut behind each `;`, each group in braces, and `#![..]`.
def pieces(trees):
    piece = []
    for tree in trees:
        is_inner = len(piece) == 2 and piece[0].is_mark("#") and piece[1].is_mark("!")
        piece.append(tree)
        if tree.is_mark(";") or tree.is_group("{") or (is_inner and tree.is_group("[")):
            yield piece
            piece = []
    if piece:
        yield piece


# What is behind the attributes of a piece.
def after_attributes(trees):
    while len(trees) > 1 and trees[0].is_mark("#") and trees[1].is_group("["):
        trees = trees[2:]
    return trees


def after_pub(trees):
    if not trees or not trees[0].is_word("pub"):
        return trees
    return trees[2:] if len(trees) > 1 and trees[1].is_group("(") else trees[1:]


def is_rules(trees):
    if len(trees) < 4 or not (trees[0].is_word("macro_rules") and trees[1].is_mark("!")):
        return False
    body, rest = trees[3], trees[4:]
    ends = len(rest) == 1 and rest[0].is_mark(";")
    return trees[2].kind == "word" and (
        (body.is_group("{") and not rest) or (body.is_group("([") and ends)
    )


def is_macro(trees):
    if len(trees) < 3 or not trees[0].is_word("macro") or trees[1].kind != "word":
        return False
    groups = trees[2:]
    return (len(groups) == 1 and groups[0].is_group("{")) or (
        len(groups) == 2 and groups[0].is_group("(") and groups[1].is_group("{")
    )


# The definition that a piece is, or None.
def definition_of(piece):
    trees = after_attributes(piece)
    if is_rules(trees):
        return Definition("macro_rules!", trees[2], piece)
    trees = after_pub(trees)
    return Definition("macro", trees[1], piece) if is_macro(trees) else None


def definitions(trees):
    return [it for it in map(definition_of, pieces(trees)) if it]


# The name of the call in whose name an index is, or behind whose name: the first in the text.
def call_around(trees, at):
    for i, tree in enumerate(trees):
        if tree.kind == "word" and tree.start <= at <= tree.end and is_call(trees[i:i + 3]):
            return tree
        if tree.kind == "group" and at < tree.end:
            return call_around(tree.inner, at)
    return None


def is_call(trees):
    return len(trees) == 3 and trees[1].is_mark("!") and trees[2].kind == "group"


# The last definition of a name before an index, of the innermost list around it that has one.
def definition_before(trees, at, name):
    found = None
    for piece in pieces(trees):
        if at < piece[-1].end:
            inner = [it.inner for it in piece if it.kind == "group" and it.start < at < it.end]
            return (inner and definition_before(inner[0], at, name)) or found
        definition = definition_of(piece)
        if definition and definition.name.name == name:
            found = definition
    return found
