"""Reads the files of a crate for its definitions and calls of macros, and says which definition each call has.

This is the survey's own scope, beside which the expander's answers are held. It follows Rust's textual scope:
a definition is seen from its end to the end of the group around it, in the files of `mod` items between, and
behind its module where that has `#[macro_use]`. Else an import of the crate's own macros by `use`, or of those
of its library by `#[macro_use] extern crate`, gives one. Conditions of `cfg` are not evaluated. What macros
make, what comes by `use ..::*` and what an import renames are not seen.
"""
import functools, os
from lexer import closings, lex

# No macro has one of these names.
RESERVED = set('''as async await break const continue crate dyn else enum extern false fn for if impl in let loop
    match mod move mut pub ref return self Self static struct super trait true type unsafe use where while'''.split())
STD = ('std', 'core', 'alloc')


def plain(name):
    return name.removeprefix('r#')


class Definition:
    def __init__(self, source, name, start, end, depth, words):
        self.source, self.name, self.start, self.end, self.depth = source, name, start, end, depth
        self.exported = 'macro_export' in words
        self.builtin = 'rustc_builtin_macro' in words

    def text(self):
        text = self.source.text[self.start:self.end]
        return text if text.endswith('}') else text + ';'


class Call:
    """A name, `!` and a group. `found` is the nearest definition of the name in scope, `own` the nearest of those at
    the top level of the file, `path` the import of the name, and `around` the name of the outermost call whose
    argument has this one, where there is one."""
    def __init__(self, source, name, start, name_end, end):
        self.source, self.name, self.start, self.name_end, self.end = source, name, start, name_end, end
        self.by_path, self.found, self.own, self.path, self.around = False, None, None, None, None

    def text(self):
        return self.source.text[self.start:self.end]

    def line(self):
        return self.source.text.count('\n', 0, self.start) + 1

    def place(self):
        """Where the program reports a fault of this call."""
        before = self.source.text[self.source.text.rfind('\n', 0, self.start) + 1:self.start]
        return 'line %d, byte column %d' % (self.line(), len(before.encode()) + 1)


class Source:
    """A file: its calls outside definitions, and what is in scope where it starts."""
    def __init__(self, path):
        self.path = path
        self.text, self.tokens, self.ends = read(path)
        self.calls, self.outer, self.own = [], {}, {}

    def word(self, i):
        return self.tokens[i][1] if 0 <= i < len(self.tokens) else ''

    def is_name(self, i):
        return i < len(self.tokens) and self.tokens[i][0] == 'ident'


@functools.lru_cache(maxsize=256)
def read(path):
    """The text, with blanks for a first line that is for the shell; its tokens, and where groups end."""
    text = open(path, encoding='utf-8', newline='').read().removeprefix('\ufeff')
    if text.startswith('#!') and not text[2:].lstrip().startswith('['):
        end = (text + '\n').index('\n')
        text = ' ' * end + text[end:]
    tokens = lex(text)
    ends = closings(tokens)
    if ends is None:
        raise ValueError('groups do not close')
    return text, tokens, ends


class Crate:
    def __init__(self, name, library=None):
        """`library` is the crate of the same package that this one can import from."""
        self.name, self.library = name, library
        self.sources, self.unread, self.definitions, self.modules = {}, [], {}, set()
        # The textual scope, and how to leave a group: names with what they stood for before.
        self.scope, self.undo = {}, []
        # What `#[macro_use] extern crate` of the library brings.
        self.brought = {}

    def read(self, path, folder, macro_use=False):
        """Reads a file of the crate, whose modules are in this folder, and those below it."""
        path = os.path.normpath(path)
        if path in self.sources or path in self.unread:
            return
        try:
            source = Source(path)
        except (ValueError, OSError, RecursionError):
            self.unread.append(path)
            return
        self.sources[path] = source
        source.outer = dict(self.scope)
        mark = len(self.undo)
        inner = Walk(self, source).items(0, len(source.tokens), 0, {}, folder)
        if not (macro_use or 'macro_use' in inner):
            self.leave(mark)

    def define(self, definition):
        self.definitions.setdefault(definition.name, []).append(definition)
        self.undo.append((definition.name, self.scope.get(definition.name)))
        self.scope[definition.name] = definition

    def leave(self, mark):
        while len(self.undo) > mark:
            name, before = self.undo.pop()
            self.scope[name] = before

    def exported(self):
        return {name: found[-1] for name, found in self.definitions.items() if any(d.exported for d in found)}

    def imported(self, path):
        """The definition that `use` of this path names, by its last word, if one of this package can be meant."""
        first, last = plain(path[0]), plain(path[-1])
        owner = self.library if self.library and first == self.library.name else self
        own = ('crate', 'self', 'super', self.name, *self.modules)
        if owner is self and first not in own and len(path) > 1:
            return None
        found = owner.definitions.get(last, [])
        near = [d for d in found if d.exported or len(path) < 3 or module_word(d.source.path) == plain(path[-2])]
        return (near or found or [None])[-1]


def module_word(path):
    folder, name = os.path.split(path)
    return os.path.basename(folder) if name == 'mod.rs' else name.removesuffix('.rs')


class Walk:
    """A walk over the items of a file, and over the groups in it: all that is in braces, or an argument, can have
    definitions and calls."""
    def __init__(self, crate, source):
        self.crate, self.source, self.around = crate, source, None

    def items(self, i, end, depth, uses, folder):
        """Reads the tokens from i to `end`. The answer is the words of inner attributes."""
        source, inner, attributes = self.source, set(), []
        while i < end:
            kind, word, _, _ = source.tokens[i]
            if kind == 'doc':
                i += 1
                continue
            if word == '#' and i + 1 in source.ends:
                attributes.append(self.words(i + 1))
                i = source.ends[i + 1] + 1
                continue
            if word == '#' and source.word(i + 1) == '!' and i + 2 in source.ends:
                inner.update(self.words(i + 2))
                i = source.ends[i + 2] + 1
                continue
            if word == 'pub':
                i = source.ends[i + 1] + 1 if source.word(i + 1) == '(' and i + 1 in source.ends else i + 1
                continue
            if word == 'use' and kind == 'ident':
                stop = i + 1
                while stop < end and source.word(stop) != ';':
                    stop = source.ends.get(stop, stop) + 1
                uses = dict(uses)
                self.imports(i + 1, stop, [], uses)
                i = stop
            elif kind == 'ident':
                i = self.item(i, attributes, depth, uses, folder)
            elif i in source.ends:
                self.group(i, depth, uses, folder)
                i = source.ends[i] + 1
            else:
                i += 1
            attributes = []
        return inner

    def item(self, i, attributes, depth, uses, folder):
        """Reads what begins with the name at i: a definition, a module, a call, or the name alone."""
        source, word, words = self.source, self.source.word(i), {w for ws in attributes for w in ws}
        if word == 'macro_rules' and source.word(i + 1) == '!' and source.is_name(i + 2) and i + 3 in source.ends:
            return self.definition(i, i + 2, source.ends[i + 3], words, depth)
        if word == 'macro' and source.is_name(i + 1) and i + 2 in source.ends:
            end = source.ends[i + 2]
            if source.word(i + 2) == '(' and end + 1 in source.ends:
                end = source.ends[end + 1]
            return self.definition(i, i + 1, end, words, depth)
        if word == 'mod' and source.is_name(i + 1):
            return self.module(i, words, attributes, depth, folder)
        if word == 'extern' and source.word(i + 1) == 'crate' and 'macro_use' in words:
            library = self.crate.library
            if library and plain(source.word(i + 2)) == library.name:
                self.crate.brought = library.exported()
            return i + 3
        is_name = word not in RESERVED and word != 'macro_rules' and source.word(i - 1) != '$'
        if is_name and source.word(i + 1) == '!' and i + 2 in source.ends:
            self.call(i, depth, uses, folder)
            return source.ends[i + 2] + 1
        return i + 1

    def definition(self, i, name, end, words, depth):
        tokens = self.source.tokens
        found = Definition(self.source, plain(tokens[name][1]), tokens[i][2], tokens[end][3], depth, words)
        self.crate.define(found)
        if depth == 0:
            self.source.own[found.name] = found
        return end + 1

    def module(self, i, words, attributes, depth, folder):
        source, crate = self.source, self.crate
        name, mark, keeps = plain(source.word(i + 1)), len(crate.undo), 'macro_use' in words
        inside = os.path.join(folder, name)
        crate.modules.add(name)
        if source.word(i + 2) == '{' and i + 2 in source.ends:
            inner = self.items(i + 3, source.ends[i + 2], depth + 1, {}, inside)
            if not (keeps or 'macro_use' in inner):
                crate.leave(mark)
            return source.ends[i + 2] + 1
        if source.word(i + 2) == ';':
            given = [ws[2].strip('"') for ws in attributes if ws[:2] == ['path', '='] and len(ws) > 2]
            if given:
                path = os.path.join(os.path.dirname(source.path), given[0])
                crate.read(path, os.path.dirname(path), keeps)
            else:
                for path in (inside + '.rs', os.path.join(inside, 'mod.rs')):
                    if os.path.isfile(path):
                        crate.read(path, inside, keeps)
        return i + 3

    def call(self, i, depth, uses, folder):
        source, crate = self.source, self.crate
        _, word, start, name_end = source.tokens[i]
        end, name = source.tokens[source.ends[i + 2]][3], plain(word)
        call = Call(source, name, start, name_end, end)
        call.by_path = source.word(i - 1) == ':' and source.word(i - 2) == ':'
        call.found, call.own, call.path = crate.scope.get(name), source.own.get(name), uses.get(name)
        call.around = self.around
        source.calls.append(call)
        self.around = call.around or name
        self.group(i + 2, depth, uses, folder)
        self.around = call.around

    def group(self, i, depth, uses, folder):
        if self.source.ends[i] > i + 1:
            mark = len(self.crate.undo)
            self.items(i + 1, self.source.ends[i], depth + 1, uses, folder)
            self.crate.leave(mark)

    def words(self, i):
        return [self.source.word(k) for k in range(i + 1, self.source.ends[i])]

    def imports(self, i, end, before, uses):
        """Reads the trees of a `use` from i to `end`: into `uses` comes the path of each name."""
        path = list(before)
        while i < end:
            word, after = self.source.word(i), self.source.word(i + 1)
            if word == '{' and i in self.source.ends:
                self.imports(i + 1, self.source.ends[i], path, uses)
                i = self.source.ends[i]
            elif word == ',':
                path = list(before)
            elif word == 'as':
                i += 1
            elif self.source.is_name(i):
                path = path + [word]
                if after in (',', ';', '}') or after == 'as' and self.source.word(i + 2) == word:
                    uses[plain(word)] = path
            i += 1
