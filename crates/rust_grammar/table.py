#!/usr/bin/env python3
"""Writes src/table.rt from specs/Rules.antt: the rules as a table of nodes, in the order of the text."""
import os, re, sys

HERE = os.path.dirname(os.path.abspath(__file__))
TOKENS = {'name': 'Name', 'identifier': 'Identifier', 'literal': 'Literal', 'number': 'Number',
          'paren': 'Group(DelimiterKind::Parenthesis)', 'brace': 'Group(DelimiterKind::Brace)',
          'bracket': 'Group(DelimiterKind::Bracket)', 'restriction': 'Restriction', 'const_bracket': 'ConstBracket'}
# Classes of first trees. A word is told by its first letter and its number of letters; rare words share a class, and
# so do rare signs.
NOTHING, LITERAL, OTHER_IDENT, OTHER_SIGN = 0, 1, 6, 7
GROUPS = {'Parenthesis': 2, 'Brace': 3, 'Bracket': 4}
RARE_WORDS = ['do yeet yield become gen', 'box default auto safe macro_rules union']
RARE_SIGNS = ['/%^~']
ANY = (1 << 60) - 1
PREFIX = {'many': 'Many', 'maybe': 'Maybe', 'surely': 'Surely', 'unless': 'Unless'}


ABBREVIATIONS = {'begins': 'unless (word "_" ∣ word "become" ∣ word "use")',
                 'begins_in_condition': 'unless (brace ∣ word "_" ∣ word "become" ∣ word "use")'}


def words_of(body):
    return re.findall(r'"[^"]*"|[()⨾∣]|[A-Za-z0-9_]+', body)


def read_rules():
    text = open(os.path.join(HERE, 'specs/Rules.antt')).read()
    text = text[text.index('says :'):]
    rules = []
    for part in re.split(r'(?m)^says ', text)[2:]:
        head, body = part.split('=', 1)
        body = re.sub(r'(?m)^--.*$', '', body)
        rules.append((head.strip(), words_of(body)))
    return rules


class Reader:
    def __init__(self, words):
        self.words, self.at = words, 0

    def peek(self):
        return self.words[self.at] if self.at < len(self.words) else None

    def take(self):
        self.at += 1
        return self.words[self.at - 1]

    def choice(self):
        first = self.sequence()
        if self.peek() == '∣':
            self.take()
            return ('Or', first, self.choice())
        return first

    def sequence(self):
        first = self.one()
        if self.peek() == '⨾':
            self.take()
            return ('Then', first, self.sequence())
        return first

    def one(self):
        word = self.take()
        if word == '(':
            inner = self.choice()
            assert self.take() == ')'
            return inner
        if word in PREFIX:
            return (PREFIX[word], self.one())
        if word == 'ahead':
            return ('Unless', ('Unless', self.one()))
        if word in ABBREVIATIONS:
            return Reader(words_of(ABBREVIATIONS[word])).choice()
        if word in ('rule', 'since', 'word', 'single', 'glued'):
            return (word, self.take().strip('"'))
        return ('token', TOKENS[word])


def read_expressions(rules):
    return [(name, Reader(words).choice()) for name, words in rules]


def rows_of(kind, name, comment, numbers, each):
    out = ['', '// ' + comment, '#[rattlefmt::skip]', 'pub(crate) static %s: [%s; %d] = [' % (name, kind, len(numbers))]
    out += ['    ' + ', '.join(numbers[i:i + each]) + ',' for i in range(0, len(numbers), each)]
    return out + ['];']


def char(c):
    return "'\\''" if c == "'" else "'%s'" % c


def operator(text):
    return 'Operator::%s(%s)' % (['One', 'Two', 'Three'][len(text) - 1], ', '.join(char(c) for c in text))


class Table:
    def __init__(self, names):
        self.names, self.nodes, self.words, self.sets, self.parts = names, [], [], [], []

    def number(self, xs, x):
        if x not in xs:
            xs.append(x)
        return xs.index(x)

    def put(self, e):
        at = len(self.nodes)
        self.parts.append(e)
        kind = e[0]
        if kind in ('Or', 'Then'):
            self.nodes.append(None)
            self.put(e[1])
            self.nodes[at] = '%s(%d)' % (kind, len(self.nodes) - at)
            self.put(e[2])
        elif kind in PREFIX.values():
            self.nodes.append(kind)
            self.put(e[1])
        elif kind == 'rule':
            self.nodes.append('Rule(%d)' % self.names.index(e[1]))
        elif kind == 'since':
            self.nodes.append('Since(Edition::%s)' % e[1])
        else:
            self.nodes.append('Token(Token::%s)' % self.token(e))

    def token(self, e):
        if e[0] == 'word':
            return 'Word(%d)' % self.number(self.words, e[1])
        if e[0] == 'glued':
            return 'OneOf(%d)' % self.number(self.sets, e[1])
        if e[0] == 'single':
            cs = e[1]
            return 'Punct(%s)' % char(cs) if len(cs) == 1 else 'TwoPuncts(%s, %s)' % (char(cs[0]), char(cs[1]))
        return e[1]


def word_key(word):
    return min(len(word) - 1, 15) * 32 + ord(word[0]) % 32


def classes(words, signs):
    """The class of each key of a word, and of each sign."""
    idents, marks, free = {}, {}, 8
    for group in RARE_WORDS:
        for word in group.split():
            idents[word_key(word)] = free
        free += 1
    for word in words:
        if word_key(word) not in idents:
            idents[word_key(word)] = free
            free += 1
    for group in RARE_SIGNS:
        for sign in group:
            marks[sign] = free
        free += 1
    for sign in signs:
        if sign not in marks:
            marks[sign] = free
            free += 1
    assert free <= 60, free
    return idents, marks


class Starts:
    """For each node the classes of first trees before which it may do something else than miss, and how many levels
    of rules that is true from."""

    def __init__(self, table, roots, idents, marks):
        self.table, self.roots, self.idents, self.marks, self.known = table, roots, idents, marks, {}

    def bit(self, c):
        return 1 << c

    def token(self, e):
        if e[0] == 'word':
            return self.bit(self.idents[word_key(e[1])])
        if e[0] == 'glued':
            return sum({self.bit(self.marks[t[0]]) for t in e[1].split(' ')})
        if e[0] == 'single':
            return self.bit(self.marks[e[1][0]])
        kind = e[1]
        if kind in ('Name', 'Identifier'):
            return sum({self.bit(c) for c in list(self.idents.values()) + [OTHER_IDENT]})
        if kind in ('Literal', 'Number'):
            return self.bit(LITERAL)
        group = re.search('Parenthesis|Brace|Bracket', {'Restriction': 'Parenthesis', 'ConstBracket': 'Bracket'}.get(kind, kind))
        return self.bit(GROUPS[group.group()])

    def of(self, e):
        kind = e[0]
        if kind == 'Then':
            first, second = e[1], e[2]
            if first[0] in ('Maybe', 'Many', 'Unless'):
                return self.both(self.of(first[1]), self.of(second))
            return self.of(second) if first[0] == 'since' else self.of(first)
        if kind == 'Or':
            return self.both(self.of(e[1]), self.of(e[2]))
        if kind in PREFIX.values() or kind == 'since':
            return ANY, 0
        if kind == 'rule':
            if e[1] not in self.known:
                mask, levels = self.of(self.rules[e[1]])
                self.known[e[1]] = mask, levels + 1
            return self.known[e[1]]
        return self.token(e), 0

    def both(self, a, b):
        return a[0] | b[0], max(a[1], b[1])


def main():
    rules = read_rules()
    table = Table([k for k, _ in rules])
    roots, rows = [], []
    for name, words in rules:
        reader = Reader(words)
        e = reader.choice()
        assert reader.at == len(words), name
        start = len(table.nodes)
        roots.append(start)
        table.put(e)
        rows.append((name, start))
    signs = [t[0] for s in table.sets for t in s.split(' ')] + [e[1][0] for e in table.parts if e[0] == 'single']
    idents, marks = classes(table.words, sorted(set(signs)))
    starts = Starts(table, roots, idents, marks)
    starts.rules = dict(read_expressions(rules))
    begins = [starts.of(e) for e in table.parts]
    assert max(n for _, n in begins) < 16
    out = ['// Written by table.py from specs/Rules.antt. Do not edit.',
           '//! The rules as a table of nodes. The parts of a node stand behind it, the first right behind it.',
           '',
           'use crate::node::{Node, Token};',
           'use small_grammar::units::Operator;',
           'use tt_data::{DelimiterKind, Edition};',
           '',
           '// The words that tokens name.',
           '#[rattlefmt::skip]',
           'pub(crate) static WORDS: [&str; %d] = [' % len(table.words)]
    out += ['    ' + ', '.join('"%s"' % w for w in table.words[i:i + 8]) + ',' for i in range(0, len(table.words), 8)]
    out += ['];', '', '// The sets of operators that tokens name.', '#[rattlefmt::skip]',
            'pub(crate) static SETS: [&[Operator]; %d] = [' % len(table.sets)]
    for s in table.sets:
        ops = [operator(t) for t in s.split(' ')]
        if len(ops) <= 3:
            out.append('    &[%s],' % ', '.join(ops))
        else:
            out.append('    &[')
            out += ['        ' + ', '.join(ops[i:i + 3]) + ',' for i in range(0, len(ops), 3)]
            out.append('    ],')
    out += ['];', '', '// The node that each rule begins with.', '#[rattlefmt::skip]',
            'pub(crate) static ROOTS: [u16; %d] = [' % len(roots)]
    out += ['    ' + ', '.join('%d' % r for r in roots[i:i + 16]) + ',' for i in range(0, len(roots), 16)]
    out += ['];']
    out += rows_of('u8', 'IDENTS', 'The class of an identifier, by its first byte and its number of bytes.',
                   ['%d' % idents.get(i, OTHER_IDENT) for i in range(512)], 24)
    out += rows_of('u8', 'SIGNS', 'The class of a punct, by its character.',
                   ['%d' % marks.get(chr(i), OTHER_SIGN) for i in range(128)], 24)
    out += rows_of('u64', 'STARTS', 'The classes of first trees that a node does not miss, and from 2 ^ 60 on its levels.',
                   ['0x%016x' % (n << 60 | mask) for mask, n in begins], 4)
    out += ['', '// The nodes.', '#[rattlefmt::skip]', 'pub(crate) static NODES: [Node; %d] = [' % len(table.nodes)]
    starts = dict((s, n) for n, s in rows)
    line = ''
    for i, n in enumerate(table.nodes):
        if i in starts:
            if line:
                out.append('    ' + line.rstrip())
                line = ''
            out.append('    // %s' % starts[i])
        word = 'Node::%s, ' % n
        if len(line) + len(word) > 95:
            out.append('    ' + line.rstrip())
            line = ''
        line += word
    out.append('    ' + line.rstrip())
    out += ['];', '']
    open(os.path.join(HERE, 'src/table.rt'), 'w').write('\n'.join(out))
    print(len(rules), 'rules', len(table.nodes), 'nodes', len(table.words), 'words', len(table.sets), 'sets')


main()
