"""Compares what rustc and the expander give, and prints the counts.

    compare.py FOLDER [-v]      -v prints each pair that differs

Both sides are compared as lists of token texts. The normalisations, and why:
- white space and comments: two printers lay out differently;
- puncts one by one: the printers glue them differently, and what is glued is shown by what fits;
- a doc comment as the attribute that it stands for, with the text that it has: rustc prints the comment, or
  a raw string where it was desugared, and the expander an escaped string;
- `$crate` as `crate`: the expander prints no `$`;
- lists that are one text without spaces: rustc prints `"C"fn` and `0this`;
- `0.1` as `0`, `.`, `1`: a printer may glue `x.0.1`;
- parentheses that the expander puts around an `expr` fragment where it has one: rustc keeps the fragment
  together without a token. Only if the definition has an `expr`.
"""
import glob, json, os, re, sys
from collections import Counter
from lexer import OPEN, lex

sys.setrecursionlimit(100000)
ESCAPES = {'n': '\n', 't': '\t', 'r': '\r', '0': '\0', '\\': '\\', '"': '"', "'": "'"}


def value(text):
    """The value of a string literal."""
    raw = re.match(r'r(#*)"(.*)"\1$', text, re.S)
    if raw:
        return raw.group(2)

    def one(m):
        s = m.group(1)
        if s[0] == 'x':
            return chr(int(s[1:], 16))
        if s[0] == 'u':
            return chr(int(s[2:-1].replace('_', ''), 16))
        return ESCAPES.get(s, '')
    return re.sub(r'\\(x[0-9a-fA-F]{2}|u\{[0-9a-fA-F_]*\}|\n\s*|.)', one, text[1:-1], flags=re.S)


def doc_tokens(comment):
    inner = comment[2] == '!'
    body = comment[3:] if comment.startswith('//') else comment[3:-2]
    return ['#'] + (['!'] if inner else []) + ['[', 'doc', '=', 'doc:' + body, ']']


def normal(text):
    words = []
    for kind, word, _, _ in lex(text):
        if word == 'crate' and words[-1:] == ['$']:
            words[-1] = word
        elif kind == 'doc':
            words += doc_tokens(word)
        elif kind == 'number' and '.' in word and not word.startswith('0x'):
            words += [w for w in re.split(r'(\.)', word) if w]
        elif kind in ('string', 'raw') and words[-3:] == ['[', 'doc', '=']:
            words.append('doc:' + value(word))
        else:
            words.append(word)
    return words


def trees(words):
    top = []
    stack = [top]
    for w in words:
        if w in OPEN:
            stack.append([w])
        elif w in OPEN.values():
            if len(stack) < 2:
                return None
            group = stack.pop()
            stack[-1].append(tuple(group))
        else:
            stack[-1].append(w)
    return tuple(top) if len(stack) == 1 else None


def same(a, b):
    """Whether the trees b are the trees a, but for parentheses that only b has."""
    i = j = 0
    while True:
        if i == len(a) and j == len(b):
            return True
        if j == len(b):
            return False
        x, y = a[i] if i < len(a) else None, b[j]
        if isinstance(y, tuple) and y[0] == '(':
            if isinstance(x, tuple) and x[0] == '(' and same(x[1:], y[1:]) and same(a[i + 1:], b[j + 1:]):
                return True
            return same(a[i:], y[1:] + b[j + 1:])
        if isinstance(x, tuple) and isinstance(y, tuple):
            if x[0] != y[0] or not same(x[1:], y[1:]):
                return False
        elif x != y:
            return False
        i, j = i + 1, j + 1


def verdict(definition, rustc, ours):
    faults, printed = ours
    if rustc is None:
        return 'not reached by rustc'
    fits = not ({'CannotExpand', 'BrokenDefinition', 'unread', 'Unspellable'} & set(faults))
    if rustc[0] == 'refuses':
        return 'both refuse' if not fits else 'only the expander takes it'
    if not fits:
        return 'only rustc takes it'
    want, got = normal(rustc[1]), normal(printed)
    if want == got or ''.join(want) == ''.join(got):
        return 'same tokens'
    a, b = trees(want), trees(got)
    if a is not None and b is not None and ':expr' in re.sub(r'\s', '', definition) and same(a, b):
        return 'same but for parentheses'
    return 'other tokens'


def kind_of(source):
    return 'tests of rustc' if '/src/test/' in '/' + source else 'real code'


def main():
    folder, loud = sys.argv[1], '-v' in sys.argv
    counts = Counter()
    for path in sorted(glob.glob(os.path.join(folder, '*.json'))):
        source = json.load(open(path))
        for pair in source['pairs']:
            for call, rustc, ours in zip(pair['calls'], pair['rustc'], pair['ours']):
                v = verdict(pair['definition'], rustc, ours)
                counts[kind_of(source['source']), v] += 1
                if loud and v in ('other tokens', 'only rustc takes it', 'only the expander takes it'):
                    print('=' * 8, v, source['source'], os.path.basename(path))
                    print(pair['definition'][:1500])
                    print('--- call:', call[:600])
                    print('--- rustc:', rustc[1][:800])
                    print('--- ours:', ours[0], ours[1][:800])
    for kind in ('real code', 'tests of rustc'):
        taken = sum(counts[kind, v] for v in ('same tokens', 'same but for parentheses', 'other tokens', 'only rustc takes it'))
        if taken == 0:
            continue
        good = counts[kind, 'same tokens'] + counts[kind, 'same but for parentheses']
        print('%s: %d pairs that rustc expands, %d the same, %.3f %%' % (kind, taken, good, 100 * good / taken))
        for (k, v), n in sorted(counts.items()):
            if k == kind:
                print('    %6d %s' % (n, v))


if __name__ == '__main__':
    main()
