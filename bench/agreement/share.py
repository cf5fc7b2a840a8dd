"""Counts which calls of macros a text by itself can expand.

    share.py FOLDER..    counts calls in the Rust sources of these folders, by where their macro is defined

A call is a name, `!` and a group, outside every definition. It is `expanded` if a definition of the name stands
before it at the top level of its file, and `nested` if one stands before it in a group alone. Calls by a path
and those whose definition is in another file stay as they are.
"""
import sys
from collections import Counter
from cut import sources
from lexer import closings, lex


def count(path):
    tokens = lex(open(path, encoding='utf-8').read())
    ends = closings(tokens)
    if ends is None:
        return Counter()
    top, nested, found, closers, i = set(), set(), Counter(), [], 0
    while i < len(tokens):
        while closers and closers[-1] < i:
            closers.pop()
        kind, word, _, _ = tokens[i]
        if i in ends:
            closers.append(ends[i])
        elif kind == 'ident' and i + 2 < len(tokens) and tokens[i + 1][1] == '!':
            if word == 'macro_rules' and i + 3 in ends:
                (nested if closers else top).add(tokens[i + 2][1])
                i = ends[i + 3]
            elif i + 2 in ends:
                by_path = i > 0 and tokens[i - 1][1] in (':', '::')
                found['by a path' if by_path else 'expanded' if word in top else 'nested' if word in nested else 'elsewhere'] += 1
        i += 1
    return found


def main():
    files, found = 0, Counter()
    for path in sources(sys.argv[1:]):
        try:
            found += count(path)
            files += 1
        except ValueError:
            pass
    calls = sum(found.values())
    print('%d calls in %d files' % (calls, files))
    for where, n in found.most_common():
        print('    %6d %5.2f %% %s' % (n, 100 * n / calls, where))


if __name__ == '__main__':
    main()
