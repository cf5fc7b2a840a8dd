"""Cuts definitions and calls of macros out of Rust sources.

    cut.py OUT FOLDER..     writes OUT/NAME.json for each source with a pair

A pair is a call, and the last definition of its macro before it in the same source. Calls in definitions,
and calls with a `$`, are not taken, since they have variables. Of one definition at most 25 calls are
taken, spread over all.
"""
import json, os, sys
from lexer import closings, lex, OPEN

MOST_CALLS = 25
MOST_BYTES = 400_000


def cut(text):
    tokens = lex(text)
    ends = closings(tokens)
    if ends is None:
        return []
    found, known = [], {}
    i = 0
    while i < len(tokens):
        kind, word, start, _ = tokens[i]
        if kind == 'ident' and i + 2 < len(tokens) and tokens[i + 1][1] == '!':
            if word == 'macro_rules' and i + 3 < len(tokens) and i + 3 in ends:
                end = ends[i + 3]
                known[tokens[i + 2][1]] = len(found)
                semi = '' if tokens[i + 3][1] == '{' else ';'
                found.append(('definition', tokens[i + 2][1], text[start:tokens[end][3]] + semi, []))
                i = end + 1
                continue
            if word in known and i + 2 in ends:
                call = text[start:tokens[ends[i + 2]][3]]
                calls = found[known[word]][3]
                if call not in calls and '$' not in call:
                    calls.append(call)
        i += 1
    return [d for d in found if d[3]]


def spread(calls):
    if len(calls) <= MOST_CALLS:
        return calls
    return [calls[k * len(calls) // MOST_CALLS] for k in range(MOST_CALLS)]


def sources(folders):
    for folder in folders:
        for place, inner, files in os.walk(folder):
            inner.sort()
            for name in sorted(files):
                path = os.path.join(place, name)
                if name.endswith('.rs') and not os.path.islink(path) and os.path.getsize(path) <= MOST_BYTES:
                    yield path


def pairs_of(path, seen):
    try:
        text = open(path, encoding='utf-8').read()
        found = cut(text) if 'macro_rules!' in text else []
    except ValueError:
        return []
    pairs = []
    for _, macro, definition, calls in found:
        calls = [c for c in calls if (definition, c) not in seen and '\0' not in c]
        seen.update((definition, c) for c in calls)
        if calls:
            pairs.append({'macro': macro, 'definition': definition, 'calls': spread(calls)})
    return pairs


def main():
    out, folders = sys.argv[1], sys.argv[2:]
    os.makedirs(out, exist_ok=True)
    number, seen = 0, set()
    for path in sources(folders):
        pairs = pairs_of(path, seen)
        if pairs:
            number += 1
            with open(os.path.join(out, '%05d.json' % number), 'w') as f:
                json.dump({'source': path, 'pairs': pairs}, f)
    print(number, 'sources with pairs')


if __name__ == '__main__':
    main()
