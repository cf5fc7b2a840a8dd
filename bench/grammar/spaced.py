#!/usr/bin/env python3
"""Prints Rust sources with a space between two tokens, up to so many bytes: spaced.py BYTES FILE..

A literal stands as `0`, and puncts that stand side by side stay so. A file whose brackets do not pair is
left out.
"""
import os, sys
sys.path.insert(0, os.path.join(os.path.dirname(os.path.abspath(__file__)), '..', 'agreement'))
from lexer import CLOSE, OPEN, closings, lex


def spaced(text):
    tokens = lex(text)
    if closings(tokens) is None:
        return ''
    words, last, glued = [], 0, False
    for kind, word, start, end in tokens:
        is_sign = kind == 'punct' and word not in OPEN and word not in CLOSE
        if kind == 'doc' or not word.isascii():
            continue
        if is_sign and glued and start == last:
            words[-1] += word
        elif kind in ('raw', 'string', 'char', 'number'):
            words.append('0')
        elif kind == 'lifetime':
            words += ["'", word[1:]]
        else:
            words.append(word[2:] if word.startswith('r#') else word)
        glued, last = is_sign, end
    return ' '.join(words) + ' '


def main():
    left, out = int(sys.argv[1]), []
    for path in sys.argv[2:]:
        try:
            text = spaced(open(path, encoding='utf-8').read())
        except ValueError:
            continue
        if left < len(text):
            continue
        left -= len(text)
        out.append(text)
    print(''.join(out), end='')


main()
