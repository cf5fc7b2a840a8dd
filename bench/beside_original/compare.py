"""Whether two printed texts have the same tokens, white space aside: compare.py ONE OTHER

It prints how many they are; or else the first that differ, with what comes before, and ends with status 1."""
import os
import sys

sys.path.insert(0, os.path.join(os.path.dirname(os.path.realpath(__file__)), "../agreement"))
sys.dont_write_bytecode = True
import lexer  # noqa: E402


def tokens_of(file):
    with open(file, encoding="utf-8") as it:
        return [text for _, text, _, _ in lexer.lex(it.read())]


one, other = (tokens_of(file) for file in sys.argv[1:3])
if one == other:
    print(len(one))
else:
    at = next((i for i, pair in enumerate(zip(one, other)) if pair[0] != pair[1]), min(len(one), len(other)))
    print(f"token {at} differs: {' '.join(one[max(at - 8, 0):at + 8])}\n  the other: {' '.join(other[max(at - 8, 0):at + 8])}")
    sys.exit(1)
