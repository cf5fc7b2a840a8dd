"""Whether texts are laid out as the same tokens: compare.py PROGRAM FOLDER

Each file of the folder is a printed text. For each the program's layout is cut into tokens by a lexer of its own, and compared
with the tokens of the printed text: the texts of all in order, and which signs side by side make an operator. It
prints how many files differ, how many are not laid out, how many lines are over 120 columns, and the time."""
import os
import subprocess
import sys

sys.path.insert(0, os.path.join(os.path.dirname(os.path.abspath(__file__)), '..', 'agreement'))
from lexer import lex  # noqa: E402

WIDTH = 120
OPERATORS = set('== != <= >= && || += -= *= /= %= ^= &= |= << >> :: -> => <- .. .='.split())


def tokens_of(text):
    """The tokens, each with whether it goes on with an operator of the one right before it."""
    found, end, before = [], None, ''
    for _, word, start, stop in lex(text):
        found.append((word, start == end and before + word in OPERATORS))
        end, before = stop, word
    return found


def laid_out(program, turns, text):
    done = subprocess.run([program], input=b'%d' % turns + text, capture_output=True, timeout=600)
    if done.returncode:
        sys.exit(f'layout: {program} stopped with status {done.returncode}')
    return done.stdout


def seconds(program, turns, text):
    before = os.times()
    laid_out(program, turns, text)
    after = os.times()
    return after.children_user + after.children_system - before.children_user - before.children_system


def main(program, files):
    differ, stay, lines, wide, held, texts = [], [], 0, 0, 0, []
    for file in files:
        with open(file, 'rb') as it:
            printed = it.read()
        if not printed.strip():
            continue
        texts.append(printed)
        laid = laid_out(program, 1, printed)
        if tokens_of(laid.decode()) != tokens_of(printed.decode()):
            differ.append(file)
        if laid == printed and printed.count(b' ') > 3:
            stay.append(file)
        for line in laid.decode().split('\n'):
            lines += 1
            if len(line) > WIDTH:
                wide += 1
                held += max((len(word) for _, word, _, _ in lex_or_none(line)), default=WIDTH) > WIDTH - 40
    whole = b''.join(texts)
    size = len(whole) / 1e6
    took = min(seconds(program, 5, whole) for _ in range(3)) - min(seconds(program, 0, whole) for _ in range(3))
    print(f'{len(texts)} texts, {size:.2f} MB: {len(differ)} differ, {len(stay)} stay as printed')
    print(f'{lines} lines, {wide} over {WIDTH} columns ({100 * wide / max(lines, 1):.2f} %), {held} of them with a token of more than {WIDTH - 40}')
    print(f'{1000 * took / 5 / size:.1f} ms a MB')
    for file in (differ + stay)[:20]:
        print(f'  {file}')
    return 1 if differ else 0


def lex_or_none(line):
    try:
        return lex(line)
    except (ValueError, AttributeError):
        return []


if __name__ == '__main__':
    sys.exit(main(sys.argv[1], sorted(os.path.join(sys.argv[2], it) for it in os.listdir(sys.argv[2]))))
