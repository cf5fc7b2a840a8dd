"""Asks the expander what the calls give.

    ours.py FOLDER YEAR PROGRAM..    adds to each FOLDER/NAME.json what PROGRAM says of each call

PROGRAM reads texts as bench/agreement/main.rt.in says. A text is a definition, and behind it its calls, each
after a mark with its number.
"""
import glob, json, os, re, subprocess, sys

MARK = 'filgordd_mark_%d'
MOST_BYTES = 4_000_000


def text_of(pair):
    """The text, and where each call starts in it."""
    text, starts = pair['definition'], []
    for number, call in enumerate(pair['calls']):
        text += '\n' + MARK % number + '\n'
        starts.append(len(text.encode()))
        text += call
    return text, starts


def answers_of(pair, part):
    """For each call the kinds of its faults, and what is printed of it."""
    told, printed = part.split('\n', 1)
    faults = [(k, int(at)) for k, at in (f.split('@') for f in told.split())]
    starts = text_of(pair)[1]
    pieces = re.split(r'filgordd_mark_\d+', printed)
    if len(pieces) != len(starts) + 1:
        return [[[k for k, _ in faults] or ['unread'], ''] for _ in starts]
    ends = starts[1:] + [1 << 40]
    return [[[k for k, at in faults if a <= at < b or at < starts[0]], piece] for a, b, piece in zip(starts, ends, pieces[1:])]


def ask(program, year, pairs):
    text = year[3] + '\0'.join(text_of(p)[0] for p in pairs)
    got = subprocess.run(program, input=text.encode(), capture_output=True)
    parts = got.stdout.decode().split('\0')
    if len(parts) <= len(pairs):
        sys.exit('%s answered %d of %d texts: %s' % (program, len(parts) - 1, len(pairs), got.stderr.decode()[-300:]))
    for pair, part in zip(pairs, parts):
        pair['ours'] = answers_of(pair, part)


def main():
    folder, year, program = sys.argv[1], sys.argv[2], sys.argv[3:]
    sources = [(p, json.load(open(p))) for p in sorted(glob.glob(os.path.join(folder, '*.json')))]
    some, size = [], 0
    for _, source in sources:
        for pair in source['pairs']:
            some.append(pair)
            size += len(text_of(pair)[0])
            if size > MOST_BYTES:
                ask(program, year, some)
                some, size = [], 0
    if some:
        ask(program, year, some)
    for path, source in sources:
        with open(path, 'w') as f:
            json.dump(source, f)


if __name__ == '__main__':
    main()
