"""Where rustc and `filgordd explain` say that calls stop.

    places.py PROGRAM WORK SEED..

Both are asked of the same texts, 90 calls in each, since only the first 100 faults of a text are explained. Each call
stands on a line of its own, by which it is known. Where rustc marks an argument's end, or the whole call since it has no
argument, the closing bracket counts.
"""
import json, os, re, subprocess, sys
from collections import Counter
from calls import macros

CALLS = 90
TEXTS = 2
PLACE = re.compile(r'^error: no rule matches this call of `\w+`\n +--> [^\n]*:(\d+):(\d+)$', re.M)


def by_rustc(path):
    """By line of the call: the column, and the message. `None` as column is the argument's end."""
    words = ['rustc', '--edition', '2024', '--crate-type', 'lib', '--error-format=json', '--out-dir', os.path.dirname(path)]
    told, others = {}, []
    for line in subprocess.run(words + [path], capture_output=True, text=True).stderr.splitlines():
        said = json.loads(line)
        spans = [span for span in said.get('spans', ()) if span['is_primary']]
        if said.get('level') != 'error' or not spans:
            continue
        known = ('no rules expected', 'unexpected end of macro', 'local ambiguity')
        if not said['message'].startswith(known):
            others.append(said['message'])
            continue
        is_end = said['message'].startswith('unexpected end')
        told[spans[0]['line_start']] = (None if is_end else spans[0]['column_start'], said['message'])
    return told, others


def by_us(program, path):
    ran = subprocess.run([program, 'explain', '--edition', '2024', path], capture_output=True, text=True)
    return {int(line): int(column) for line, column in PLACE.findall(ran.stdout)}


def compare(path, program, sums, show):
    lines = open(path, encoding='utf-8').read().splitlines()
    rustc, others = by_rustc(path)
    ours = by_us(program, path)
    sums.update(others=len(others), calls=len(lines) // 2)
    for line in sorted(rustc.keys() | ours.keys()):
        if line not in ours or line not in rustc:
            kind = 'refused by rustc alone' if line not in ours else 'refused here alone'
        else:
            column, end = rustc[line][0], lines[line - 1].rindex(');') + 1
            kind = 'the same place' if (column or end) == ours[line] else 'another place'
        sums[kind] += 1
        if show and kind != 'the same place':
            print(kind, rustc.get(line), ours.get(line), *lines[line - 2:line], sep='\n    ')


def main():
    program, work, seeds = sys.argv[1], sys.argv[2], sys.argv[3:]
    sums = Counter()
    for seed in seeds:
        for part in range(TEXTS):
            path = os.path.join(work, 'calls_%s_%d.rs' % (seed, part))
            with open(path, 'w', encoding='utf-8') as f:
                f.write(macros('%s/%d' % (seed, part), CALLS))
            compare(path, program, sums, os.environ.get('VERBOSE'))
    both = sums['the same place'] + sums['another place']
    print('%d calls, %d of them refused by both' % (sums['calls'], both))
    print('the same place: %d, %.2f %%' % (sums['the same place'], 100 * sums['the same place'] / max(both, 1)))
    for kind in ('another place', 'refused by rustc alone', 'refused here alone'):
        print('%s: %d' % (kind, sums[kind]))
    if sums['others']:
        print('%d other errors of rustc' % sums['others'])


main()
