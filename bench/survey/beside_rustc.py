"""Asks rustc about calls, by bench/agreement/judge.py, and compares.

    beside_rustc.py cut OUT LIBRARY                writes OUT/std for judge.py from OUT/std_calls.json
    beside_rustc.py std OUT LIBRARY PROGRAM YEAR   prints for how many of these the program gives the same tokens
    beside_rustc.py stays OUT                      prints what rustc says of each call in OUT/stays.json

Those where it is otherwise are added to OUT/differs. LIBRARY is the folder of std's sources: both sides have the
definitions of its text. Each call is expanded by one level, by itself. The normal form is that of
bench/agreement/compare.py, and `$crate` is the word that the program prints for it.
"""
import json, os, sys, tempfile
from collections import Counter
from glob import glob
from ask import Prelude, expand, has_options, std_picks
from compare import verdict
from count import MODES, write_pairs
from cut import spread
from judge import asked, crate

MOST_LETTERS = 2000
SAYS = {'no rule matches this call': 'CannotExpand', 'broken macro definition': 'BrokenDefinition'}


def cut(out, library):
    known, pairs = json.load(open(os.path.join(out, 'std_calls.json'))), []
    for name, definition in std_picks(library).items():
        calls = [c for c in known.get(name, []) if '$' not in c and '\0' not in c and len(c) <= MOST_LETTERS]
        # a reserved word since edition 2018
        if calls and name != 'try':
            pairs.append({'macro': name, 'definition': definition.text(), 'calls': spread(calls)})
    write_pairs(os.path.join(out, 'std'), pairs)


def pairs_of(out, part):
    for path in sorted(glob(os.path.join(out, part, '*.json'))):
        for pair in json.load(open(path))['pairs']:
            for call, rustc in zip(pair['calls'], pair['rustc']):
                yield pair['macro'], pair['definition'], call, rustc


def ours_of(program, library, call, year):
    """The kinds of faults, and what is printed of a call by one level."""
    printed, said = expand(program, call, year, Prelude(library), '--depth', '1')
    if printed is None:
        return ['unread'], ''
    return [SAYS.get(line.rpartition(': ')[2], '') for line in said.splitlines()], printed


def std(out, library, program, year):
    picks, counts, others = std_picks(library), Counter(), []
    for name, definition, call, rustc in pairs_of(out, 'std'):
        root = 'crate'
        if has_options(program):
            root = os.path.relpath(picks[name].source.path, library).split(os.sep)[0]
        ours = ours_of(program, library, call, year)
        if rustc and rustc[0] == 'gives':
            rustc = ['gives', rustc[1].replace('$crate', root)]
        v = verdict(definition, rustc, ours)
        counts[v] += 1
        if not v.startswith('same'):
            others.append('%s: %s\n    rustc: %s\n    ours:  %s %s' % (v, call, rustc, *ours))
    same = sum(n for v, n in counts.items() if v.startswith('same'))
    refused = counts['both refuse']
    print('of %d calls of std\'s macros both refuse %d, and %d of %d others have the tokens that rustc gives'
          % (sum(counts.values()), refused, same, sum(counts.values()) - refused))
    for v, n in sorted(counts.items()):
        print('    %6d %s' % (n, v))
    for line in others:
        print('    ' + line.replace('\n', '\n    '))
    add(out, others)


def add(out, lines):
    with open(os.path.join(out, 'differs'), 'a') as f:
        f.writelines(line + '\n' for line in lines)


def rejects(definition, edition):
    """Whether rustc reports an error in this definition, which nothing calls."""
    text = crate({'pairs': [{'definition': definition, 'calls': []}]})[0]
    start = len(text[:text.index(definition)].encode())
    with tempfile.NamedTemporaryFile('w', suffix='.rs') as f:
        f.write(text)
        f.flush()
        return any(at >= start for at in asked(f.name, edition)[1])


def rustc_says(stay, outcome):
    if stay['around'] and stay['around'].startswith('quote'):
        return 'takes it as tokens'
    said = {'gives': 'expands it', 'refuses': 'refuses it'}.get((outcome or [''])[0], 'does not reach it')
    return said + (', and rejects the definition' if rejects(stay['definition'], stay['edition']) else '')


def stays(out):
    """Each call that is in sight and stays: what the program reports, and what rustc says of the call by itself, in
    the file's edition, with the nearest definition. The argument of `quote!` is tokens to rustc."""
    found = json.load(open(os.path.join(out, 'stays.json')))
    for path in glob(os.path.join(out, 'stays', '*', '*.json')):
        for pair in json.load(open(path))['pairs']:
            stay = found[pair['stay']]
            stay['rustc'] = rustc_says(stay, pair['rustc'][0])
    for kind in sorted({stay['kind'] for stay in found}):
        rows = {}
        for stay in found:
            if stay['kind'] == kind:
                where = 'in an argument' if stay['around'] else 'nearer in a group' if stay['nearer'] else ''
                row = rows.setdefault((stay['fault'], stay['rustc'], where), Counter())
                row.update(stay['modes'])
                row['calls'] += 1
        print('%s: calls that are in sight and stay' % kind)
        print('    %7s %7s %13s  the program reports; rustc' % MODES)
        for (fault, rustc, where), row in sorted(rows.items(), key=lambda r: -r[1]['calls']):
            print('    %7d %7d %13d  %s; %s%s' % (*(row[mode] for mode in MODES), fault, rustc, where and '; ' + where))
    add(out, ['%s:%d: %s! stays: %s; rustc %s' % (s['path'], s['line'], s['macro'], s['fault'], s['rustc']) for s in found])


if __name__ == '__main__':
    sys.setrecursionlimit(100000)
    {'cut': cut, 'std': std, 'stays': stays}[sys.argv[1]](*sys.argv[2:])
