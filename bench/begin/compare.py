"""Compares which rule rustc and the expander take.

    compare.py FILE    prints of the rows that ask.py wrote the share that agrees, and the first that differ
"""
import json, sys
from collections import Counter

SHOWN = 30


def share(part, whole):
    return '%d of %d, that is %.3f %%' % (part, whole, 100 * part / whole)


def by(rows, place):
    """The shares by what stands at this place of a row."""
    all_of = Counter(r[place] for r in rows)
    same = Counter(r[place] for r in rows if r[4] == r[5])
    return ['    %-10s %s' % (k, share(same[k], n)) for k, n in sorted(all_of.items())]


def main():
    rows = json.load(open(sys.argv[1]))
    taken = [r for r in rows if r[4] != 'error' and r[5] != 'unanswered']
    differs = [r for r in taken if r[4] != r[5]]
    print('%d inputs; rustc takes %d; the program left out %d of them' % (
        len(rows), sum(r[4] != 'error' for r in rows), sum(r[4] != 'error' and r[5] == 'unanswered' for r in rows)))
    print('the same rule: ' + share(len(taken) - len(differs), len(taken)))
    print('\n'.join(by(taken, 1) + by(taken, 0)))
    for year, kind, follow, argument, rustc, ours in differs[:SHOWN]:
        print('%s `$x:%s%s` on `%s`: rustc %s, here %s' % (year, kind, ' ' + follow if follow else '', argument, rustc, ours))


if __name__ == '__main__':
    main()
