"""Counts what the scope rules change in real files.

    examine.py PROGRAM EVERY OUT FOLDER..     OUT gets what stays, and what rustfmt refuses

A call's definition is the nearest one of its file that Rust's textual scope finds, by bench/survey/scope.py. A call
stays by what the program prints, as in bench/survey/count.py.
"""
import os, subprocess, sys
from collections import Counter
from concurrent.futures import ProcessPoolExecutor
from ask import Prelude, expand
from count import Question, staying
from cut import sources
from packages import packages

SCOPES = ('top', 'rust')
SECONDS = 60


class Scoped(Question):
    """A file by itself, expanded by scope rules."""
    def __init__(self, program, source, edition, scope):
        self.options = '--scope', scope
        self.source, self.edition, self.program = source, edition, program
        self.printed, said = self.ask(())
        self.said = said.splitlines()

    def ask(self, calls):
        text = self.source.text
        for call in sorted(calls, key=lambda c: -c.start):
            text = text[:call.name_end] + '_filgordd_mark' + text[call.name_end:]
        return expand(self.program, text, self.edition, Prelude(), *self.options)


def accepts(text, edition):
    """Whether rustfmt reads this text: what it says of lines that it leaves as they are does not count."""
    words = ['rustfmt', '--edition', edition, '--emit', 'stdout']
    try:
        got = subprocess.run(words, input=text.encode(), capture_output=True, timeout=SECONDS)
    except subprocess.TimeoutExpired:
        return False, 'no answer within %d seconds' % SECONDS
    said = [line for line in got.stderr.decode(errors='replace').splitlines() if line.startswith('error')]
    said = [line for line in said if not line.startswith('error[internal]')]
    return not said, said[0] if said else ''


def examined(program, edition, path, source):
    sums, differs = Counter(files=1), []
    nested = [c for c in source.calls if c.found and c.found.source is source and c.found.depth and not c.by_path]
    sums['nested'] = len(nested)
    for scope in SCOPES:
        question = Scoped(program, source, edition, scope)
        if question.printed is None:
            sums['unread'] += scope == 'top'
            return sums, differs
        sums['faulty', scope] += bool(question.said)
        for line in question.said:
            sums['fault', line.rpartition(': ')[2], scope] += 1
            if scope == 'rust':
                differs.append('%s: %s' % (path, line))
        stays = question.stay(staying(question.printed, nested)) if nested else ()
        sums['stays', scope] += len(stays)
        if scope == 'rust':
            differs += ['stays: %s:%d: %s' % (path, call.line(), call.name) for call in stays]
    if question.printed.split() != source.text.split() and accepts(source.text, edition)[0]:
        sums['formatted'] += 1
        well, said = accepts(question.printed, edition)
        sums['accepted'] += well
        if not well:
            differs.append('rustfmt: %s: %s' % (path, said))
    return sums, differs


def of_package(task):
    program, edition, package, paths = task
    sys.setrecursionlimit(100000)
    sums, differs = Counter(), []
    for path, (source, _) in package.read(paths).items():
        more, lines = examined(program, edition, path, source)
        sums.update(more)
        differs += lines
    return sums, differs


def show(sums):
    print('%d files, %d of them not read; %d calls have their definition in a list around them'
          % (sums['files'], sums['unread'], sums['nested']))
    for scope in SCOPES:
        print('    by %-4s %d of these stay; %d files have a fault:' % (scope, sums['stays', scope], sums['faulty', scope]))
        for key, count in sorted((k, n) for k, n in sums.items() if k[0] == 'fault' and k[2] == scope):
            print('        %6d %s' % (count, key[1]))
    print('rustfmt accepts %d of %d expansions of files that it accepts' % (sums['accepted'], sums['formatted']))


def main():
    program, every, out, folders = sys.argv[1], int(sys.argv[2]), sys.argv[3], sys.argv[4:]
    paths = [path for path in sources(folders) if '/src/test/' not in path][::every]
    tasks = [(program, package.edition, package, part) for package, part in packages(paths).items()]
    sums, differs = Counter(), []
    with ProcessPoolExecutor(os.cpu_count()) as pool:
        for more, lines in pool.map(of_package, tasks):
            sums.update(more)
            differs += lines
    show(sums)
    with open(out, 'w') as f:
        f.writelines(line + '\n' for line in differs)


if __name__ == '__main__':
    main()
