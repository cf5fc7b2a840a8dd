"""Holds the steps of calls that the expander tells beside those of rustc.

    steps.py PROGRAM LIBRARY FOLDER..

rustc tells the steps of a call that is written in a text together, at its place: what is expanded and to what, however
deep. Ours are put together alike: a step belongs to the nearest call around it, or itself, whose name is written in the
text. Steps are compared as tokens, by bench/agreement/compare.py; what is in a call's brackets counts, not their kind. Steps of macros for which the expander has no definition are counted
apart.
"""
import json, os, re, subprocess, sys
from collections import Counter, defaultdict
from glob import glob
from compare import normal, same, trees
from kinds import Package

# What `$crate` is printed as, of this crate or another.
ROOTS = ('crate', 'core', 'std', 'alloc')
CALL = re.compile(r'^(.*?)\s*!\s*(?:[({\[])(.*)[)}\]]$', re.S)


def rustc_steps(package):
    """By file, line and column, what is expanded and to what, in order."""
    words = ['rustc', '--edition', package.edition, '--crate-type', 'lib', '--crate-name', 'c', '-Ztrace-macros']
    words += ['-Zunpretty=expanded', '--error-format=json', *[w for w in package.words if w.startswith('--cfg=feature')]]
    env = {**os.environ, 'RUSTC_BOOTSTRAP': '1'}
    got = subprocess.run(words + [package.root], cwd=package.folder, capture_output=True, text=True, env=env)
    table = defaultdict(list)
    for line in got.stderr.splitlines():
        said = json.loads(line) if line.startswith('{') else {}
        if said.get('message') != 'trace_macro':
            continue
        span, notes = said['spans'][0], [child['message'] for child in said['children']]
        path = os.path.realpath(os.path.join(package.folder, span['file_name']))
        pairs = [(a[len('expanding `'):-1], b[len('to `'):-1]) for a, b in zip(notes[::2], notes[1::2])]
        table[path].append(((span['line_start'] - 1, span['column_start'] - 1), pairs))
    return table


def seen_files(package, program):
    """By file, the other files whose macros it sees of its crate, the nearest last."""
    found, name = {}, None
    for line in package.ask(program, 'macros').stdout.splitlines():
        if line.startswith('// '):
            name = line[3:]
        parts = line.split(' ')
        if len(parts) == 3 and parts[2] in ('scope', 'use') and not line.startswith('//'):
            path = parts[1].rsplit(':', 2)[0]
            files = found.setdefault(name, [])
            if path in files:
                files.remove(path)
            files.append(path)
    return found


def our_steps(package, program, path, behind):
    """By line and column of a name in the text, the steps that belong to it; and the steps by themselves."""
    words = [program, 'trace', '--json', '--edition', package.edition]
    words += [w for w in package.words if w.startswith('--cfg')] + ['--std', package.library]
    words += [w for file in behind for w in ('--with', file)]
    got = subprocess.run([*words, path], cwd=package.folder, capture_output=True, text=True)
    steps, roots, table = [], [], defaultdict(list)
    for line in got.stdout.splitlines():
        said = json.loads(line)
        if said['answer'] != 'step':
            continue
        call, outcome = said['call'], said['outcome']
        place = call['at'].get('start')
        is_own = not call['made'] and place is not None
        root = tuple(place) if is_own or said['parent'] is None else roots[said['parent']]
        steps.append(said)
        roots.append(root)
        if outcome['result'] is not None:
            table[root].append((call['name'].rpartition(':')[2], call['tokens']['text'], outcome['result']['text']))
    return table, {step['call']['name'].rpartition(':')[2] for step in steps if step['outcome']['macro']}


def argument(text):
    found = CALL.match(text.strip())
    return found[2] if found else text


def equal(want, got):
    b = normal(got)
    for root in ROOTS:
        a = normal(want.replace('$crate', root))
        if a == b or ''.join(a) == ''.join(b):
            return True
        some, others = trees(a), trees(b)
        if some is not None and others is not None and same(some, others):
            return True
    return False


def compare(told, ours, known, sums, show):
    for pair in told:
        name = pair[0].split('!')[0].strip().split(':')[-1].strip()
        if name not in known:
            sums['no definition'] += 1
            continue
        mine = [step for step in ours if step[0] == name]
        good = [step for step in mine if equal(argument(pair[0]), argument(step[1])) and equal(pair[1], step[2])]
        kind = 'the same' if good else 'another result' if mine else 'not at this place'
        sums[kind] += 1
        if show and not good:
            print('%s: %s\n    rustc: %s\n    here: %s' % (kind, pair[0], pair[1], mine[:2]))


def main():
    program, library, folders = sys.argv[1], sys.argv[2], sys.argv[3:]
    host = subprocess.run(['rustc', '--print', 'cfg'], capture_output=True, text=True).stdout.split('\n')[:-1]
    sums, show = Counter(), os.environ.get('VERBOSE')
    for folder in sorted(path for top in folders for path in glob(os.path.join(top, '*/'))):
        package = Package(os.path.realpath(folder), library, host)
        if not package.root:
            continue
        package.library = library
        behind, before = seen_files(package, program), Counter(sums)
        for path, calls in sorted(rustc_steps(package).items()):
            name = os.path.relpath(path, package.folder)
            ours, known = our_steps(package, program, path, behind.get(name, []))
            sums['files'] += 1
            for place, pairs in calls:
                compare(pairs, ours.get(place, []), known, sums, show)
        print(package.name, dict(sums - before), file=sys.stderr, flush=True)
    alike = sums['the same'] + sums['another result'] + sums['not at this place']
    print('%d files, %d steps told by rustc' % (sums['files'], alike + sums['no definition']))
    print('%d of them are of a macro that has a definition here' % alike)
    for kind in ('the same', 'another result', 'not at this place'):
        print('%8d %5.2f %% %s' % (sums[kind], 100 * sums[kind] / max(alike, 1), kind))


main()
