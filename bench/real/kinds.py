"""Counts the calls of macros in whole crates by where their definitions are.

    kinds.py PROGRAM LIBRARY FILES FOLDER..     at most FILES files are expanded

A crate is the library of a package of the folders, or its program where it has none, with the features that cargo sets
by default and the options that rustc sets. It is given the packages of the folders that it depends on, of whatever version
is there. Calls are those outside definitions, by bench/survey/scope.py. A call by a single name has the nearest definition
that `macros` lists for the file, wherever in the file the call is.
"""
import os, re, subprocess, sys
from collections import Counter
from glob import glob
from ask import std_picks
from packages import manifest, read_root
from scope import Crate

KINDS = ('own', 'scope', 'use', 'std', 'extern')
HEAD = re.compile(r'^// (.+)$', re.M)


def features(said):
    known, todo, seen = said.get('features', {}), ['default'], []
    while todo:
        name = todo.pop()
        if name in known and name not in seen:
            seen.append(name)
            todo += known[name]
    return seen


def root_of(folder, said):
    for path in (said.get('lib', {}).get('path', 'src/lib.rs'), 'src/main.rs'):
        if os.path.isfile(os.path.join(folder, path)):
            return path
    return None


def dependencies(said):
    """The crates that a package may name, but for optional ones whose feature is not set: name, and package."""
    on = ' '.join([' '.join(said.get('features', {}).get(name, [])) for name in features(said)] + features(said))
    tables = [said, *said.get('target', {}).values()]
    for name, how in [row for table in tables for row in table.get('dependencies', {}).items()]:
        how = how if isinstance(how, dict) else {}
        if not how.get('optional') or re.search(r'\b%s\b' % re.escape(name), on):
            yield name.replace('-', '_'), how.get('package', name)


class Package:
    def __init__(self, folder, library, host):
        said = manifest(folder)
        self.folder, self.root, self.said = folder, root_of(folder, said), said
        self.name = said.get('package', {}).get('name', os.path.basename(folder))
        edition = said.get('package', {}).get('edition', '2015')
        self.edition = edition if isinstance(edition, str) else '2021'
        self.words = ['--crate', self.root or '', '--edition', self.edition, '--std', library]
        self.words += ['--cfg=' + option for option in host]
        self.words += ['--cfg=feature="%s"' % name for name in features(said)]

    def give(self, packages):
        """Has the crates given that this one depends on."""
        for name, package in sorted(set(dependencies(self.said))):
            other = packages.get(package)
            if other and other.root and 'proc-macro' not in other.said.get('lib', {}):
                root = os.path.join(other.folder, other.root)
                self.words += ['--extern', '%s@%s=%s' % (name, other.edition, root)]

    def ask(self, program, action, *more):
        return subprocess.run([program, action, *self.words, *more], cwd=self.folder, capture_output=True, text=True)

    def listed(self, program):
        """By file, what each name is from. A crate of one file has a head too."""
        parts = HEAD.split(self.ask(program, 'macros').stdout)
        table = {}
        for name, lines in zip(parts[1::2], parts[2::2]):
            rows = [line.split(' ') for line in lines.splitlines() if line]
            table[os.path.normpath(os.path.join(self.folder, name))] = {row[0]: row[-1] for row in rows}
        return table

    def expanded(self, program, table):
        """By file of the table, the expansion, and whether it has a fault; and the words of all faults."""
        got = self.ask(program, 'expand', '--files')
        names = {os.path.relpath(path, self.folder): path for path in table}
        texts, name = {}, next(iter(names))
        for line in got.stdout.splitlines(keepends=True):
            if line.startswith('// ') and line[3:-1] in names and line[3:-1] not in texts:
                name = line[3:-1]
            texts.setdefault(name, []).append(line)
        told = [line for line in got.stderr.splitlines() if not line.startswith('filgordd: ')]
        faulty = {name for name in names if len(names) == 1 and told or any(line.startswith(name + ': ') for line in told)}
        found = {names[name]: (''.join(lines), name in faulty) for name, lines in texts.items()}
        return found, [line.rpartition(': ')[2] for line in told]

    def sources(self):
        crate, found = Crate(self.name), {}
        read_root(crate, os.path.join(self.folder, self.root), found)
        return crate, {os.path.realpath(path): source for path, (source, _) in found.items()}


def in_a_group(call):
    """Whether the nearest definition is in a group of the file, which `macros` does not list."""
    return bool(call.found) and call.found.source is call.source


def kind_of(call, names, crate, walked, picks, builtin):
    if call.by_path:
        return 'by a path'
    if call.name in names:
        return names[call.name]
    if in_a_group(call):
        return 'own, in a group'
    if call.name in builtin:
        return 'built into the compiler'
    if any(os.path.realpath(d.source.path) in walked for d in crate.definitions.get(call.name, ())):
        return 'none, though a file of the crate has one'
    return 'none, though std has one' if call.name in picks else 'another crate, or a procedural macro'


def accepts(text, edition):
    words = [os.environ.get('RUSTFMT', 'rustfmt'), '--edition', edition, '--emit', 'stdout']
    got = subprocess.run(words, input=text.encode(), capture_output=True)
    said = [line for line in got.stderr.decode(errors='replace').splitlines() if line.startswith('error')]
    return not [line for line in said if not line.startswith('error[internal]')]


def calls_in(text):
    tokens = [token for token in re.findall(r'\b([A-Za-z_]\w*) ! [({\[]', text)]
    return Counter(tokens)


def look_at(package, path, source, expansion, names, sums):
    """Counts what stays in the expansion of a file, and whether rustfmt accepts it."""
    text, faulty = expansion
    sums['expanded'] += 1
    sums['faultless'] += not faulty
    printed = calls_in(text)
    wanted = Counter(c.name for c in source.calls if not c.by_path and (c.name in names or in_a_group(c)))
    for name, count in wanted.items():
        sums['listed'] += count
        sums['stay'] += min(count, printed[name])
    if accepts(source.text, package.edition):
        good = accepts(text, package.edition)
        sums['formatted'] += 1
        sums['accepted'] += good
        if not good:
            print('rustfmt refuses %s' % path, file=sys.stderr)


def builtins(library):
    names = set()
    for path in glob(os.path.join(library, '*/src/**/*.rs'), recursive=True):
        with open(path, encoding='utf-8') as f:
            text = f.read()
        if 'rustc_builtin_macro' in text:
            crate = Crate('')
            crate.read(path, os.devnull)
            names |= {d.name for ds in crate.definitions.values() for d in ds if d.builtin}
    return names


def show(sums, kinds):
    total = sum(kinds.values())
    print('%d crates, %d files, %d calls' % (sums['crates'], sums['files'], total))
    for kind in sorted(kinds, key=lambda k: (k not in KINDS, -kinds[k])):
        print('    %7d %5.1f %% %s' % (kinds[kind], 100 * kinds[kind] / max(total, 1), kind))
    print('%d files were expanded, %d without a fault' % (sums['expanded'], sums['faultless']))
    for key, count in sorted((k, n) for k, n in sums.items() if k[0] == 'fault'):
        print('    %7d %s' % (count, key[1]))
    print('%d calls in them are of a listed macro or of one in a group, and %d are printed still' % (sums['listed'], sums['stay']))
    print('rustfmt accepts %d of %d expansions of files that it accepts' % (sums['accepted'], sums['formatted']))


def main():
    program, library, most, folders = sys.argv[1], sys.argv[2], int(sys.argv[3]), sys.argv[4:]
    sys.setrecursionlimit(100000)
    host = subprocess.run(['rustc', '--print', 'cfg'], capture_output=True, text=True).stdout.split('\n')[:-1]
    picks, builtin, sums, kinds = std_picks(library), builtins(library), Counter(), Counter()
    found = sorted(os.path.realpath(path) for top in folders for path in glob(os.path.join(top, '*/')))
    packages = [Package(path, library, host) for path in found]
    known = {package.name: package for package in packages}
    for package in [it for it in packages if it.root]:
        package.give(known)
        table = package.listed(program)
        walked = {os.path.realpath(path) for path in table}
        expansions, faults = package.expanded(program, table) if sums['expanded'] < most else ({}, [])
        sums.update(('fault', words) for words in faults)
        crate, sources = package.sources()
        sums['crates'] += 1
        for path, names in table.items():
            source = sources.get(os.path.realpath(path))
            if source is None:
                sums['unread'] += 1
                continue
            sums['files'] += 1
            kinds.update(kind_of(call, names, crate, walked, picks, builtin) for call in source.calls)
            if path in expansions:
                look_at(package, path, source, expansions[path], names, sums)
        print('%s: %d files' % (package.name, len(table)), file=sys.stderr, flush=True)
    show(sums, kinds)


if __name__ == "__main__":
    main()
