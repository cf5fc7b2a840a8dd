"""Finds the packages in folders, and reads the crates of each."""
import os, tomllib
from glob import escape, glob
from scope import Crate

TARGETS = ('src/main.rs', 'src/bin/*.rs', 'src/bin/*/main.rs', 'tests/*.rs', 'tests/*/main.rs', 'examples/*.rs',
           'examples/*/main.rs', 'benches/*.rs', 'benches/*/main.rs', 'build.rs')


class Package:
    def __init__(self, folder, said):
        package = said.get('package', {})
        self.folder, self.said = folder, said
        self.name = package.get('name', '').replace('-', '_')
        edition = package.get('edition', '2015')
        self.edition = edition if isinstance(edition, str) else workspace_edition(folder)

    def library_root(self):
        return os.path.join(self.folder, self.said.get('lib', {}).get('path', 'src/lib.rs'))

    def roots(self):
        """The files that are crates of their own, but for the library."""
        targets = [target for kind in ('bin', 'test', 'example', 'bench') for target in self.said.get(kind, [])]
        named = [os.path.join(self.folder, target['path']) for target in targets if 'path' in target]
        found = [p for pattern in TARGETS for p in sorted(glob(os.path.join(escape(self.folder), pattern)))]
        return list(dict.fromkeys(named + found))

    def read(self, files):
        """The sources of these files, each with its crate: of a file in several crates, that of the first."""
        library = Crate(self.said.get('lib', {}).get('name', self.name))
        found = {}
        if os.path.isfile(self.library_root()):
            read_root(library, self.library_root(), found)
        for root in self.roots():
            if os.path.normpath(root) not in found and os.path.isfile(root):
                read_root(Crate('', library), root, found)
        for path in files:
            if path not in found:
                read_root(Crate(''), path, found, alone=True)
        return {path: found[path] for path in files if path in found}


def read_root(crate, root, found, alone=False):
    root = os.path.normpath(root)
    crate.read(root, os.path.dirname(root) if not alone else os.devnull)
    for path, source in crate.sources.items():
        found.setdefault(path, (source, crate))


def workspace_edition(folder):
    while folder != os.path.dirname(folder):
        folder = os.path.dirname(folder)
        said = manifest(folder)
        if 'workspace' in said:
            return said['workspace'].get('package', {}).get('edition', '2015')
    return '2015'


def manifest(folder):
    try:
        with open(os.path.join(folder, 'Cargo.toml'), 'rb') as f:
            return tomllib.load(f)
    except (OSError, ValueError):
        return {}


def packages(paths):
    """The packages of these files, each with its files: those below its folder that are in no package within."""
    known, of = {}, {}
    for path in paths:
        folder = os.path.dirname(path)
        of.setdefault(owner(folder, known), []).append(path)
    return of


def owner(folder, known):
    """The nearest folder at or above that has a package; with none, the file's own folder."""
    above = folder
    while above != os.path.dirname(above):
        if above not in known:
            said = manifest(above)
            known[above] = Package(above, said) if 'package' in said else None
        if known[above]:
            return known[above]
        above = os.path.dirname(above)
    known[folder] = Package(folder, {})
    return known[folder]
