"""Asks the expander for the expansion of a text behind definitions of other files.

A program that has `--std` and `--with` gets them by these options. Another gets the same definitions as text in
front of the file: then `$crate` prints `crate` everywhere, and definitions of the file hide those of std from std.
"""
import functools, os, re, subprocess, sys, tempfile
from scope import Crate

STD = ('core/src/macros/mod.rs', 'alloc/src/macros.rs', 'std/src/macros.rs', 'std/src/thread/local.rs')
UNREAD = re.compile(rb': (bad token|closing bracket does not fit|group left open)$', re.M)
SECONDS = 20


def std_picks(library):
    """The definitions that `--std` takes of these files, by name."""
    found = {}
    for name in STD:
        crate = Crate('')
        crate.read(os.path.join(library, name), os.devnull)
        if crate.unread:
            sys.exit('%s cannot be read' % crate.unread[0])
        for definitions in crate.definitions.values():
            found.update((d.name, d) for d in definitions if d.depth == 0 and d.exported and not d.builtin)
    return found


class Prelude:
    """Definitions of other files: those of std, if `library` is its folder, and these, the nearest last, each with
    the name of its crate, or none for the text's own."""
    def __init__(self, library=None, picks=(), edition='2021'):
        self.library, self.picks, self.edition = library, picks, edition

    def front(self):
        std = std_front(self.library) if self.library else ''
        return std + ''.join(definition.text() + '\n' for definition, _ in self.picks)

    def options(self, folder):
        words = ['--std', self.library] if self.library else []
        homes = []
        for _, home in self.picks:
            if home not in homes:
                homes.append(home)
        for number, home in enumerate(homes):
            path = os.path.join(folder, '%d.rs' % number)
            with open(path, 'w', newline='') as f:
                f.writelines(definition.text() + '\n' for definition, its in self.picks if its == home)
            words += ['--with', ('%s@%s=' % (home, self.edition) if home else '') + path]
        return words


@functools.cache
def std_front(library):
    return ''.join(d.text() + '\n' for d in std_picks(library).values())


@functools.cache
def has_options(program):
    got = subprocess.run([program, 'expand', '--help'], capture_output=True)
    return b'--std' in got.stdout


def expand(program, text, edition, prelude, *options):
    """What the program prints of this text, or nothing if it cannot read it or takes too long; and what it says."""
    words = [program, 'expand', '--edition', edition, *options]
    with tempfile.TemporaryDirectory() as folder:
        if has_options(program):
            words += prelude.options(folder)
        else:
            text = prelude.front() + text
        try:
            got = subprocess.run(words, input=text.encode(), capture_output=True, timeout=SECONDS)
        except subprocess.TimeoutExpired:
            return None, 'no answer within %d seconds' % SECONDS
    said = got.stderr.decode()
    if got.returncode not in (0, 1) or UNREAD.search(got.stderr) and not got.stdout:
        return None, said
    return got.stdout.decode(), said
