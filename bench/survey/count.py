"""Counts the calls that have a definition in sight, and those that the expander expands.

    count.py PROGRAM LIBRARY OUT FOLDER..    LIBRARY is the folder of std's sources

The calls are those outside definitions. Three times the text of each file is expanded: by itself, behind the
definitions of std, and behind those and the ones of its crate that are in scope. A call has a definition in sight
by scope.py. It is expanded by what the program prints, and not by scope.py:

- if no call of its name stands in what is printed, the call is expanded;
- else it gets a name that nothing defines. If then the same is printed but for this name, the call stays.

Names that stand behind a path and names that do not are held apart. A call that the macro around it drops is gone
with that one. A call whose name nothing defines stays, so a file that has no other is not run.

Definitions in groups are none to the expander, which then expands a call by one that is farther: Rust's rules find
a nearer definition. OUT/differs gets the calls whose two answers differ. OUT/stays.json gets those of them that have a
definition and stay, each with the fault that the program reports at it, and OUT/stays the same for rustc, by edition,
with the nearest definition. OUT/std_calls.json gets the calls of std's macros.
"""
import json, os, re, sys
from collections import Counter
from cut import sources
from lexer import closings, lex
from ask import Prelude, expand, std_picks
from packages import packages
from scope import STD

MODES = ('nothing', 'std', 'std and crate')
MARK = '_filgordd_mark'
PLACES = {
    'own': 'at the top level of the file',
    'std': 'in std',
    'crate': 'in another file of the package',
    'in a group': 'in a group of the file',
    'by a path': 'found by a path',
    'elsewhere': 'elsewhere, as in another package, or built in',
}


class File:
    """A file: for each call where its definition is, and the definitions of other files that are in scope."""
    def __init__(self, source, crate, edition, std):
        self.source, self.edition, self.std = source, edition, std
        self.picks = {d.name: (d, None) for d in source.outer.values() if d and not d.builtin}
        self.places = {}
        for call in source.calls:
            self.places[call], found, home = place_of(call, source, crate, std)
            if self.places[call] == 'crate':
                self.picks.pop(found.name, None)
                self.picks[found.name] = found, home

    def definition(self, mode, call):
        """The definition that a call has in sight in this mode, and whether Rust finds it too."""
        place = self.places[call]
        if call.by_path:
            return None, True
        if call.own:
            return call.own, place == 'own'
        if mode == 'std and crate' and call.name in self.picks:
            return self.picks[call.name][0], place == 'crate'
        if mode != 'nothing' and call.name in self.std:
            return self.std[call.name], place == 'std'
        return None, True

    def known(self, mode):
        """The names that a definition has in this mode."""
        names = set(self.source.own)
        if mode != 'nothing':
            names |= self.std.keys()
        if mode == 'std and crate':
            names |= self.picks.keys()
        return names

    def prelude(self, mode, library):
        if mode == 'nothing':
            return Prelude()
        return Prelude(library, list(self.picks.values()) if mode == 'std and crate' else (), self.edition)


def place_of(call, source, crate, std):
    """Where the definition of a call is; and if it is of the package, itself, and the name of its crate if that is
    another."""
    by_std = 'std' if call.name in std else 'elsewhere', None, None
    if call.by_path:
        return 'by a path', None, None
    found, home = call.found, None
    if not found and call.path:
        if call.path[0] in STD:
            return by_std
        found = crate.imported(call.path)
        if not found:
            return 'elsewhere', None, None
    if not found:
        found = crate.brought.get(call.name)
    if not found:
        return by_std
    if found.builtin:
        return 'elsewhere', None, None
    if found.source is source:
        return 'own' if found.depth == 0 else 'in a group', found, None
    if crate.library and found.source.path not in crate.sources:
        home = crate.library.name
    return 'crate', found, home


def staying(printed, calls):
    """Those of these calls whose name a call has in what is printed, by a path or not as they."""
    call = re.compile(r'(:: )?\b(%s) ! [(\[{]' % '|'.join(re.escape(name) for name in {c.name for c in calls}))
    found = call.search(printed) and set(call.findall(without_definitions(printed)))
    return [c for c in calls if found and (':: ' if c.by_path else '', c.name) in found]


def without_definitions(printed):
    """What is printed, less the definitions in it, which are those in groups."""
    tokens, parts, at = lex(printed), [], 0
    ends = closings(tokens) or {}
    for i, (_, word, start, _) in enumerate(tokens):
        if word == 'macro_rules' and start >= at and i + 3 in ends:
            parts.append(printed[at:start])
            at = tokens[ends[i + 3]][3]
    return ''.join(parts) + printed[at:]


class Question:
    """A file behind definitions of other files."""
    def __init__(self, program, file, prelude):
        self.program, self.file, self.prelude = program, file, prelude
        self.printed, said = self.ask(())
        self.faults = dict(line.partition(': ')[::2] for line in said.splitlines())

    def ask(self, calls):
        """What is printed where these calls have a name that nothing defines, and what is said."""
        text = self.file.source.text
        for call in sorted(calls, key=lambda c: -c.start):
            text = text[:call.name_end] + MARK + text[call.name_end:]
        return expand(self.program, text, self.file.edition, self.prelude)

    def stay(self, calls):
        """Those of these calls that stay, or are dropped."""
        if not calls:
            return set()
        printed, _ = self.ask(calls)
        if printed is not None and printed.replace(MARK, '') == self.printed:
            return set(calls)
        if len(calls) == 1:
            return set()
        middle = len(calls) // 2
        return self.stay(calls[:middle]) | self.stay(calls[middle:])


def expanded(program, file, mode, library):
    """The calls that are expanded, and the faults by place; nothing if the program gives no answer for the file."""
    known = file.known(mode)
    calls = [c for c in file.source.calls if c.name in known]
    if not calls:
        return set(), {}
    question = Question(program, file, file.prelude(mode, library))
    if question.printed is None:
        return None
    return set(calls) - question.stay(staying(question.printed, calls)), question.faults


def fault_of(call, faults):
    """What the program reports at this call, or else at the nearest one around it."""
    if call.place() in faults:
        return faults[call.place()]
    around = [c for c in call.source.calls if c.start < call.start < c.end and c.place() in faults]
    return faults[around[-1].place()] + ', of the call around it' if around else 'no fault'


class Survey:
    def __init__(self, program, library):
        self.program, self.library, self.std = program, library, std_picks(library)
        self.sums, self.unread, self.differs, self.stays, self.std_calls = {}, [], [], {}, {}

    def count(self, path, file):
        calls, answers = file.source.calls, {}
        for mode in MODES:
            # where no definition of the package is in scope, the third answer is the second
            again = mode == 'std and crate' and not file.picks
            answers[mode] = answers['std'] if again else expanded(self.program, file, mode, self.library)
            if answers[mode] is None:
                self.unread.append('%s: by the program, %d calls' % (path, len(calls)))
                return
        kind = 'tests of rustc' if '/src/test/' in path else 'real code'
        sums = self.sums.setdefault(kind, Counter())
        sums.update(['files', *file.places.values()])
        sums['calls'] += len(calls)
        for call in calls:
            if kind == 'real code' and file.places[call] == 'std':
                self.std_calls.setdefault(call.name, set()).add(call.text())
        for mode, answer in answers.items():
            self.compare(sums, mode, path, file, answer, kind)

    def compare(self, sums, mode, path, file, answer, kind):
        got, faults = answer
        for call in file.source.calls:
            definition, is_nearest = file.definition(mode, call)
            sums['in sight', mode] += definition is not None
            sums['expanded', mode] += call in got
            sums['farther', mode] += not is_nearest
            if definition and call not in got:
                sums['in an argument' if call.around else 'stays', mode] += 1
                self.differ('stays' + (' in %s!' % call.around if call.around else ''), mode, path, call)
                self.stay(mode, path, file.edition, call, definition, fault_of(call, faults), kind)
            if call in got and not definition:
                sums['more', mode] += 1
                self.differ('expanded', mode, path, call)

    def stay(self, mode, path, edition, call, definition, fault, kind):
        """Keeps a call that stays, with the definition that Rust finds if that is in the file."""
        nearest = call.found if call.found and not call.found.builtin else definition
        known = self.stays.setdefault((path, call.start), {
            'kind': kind, 'path': path, 'line': call.line(), 'around': call.around, 'edition': edition,
            'macro': call.name, 'nearer': nearest is not definition, 'definition': nearest.text(),
            'call': call.text(), 'fault': fault, 'modes': []})
        known['modes'].append(mode)

    def differ(self, what, mode, path, call):
        self.differs.append('%s, by %s: %s:%d: %s' % (what, mode, path, call.line(), call.name))

    def show(self):
        for kind, sums in sorted(self.sums.items()):
            calls = sums['calls']
            print('%s: %d files, %d calls outside definitions' % (kind, sums['files'], calls))
            for mode in MODES:
                shares = [(what, sums[what, mode], 100 * sums[what, mode] / max(1, calls))
                          for what in ('in sight', 'expanded')]
                print('    by %-14s' % mode, *('%s %6d, %4.1f %%;' % share for share in shares), end=' ')
                print('%d stay, %d in arguments; %d more; %d have a nearer definition'
                      % tuple(sums[what, mode] for what in ('stays', 'in an argument', 'more', 'farther')))
            print('    the definition is')
            for place, what in PLACES.items():
                print('    %6d %4.1f %% %s' % (sums[place], 100 * sums[place] / max(1, calls), what))
        print('%d files are not counted: they cannot be read, or take the program too long' % len(self.unread))
        for line in self.unread:
            print('    ' + line)

    def write(self, out):
        os.makedirs(out, exist_ok=True)
        with open(os.path.join(out, 'differs'), 'w') as f:
            f.writelines(line + '\n' for line in self.differs)
        with open(os.path.join(out, 'std_calls.json'), 'w') as f:
            json.dump({name: sorted(calls) for name, calls in sorted(self.std_calls.items())}, f)
        stays = list(self.stays.values())
        with open(os.path.join(out, 'stays.json'), 'w') as f:
            json.dump(stays, f)
        for edition in {stay['edition'] for stay in stays}:
            pairs = [{'macro': stay['macro'], 'definition': stay['definition'], 'calls': [stay['call']], 'stay': number}
                     for number, stay in enumerate(stays) if stay['edition'] == edition]
            write_pairs(os.path.join(out, 'stays', edition), pairs)


def write_pairs(folder, pairs):
    """Writes definitions and calls as bench/agreement/cut.py does: each definition is a crate of its own to rustc."""
    os.makedirs(folder, exist_ok=True)
    for number, pair in enumerate(pairs):
        with open(os.path.join(folder, '%04d.json' % number), 'w') as f:
            json.dump({'source': pair['macro'], 'pairs': [pair]}, f)


def main():
    program, library, out, folders = sys.argv[1], sys.argv[2], sys.argv[3], sys.argv[4:]
    sys.setrecursionlimit(100000)
    survey = Survey(program, library)
    for package, paths in packages(sources(folders)).items():
        found = package.read(paths)
        survey.unread += ['%s: by the survey' % p for p in paths if p not in found]
        for path, (source, crate) in found.items():
            survey.count(path, File(source, crate, package.edition, survey.std))
    survey.show()
    survey.write(out)


if __name__ == '__main__':
    main()
