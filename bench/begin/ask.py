"""Asks rustc, or the expander, which rule of two is taken.

    ask.py rustc FILE              adds to each row of FILE what rustc says: `kind`, `tokens` or `error`
    ask.py texts FILE FOLDER       writes the rows of FILE as texts for the expander
    ask.py read FILE FOLDER SAID   adds to each row what the expander printed of these texts

A row is a year, a specifier, what follows it, and an argument: its macro is `($x:SPECIFIER FOLLOW ..) => { "kind" }`,
and behind it a rule that takes all tokens.
"""
import json, os, re, subprocess, sys, tempfile
from concurrent.futures import ThreadPoolExecutor

FEATURES = ['trace_macros', 'decl_macro', 'auto_traits', 'negative_impls', 'never_type', 'box_patterns', 'yeet_expr',
            'const_trait_impl', 'try_blocks', 'coroutines', 'gen_blocks', 'guard_patterns', 'explicit_tail_calls',
            'trait_alias', 'never_patterns', 'extern_types', 'min_specialization', 'stmt_expr_attributes',
            'fn_delegation', 'builtin_syntax', 'unsafe_binders', 'pin_ergonomics', 'async_trait_bounds', 'super_let',
            'closure_lifetime_binder', 'return_type_notation', 'half_open_range_patterns_in_slices', 'let_chains',
            'exclusive_range_pattern', 'async_for_loop', 'async_closure', 'mut_ref', 'postfix_match', 'more_qualified_paths',
            'const_closures', 'yield_expr', 'min_generic_const_args', 'generic_const_items', 'associated_const_equality']
BATCH = 400
MOST_LETTERS = 60_000


def name_of(kind, follow):
    return 'm_%s_%s' % (kind, '_'.join(str(ord(c)) for c in follow))


def macro(kind, follow):
    more = ' %s $($t:tt)*' % follow if follow else ''
    return 'macro_rules! %s { ($x:%s%s) => { "kind" }; ($($t:tt)*) => { "tokens" } }\n' % (
        name_of(kind, follow), kind, more)


def definitions(rows):
    return ''.join(macro(k, f) for k, f in sorted({(r[1], r[2]) for r in rows}))


def crate(rows):
    """The text, and where each call begins and ends in it."""
    text = '#![feature(%s)]\n#![allow(warnings)]\ntrace_macros!(true);\n' % ', '.join(FEATURES) + definitions(rows)
    places = []
    for k, (_, kind, follow, argument) in enumerate(rows):
        text += 'fn f%d() { ' % k
        at = len(text)
        text += '%s!{%s}' % (name_of(kind, follow), argument)
        places.append((at, len(text)))
        text += ' }\n'
    return text, places


def asked(rows, year):
    """What rustc reports: the notes of expansions by their place, and the places of errors. `None` if it stops."""
    text, places = crate(rows)
    with tempfile.TemporaryDirectory() as room:
        path = os.path.join(room, 'a.rs')
        with open(path, 'w') as f:
            f.write(text)
        command = ['timeout', '60', 'rustc', '--edition', year, '--crate-type', 'lib', '-Zunpretty=expanded', '-o', '/dev/null',
                   '--cap-lints=allow', '--error-format=json', path]
        got = subprocess.run(command, capture_output=True, env=dict(os.environ, RUSTC_BOOTSTRAP='1'))
    notes, errors = {}, []
    for line in got.stderr.decode('utf-8', 'replace').splitlines():
        if line.startswith('{'):
            told = json.loads(line)
            if told['message'] == 'trace_macro':
                notes.setdefault(told['spans'][0]['byte_start'], [c['message'] for c in told['children']])
            elif told['level'].startswith('error'):
                errors += [s['byte_start'] for s in told['spans']]
    return notes, errors, places


def judge(rows, year):
    """What rustc says of each row. Where it stops before the last call, both halves are asked again."""
    notes, errors, places = asked(rows, year)
    if len(notes) < len(rows) and len(rows) > 1:
        half = len(rows) // 2
        return judge(rows[:half], year) + judge(rows[half:], year)
    out = []
    for at, end in places:
        said = [n for n in notes.get(at, []) if n.startswith('to `')]
        bad = any(at <= e <= end for e in errors) or not said
        out.append('error' if bad else 'kind' if 'kind' in said[0] else 'tokens')
    return out


def rustc(path):
    rows = json.load(open(path))
    batches = []
    for year in sorted({r[0] for r in rows}):
        those = [k for k, r in enumerate(rows) if r[0] == year]
        batches += [(year, those[i:i + BATCH]) for i in range(0, len(those), BATCH)]
    with ThreadPoolExecutor(2) as pool:
        answers = list(pool.map(lambda b: judge([rows[k][:4] for k in b[1]], b[0]), batches))
    for (_, those), said in zip(batches, answers):
        for k, answer in zip(those, said):
            rows[k].append(answer)
    with open(path, 'w') as f:
        json.dump(rows, f)


def texts_of(rows):
    """Texts of at most so many letters, each with a year and the numbers of its rows."""
    for year in sorted({r[0] for r in rows}):
        some, size = [], 0
        for k, row in enumerate(rows):
            if row[0] == year:
                some.append(k)
                size += len(row[3]) + 40
            if some and (size > MOST_LETTERS or k == len(rows) - 1):
                yield year, some
                some, size = [], 0
        if some:
            yield year, some


def texts(path, folder):
    rows = json.load(open(path))
    os.makedirs(folder)
    for n, (year, those) in enumerate(texts_of(rows)):
        text = definitions([rows[k] for k in those])
        for k in those:
            text += 'filgordd_mark_%d;\n%s!{%s}\n' % (k, name_of(*rows[k][1:3]), rows[k][3])
        with open(os.path.join(folder, 't%03d' % n), 'w') as f:
            f.write(text)
        with open(os.path.join(folder, 't%03d.args' % n), 'w') as f:
            f.write('--edition\n%s\n' % year)


def read(path, said):
    rows = json.load(open(path))
    printed = open(said).read()
    if '== t' not in printed:
        sys.exit('begin: the program was not run')
    parts = re.split(r'filgordd_mark_(\d+)', printed)
    answers = {int(k): part for k, part in zip(parts[1::2], parts[2::2])}
    for k, row in enumerate(rows):
        part = answers[k].split('\n==')[0].strip(' ;\n') if k in answers else None
        row.append({'"kind"': 'kind', '"tokens"': 'tokens', None: 'unanswered'}.get(part, 'error'))
    with open(path, 'w') as f:
        json.dump(rows, f)


if __name__ == '__main__':
    {'rustc': rustc, 'texts': texts, 'read': read}[sys.argv[1]](*sys.argv[2:])
