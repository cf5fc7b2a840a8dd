"""Asks rustc what the calls give.

    judge.py FOLDER YEAR    adds to each FOLDER/NAME.json what rustc says of each call

For each source it writes a crate with the definitions and the calls, each call in a module of its own, and
runs rustc over it with `trace_macros!`, which prints the tokens of each expansion before they are parsed. So
it does not matter in which position a call stands, nor whether the names of its expansion are there.
"""
import glob, json, os, re, subprocess, sys
from concurrent.futures import ThreadPoolExecutor

FEATURES = ['trace_macros', 'macro_metavar_expr', 'macro_metavar_expr_concat', 'decl_macro', 'rustc_attrs',
            'allow_internal_unstable', 'allow_internal_unsafe', 'macro_attr', 'auto_traits', 'negative_impls',
            'never_type', 'box_patterns', 'const_trait_impl', 'specialization', 'yeet_expr', 'try_blocks',
            'staged_api', 'lang_items', 'intrinsics', 'unboxed_closures', 'associated_type_defaults',
            'extern_types', 'coroutines', 'gen_blocks', 'guard_patterns', 'async_closure']


def crate(source):
    """The text, and for each call its first and last byte."""
    text = '#![feature(%s)]\n#![allow(warnings)]\n' % ', '.join(FEATURES)
    parts, at, places = [text], len(text.encode()), []

    def put(s):
        nonlocal at
        parts.append(s)
        at += len(s.encode())

    put('trace_macros!(true);\n')
    for number, pair in enumerate(source['pairs']):
        put(pair['definition'] + '\n')
        places.append([])
        for k, call in enumerate(pair['calls']):
            # the name of a `macro` is no word of the modules below its own
            use = 'use super::*; ' if pair['definition'].startswith('macro ') else ''
            put('mod filgordd_%d_%d { %s' % (number, k, use))
            places[-1].append(at)
            put(call if call.endswith('}') else call + ';')
            put(' }\n')
    return ''.join(parts), places


def asked(path, year):
    command = ['timeout', '30', 'rustc', '--edition', year, '--crate-type', 'lib', '--emit=metadata', '-o', '/dev/null',
               '--cap-lints=allow', '--error-format=json', path]
    got = subprocess.run(command, capture_output=True, env=dict(os.environ, RUSTC_BOOTSTRAP='1'))
    notes, errors = {}, {}
    for line in got.stderr.decode('utf-8', 'replace').splitlines():
        if not line.startswith('{'):
            continue
        told = json.loads(line)
        if told['message'] == 'trace_macro':
            notes.setdefault(told["spans"][0]["byte_start"], [c["message"] for c in told["children"]])
        elif told['level'].startswith('error'):
            for span in told['spans']:
                errors.setdefault(span['byte_start'], told['message'])
    return notes, errors


def outcome(notes):
    """The first expansion: `gives` and its tokens, or `refuses`."""
    if not notes:
        return None
    if len(notes) > 1 and notes[1].startswith('to `'):
        return ['gives', notes[1][4:-1]]
    return ['refuses', '']


def judge(path, year):
    source = json.load(open(path))
    text, places = crate(source)
    own = os.path.join(os.path.dirname(path), 'crate_' + os.path.basename(path)[:-len('.json')] + '.rs')
    with open(own, 'w') as f:
        f.write(text)
    notes, errors = asked(own, year)
    os.remove(own)
    for pair, starts in zip(source['pairs'], places):
        pair['rustc'] = [outcome(notes.get(at)) for at in starts]
    with open(path, 'w') as f:
        json.dump(source, f)


def main():
    folder, year = sys.argv[1:3]
    with ThreadPoolExecutor(os.cpu_count()) as pool:
        list(pool.map(lambda path: judge(path, year), sorted(glob.glob(os.path.join(folder, '*.json')))))


if __name__ == '__main__':
    main()
