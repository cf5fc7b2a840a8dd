"""Runs a built `filgordd` behind sources that are meant to break it, and prints each run whose answer is wrong.

    bad.py PROGRAM           the rows, and each request for memory refused in turn
    bad.py PROGRAM --large   a source of 4,294,967,295 bytes and one of a byte more, which take some 9 and 5 GB

Each row has the files, the words, the text, what is to be printed and reported, and the status. What the library for C
is to do with bad calls is in bindings/c/check.c and bindings/c/refused.c.
"""
import os, resource, subprocess, sys, tempfile
from time import time

NO_RULE = 'line 1, byte column 1: no rule matches this call\n'
LIMIT = 'line 1, byte column 1: recursion limit reached\n'
BROKEN = 'line 1, byte column 1: broken macro definition\n'
M = 'macro_rules! m { () => { 1 } }\n'


def nested(levels):
    return 'mod a { ' * levels + M + ' }' * levels


def unread(why):
    return 'filgordd: a.rs: ' + why + '\n'


def one_file(text, words, call, printed, reported='', status=0):
    return {'a.rs': text}, words, call, printed, reported, status


# A source that is no text, or no tree.
UNREAD = [
    one_file(b'\xff', '--with a.rs', 'm!();', '', unread('input is not UTF-8'), 1),
    one_file('\0', '--with a.rs', 'm!();', '', unread('line 1, byte column 1: bad token'), 1),
    one_file('a\n"', '--with a.rs', 'm!();', '', unread('line 2, byte column 1: bad token'), 1),
    one_file('a\n /* ', '--with a.rs', 'm!();', '', unread('line 2, byte column 2: bad token'), 1),
    one_file(')', '--with a.rs', 'm!();', '', unread('line 1, byte column 1: closing bracket does not fit'), 1),
    one_file('(]', '--with a.rs', 'm!();', '', unread('line 1, byte column 2: closing bracket does not fit'), 1),
    one_file('{', '--with a.rs', 'm!();', '', unread('line 1, byte column 1: group left open'), 1),
    # a second source is not read where the first is wrong, and the text is not either
    ({'a.rs': '{', 'b.rs': ')'}, '--with a.rs --with b.rs', '{', '', unread('line 1, byte column 1: group left open'), 1),
    ({'a.rs': M, 'b.rs': ')'}, '--with a.rs --with b.rs', 'm!();', '',
     'filgordd: b.rs: line 1, byte column 1: closing bracket does not fit\n', 1),
    ({}, '--with .', 'm!();', '', 'filgordd: .: is a directory\n', 2),
    ({}, '--with', 'm!();', '', None, 2),
    ({}, '--std=.', 'm!();', '', 'filgordd: ./core/src/macros/mod.rs: No such file or directory (os error 2)\n', 2),
]
# A source with odd parts that is read.
ODD = [
    one_file('', '--with a.rs', 'm!();', 'm ! ( ) ;\n'),
    one_file('\ufeff#!/bin/sh\n' + M, '--with a.rs', 'm!{}', '1\n'),
    one_file(M.replace('\n', '\r\n'), '--with a.rs', 'm!{}', '1\n'),
    one_file('macro_rules! m', '--with a.rs', 'm!{}', 'm ! { }\n'),
    one_file('macro_rules! m {}', '--with a.rs', 'm!{}', 'm ! { }\n', NO_RULE, 1),
    one_file('macro_rules! m { $ }', '--with a.rs', 'n!{}', 'n ! { }\n'),
    one_file('macro_rules! m { $ }', '--with a.rs', 'm!{}', 'm ! { }\n', BROKEN, 1),
    one_file('macro_rules! m { () => { m!{} } }', '--with a.rs', 'm!{}', 'm ! { }\n', LIMIT, 1),
    one_file('macro_rules! m { () => { $crate::m!{} } }', '--with a@2021=a.rs', 'm!{}', 'a :: m ! { }\n', LIMIT, 1),
    one_file('macro_rules! m { () => { $crate::n!{} } }', '--with a@2021=a.rs', 'macro_rules! n { () => { 1 } } m!{}', 'a :: n ! { }\n'),
    one_file(M * 10000, '--with a.rs', 'm!{}', '1\n'),
    one_file(';' * 1000000 + M, '--with a.rs', 'm!{}', '1\n'),
    one_file('(' * 100000 + ')' * 100000 + ';' + M, '--with a.rs', 'm!{}', '1\n'),
    # definitions of modules are seen behind the root alone, 64 modules deep
    one_file(nested(1), '--with a.rs', 'm!{}', 'm ! { }\n'),
    one_file(nested(64) + 'macro_rules! n { () => { $crate::m!{} } }', '--with a@2021=a.rs', 'n!{}', '1\n'),
    one_file(nested(65) + 'macro_rules! n { () => { $crate::m!{} } }', '--with a@2021=a.rs', 'n!{}', 'a :: m ! { }\n'),
    one_file(nested(100000) + M, '--with a.rs', 'm!{}', '1\n'),
]
# Sources of one name: the nearest definition is the last, also behind a root.
TWICE = [
    ({'a.rs': M}, '--with a.rs --with a.rs', 'm!{}', '1\n', '', 0),
    ({'a.rs': M}, '--with a@2021=a.rs --with a@2021=a.rs', 'm!{}', '1\n', '', 0),
    ({'a.rs': M, 'b.rs': 'macro_rules! m { () => { 2 } } macro_rules! n { () => { $crate::m!{} } }'},
     '--with a@2021=a.rs --with a@2021=b.rs', 'm!{} n!{}', '2 2\n', '', 0),
    ({'a.rs': M, 'b.rs': 'macro_rules! m { () => { 2 } } macro_rules! n { () => { $crate::m!{} } }'},
     '--with a@2021=b.rs --with a@2021=a.rs', 'm!{} n!{}', '1 1\n', '', 0),
    ({'a.rs': M, 'b.rs': 'macro_rules! m { () => { 2 } } macro_rules! n { () => { $crate::m!{} } }'},
     '--with b@2021=b.rs --with a@2021=a.rs', 'm!{} n!{}', '1 2\n', '', 0),
]
NO_ROOTS = ['', '1', '_', 'a b', 'a-b', 'a::b', '$a', '$crate', '\'a', '"a"', 'crate', 'self', 'super', 'Self', 'fn', 'macro_rules',
            'macro', 'r#a', 'a\n', '\u00b7']
ROOTS = ['a', '_a', 'std', 'union', 'auto', 'async_std', '\u00e9', 'e\u0301']


def rows():
    yield from UNREAD + ODD + TWICE
    for root in NO_ROOTS:
        yield {'a.rs': M}, ['--with', root + '@2021=a.rs'], 'm!{}', '', None, 2
    for root in ROOTS:
        text = 'macro_rules! m { () => { $crate } }'
        yield {'a.rs': text}, ['--with', root + '@2021=a.rs'], 'm!{}', root + '\n', '', 0


def run(program, files, words, text, **how):
    with tempfile.TemporaryDirectory() as room:
        for name, held in files.items():
            with open(os.path.join(room, name), 'wb') as f:
                f.write(held if isinstance(held, bytes) else held.encode())
        words = words.split() if isinstance(words, str) else words
        return subprocess.run([program, 'expand', *words], cwd=room, input=text.encode(), capture_output=True, timeout=60, **how)


def is_right(got, printed, reported, status):
    said = got.stderr.decode()
    told = bool(said) if reported is None else said.startswith(reported) and bool(said) == bool(reported)
    return got.returncode == status and got.stdout.decode() == printed and told


def check(program):
    right = total = 0
    for files, words, text, printed, reported, status in rows():
        got = run(program, files, words, text)
        total += 1
        right += is_right(got, printed, reported, status)
        if not is_right(got, printed, reported, status):
            said = got.stdout[:200], got.stderr[:200], got.returncode
            print('    %s, %s: %s\n        is %s' % ({k: v[:60] for k, v in files.items()}, words, text, said))
    print('%d of %d rows are right' % (right, total))
    return right == total


LAYER = r"""
#include <stdlib.h>
#include <unistd.h>
extern void *__libc_malloc(size_t), *__libc_realloc(void *, size_t);
static long left;
__attribute__((constructor)) static void begin(void) {
    const char *number = getenv("REFUSED_REQUEST");
    left = number ? atol(number) : 0;
}
static int is_refused(void) { return left != 0 && --left == 0 && write(2, "refused\n", 8) == 8; }
void *malloc(size_t n) { return is_refused() ? NULL : __libc_malloc(n); }
void *realloc(void *p, size_t n) { return is_refused() ? NULL : __libc_realloc(p, n); }
"""
FILES = {'a.rs': 'macro_rules! m { ($x:expr) => { $crate::n!($x) } } mod o { macro_rules! n { ($x:expr) => { f($x) } } }',
         'b.rs': '#[macro_export] macro_rules! p { ($($x:tt)*) => { m!($($x)*); } }'}
WORDS = '--with one@2018=a.rs --with b.rs'


def refuse(program):
    """A run with a request refused writes all, or nothing and why."""
    text, wanted = 'p!(1 + 2);\nm!(3);\n', b'f ( ( 1 + 2 ) ) ;\n;\nf ( 3 ) ;\n'
    with tempfile.TemporaryDirectory() as room:
        layer = os.path.join(room, 'layer.so')
        subprocess.run(['cc', '-O1', '-shared', '-fPIC', '-x', 'c', '-', '-o', layer], input=LAYER, text=True, check=True)
        failed, number, met = 0, 0, True
        while met:
            number += 1
            got = run(program, FILES, WORDS, text, env={'LD_PRELOAD': layer, 'REFUSED_REQUEST': str(number)})
            met = b'refused\n' in got.stderr
            said = got.stderr.replace(b'refused\n', b'')
            whole = got.returncode == 0 and got.stdout == wanted and not said
            why = got.returncode in (1, 2) and not got.stdout and said.endswith(b'out of memory\n')
            if not (whole or met and why):
                failed += 1
                print('    request %d refused: %s, %s, status %d' % (number, got.stdout, said, got.returncode))
        print('%d requests refused, %d failed' % (number - 1, failed))
        return not failed


BLANKS = """import sys
left, block = int(sys.argv[1]), b' ' * 2 ** 20
while left:
    left -= sys.stdout.buffer.write(block[:left])
sys.stdout.buffer.write(sys.argv[2].encode())
"""
LARGE = (2 ** 32, (b'', b'input is too long\n', 1)), (2 ** 32 - 1, (b'1\n', b'', 0))


def large(program, cases=LARGE):
    """The sources come by a pipe: blanks, and a definition at the end. They get 16 GB of addresses."""
    done = True
    for size, wanted in cases:
        room, blanks = 16 * 10 ** 9, size - len(M)
        start = time()
        writer = subprocess.Popen([sys.executable, '-c', BLANKS, str(blanks), M], stdout=subprocess.PIPE, stderr=subprocess.DEVNULL)
        file = writer.stdout.fileno()
        got = subprocess.run([program, 'expand', '--with', '/dev/fd/%d' % file], input=b'm!{}', capture_output=True, pass_fds=[file],
                             preexec_fn=lambda: resource.setrlimit(resource.RLIMIT_AS, (room, room)))
        writer.stdout.close()
        writer.wait()
        is_wanted = (got.stdout, got.returncode) == (wanted[0], wanted[2]) and got.stderr.endswith(wanted[1])
        done = done and is_wanted
        print('a source of %d bytes: %s, status %d, %.1f s%s' % (size, (got.stdout + got.stderr).decode().strip(), got.returncode,
                                                              time() - start, '' if is_wanted else ': wrong'))
    return done


if __name__ == '__main__':
    if '--large' in sys.argv:
        sys.exit(not large(sys.argv[1]))
    sys.exit(not all([check(sys.argv[1]), refuse(sys.argv[1])]))
