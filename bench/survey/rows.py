"""Expands some texts behind the macros of std, and prints each with its answer, and the right one where that differs.

    rows.py PROGRAM LIBRARY    LIBRARY is the folder of std's sources

The right answers are what Rust's rules say: `$crate` is the crate of the definition, `$crate::m!` finds the macro
of that crate, what rustc builds in is no macro of std's, and a name that expansions put together is no call.
"""
import os, sys
from ask import Prelude, expand

PRINT = 'fn f ( ) { { std :: io :: _print ( std :: %s ) ; } ; }'
BUILT_IN = 'panic!("x"); unreachable!("q");', 'panic ! ( "x" ) ; unreachable ! ( "q" ) ;'
PUT_TOGETHER = 'todo ! ( ) ;'
# What is shown, what is in front, the text, and what is to be printed of it.
ROWS = (
    ('a root', 'std', 'fn f() { println!("a"); }', PRINT % 'format_args_nl ! ( "a" )'),
    ('an own macro of a name that std uses', 'std',
     'macro_rules! print { ($($t:tt)*) => { MINE } }\nfn f() { println!(); }', PRINT % r'format_args ! ( "\n" )'),
    ('a call put together', 'std', 'macro_rules! n { () => { todo } }\nn!{} !();', PUT_TOGETHER),
    ('this again, by itself', 'nothing', PUT_TOGETHER, PUT_TOGETHER),
    ('this again', 'std', PUT_TOGETHER, 'core :: panicking :: panic ( "not yet implemented" ) ;'),
    ('calls by a path', 'std', 'std::println!("a"); ::std::vec![1];',
     'std :: println ! ( "a" ) ; :: std :: vec ! [ 1 ] ;'),
    ('what rustc builds in', 'std', *BUILT_IN),
    ('what rustc builds in, behind whole files', 'files', *BUILT_IN),
)


def answer(program, library, front, text):
    files = ['core@2024=' + os.path.join(library, 'core/src/macros/mod.rs'),
             'std@2024=' + os.path.join(library, 'std/src/macros.rs')]
    options = [word for file in files for word in ('--with', file)] if front == 'files' else []
    printed, said = expand(program, text, '2021', Prelude(library if front == 'std' else None), *options)
    return (said if printed is None else printed).split()


def main():
    program, library = sys.argv[1:3]
    right = 0
    for what, front, text, wanted in ROWS:
        got = answer(program, library, front, text)
        right += got == wanted.split()
        print('    %s: %s\n        prints    %s' % (what, text.replace('\n', ' '), ' '.join(got)[:300]))
        if got != wanted.split():
            print('        should be %s' % wanted)
    print('%d of %d rows are right' % (right, len(ROWS)))


if __name__ == '__main__':
    main()
