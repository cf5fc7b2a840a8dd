"""Makes random inputs for fragment specifiers.

    make.py OUT COUNT SEED    writes COUNT inputs to OUT: lists of a year, a matcher and an argument

A matcher is a fragment specifier, and what may follow it. An argument is a random fragment of that kind or of
another, with some of its tokens changed, or a few random tokens; behind it stands what the matcher asks for.
"""
import json, random, sys

YEARS = ['2015', '2018', '2021', '2024']
FOLLOW = {'expr': ['=>', ',', ';'], 'stmt': ['=>', ',', ';'], 'ty': ['=>', ',', '=', '|', ';', ':', '>', 'as'],
          'path': ['=>', ',', '=', '|', ';', ':', '>', 'where'], 'pat': ['=>', ',', '=', 'if', 'in'],
          'pat_param': ['=>', ',', '=', '|', 'if'], 'block': ['.', '+', 'a'], 'item': ['a', ';'],
          'meta': [',', ']', '='], 'vis': [',', 'fn', 'a'], 'literal': ['+', 'a'], 'lifetime': [',', '+'],
          'ident': [':', '('], 'expr_2021': ['=>', ',', ';']}
FOLLOW['meta'].remove(']')
FOLLOW['ident'].remove('(')

# Fragments: each alternative is a list of tokens and of the names of others.
RULES = {
    'expr': ['atom', 'atom', 'atom', 'sign expr', 'expr op expr', 'expr as type', 'expr . a', 'expr . await',
             'expr . 0', 'expr ( )', 'expr [ 1 ]', 'expr ?', 'expr .. expr', '.. expr', '..= expr', 'expr ..', '..',
             'expr = expr', 'expr += expr', 'jump', 'closure', 'attr expr', 'expr . a :: < type > ( )'],
    'atom': ['1', '"a"', "'c'", 'true', '_', 'a', 'path', '( expr )', '[ expr ]', '{ a }', 'path { a : 1 }',
             'path ! { }', 'path ! ( )', 'qpath', 'unsafe { a }', 'const { a }', 'async { a }', 'async move { a }',
             'try { a }', 'gen { a }', 'gen move { a }', 'if cond { a }', 'if cond { a } else { b }',
             'if cond { } else if cond { }', 'match cond { }', 'loop { }', 'while cond { }', 'for pat in cond { }',
             "'l : loop { }", "'l : { }", 'self', 'Self', 'crate :: a', 'super :: a', 'r#fn', 'builtin # offset_of ( )',
             'do yeet expr', 'box expr', 'static || a', 'for < \'l > | a | a', 'unsafe < \'l > | a | a'],
    'cond': ['a', 'a == b', 'let pat = a', 'a && let pat = b', '( S { } )', 'a . b', '! a', 'm ! { }', 'return', 'S'],
    'sign': ['-', '!', '*', '&', '&&', '& mut', '& raw const', '& raw mut', '& raw'],
    'op': ['+', '-', '*', '/', '%', '^', '&', '|', '&&', '||', '<<', '>>', '==', '!=', '<', '>', '<=', '>=', '<-'],
    'jump': ['return', 'return expr', 'break', 'break expr', "break 'l", "break 'l expr", 'continue', "continue 'l",
             'yield', 'yield expr', 'become expr', 'return . a', 'continue . a', 'break ?', 'continue ( )'],
    'closure': ['| a | expr', '|| expr', 'move | a : type | expr', 'async | | expr', '| pat , b | -> type { }',
                'static move || a', 'const || a', 'async move || a', '|| -> type { } . a', 'gen || a'],
    'path': ['a', 'a :: b', ':: a', 'a :: < type >', 'a :: < type > :: b', 'self :: a', 'crate', 'S', 'union', 'auto',
             'default', 'safe', 'raw', 'gen', 'async', 'dyn', 'r#a', '$crate :: a', 'macro_rules', 'yeet'],
    'qpath': ['< type > :: a', '< type as tpath > :: b', '<< a > :: b > :: c', '< type > :: a :: < type >'],
    'tpath': ['a', 'a :: b', ':: a', 'a < type >', 'a :: < type >', 'a < \'l , type >', 'a < b = type >', 'a < 1 >',
              'a < - 1 >', 'a < { 1 } >', 'a ( type ) -> type', 'a ( )', 'a < b : bounds >', 'Self', 'a < type > :: b',
              'a :: ( )', 'a ( .. )', 'union', 'auto', 'gen', 'async', 'dyn'],
    'type': ['tpath', 'tpath', 'tpath', '& type', '& mut type', "& 'l type", '&& type', '* const type', '* mut type',
             '!', '_', '( )', '( type , )', '[ type ]', '[ type ; 1 ]', 'fn ( type ) -> type', 'unsafe fn ( )',
             'extern "C" fn ( )', 'extern fn ( )', "for < 'l > fn ( )", "for < 'l > tpath", 'impl bounds', 'dyn bounds',
             'bounds', 'qpath', 'tpath ! ( )', 'qpath ! ( )', '? tpath', "'l + bounds", 'typeof ( 1 )',
             "unsafe < 'l > type", 'pinned & type', '& pin mut type', '& pin const type', 'dyn * bounds'],
    'bounds': ['tpath', "'l", 'tpath + bounds', '? tpath', '( tpath )', "for < 'l > tpath", '~ const tpath',
               'const tpath', 'async tpath', "use < 'l >", 'tpath +', '? ( tpath )', '[ const ] tpath'],
    'pat': ['_', '1', '- 1', '"a"', 'a', 'ref a', 'mut a', 'ref mut a', 'a @ pat', 'path', 'qpath', 'path ( pat )',
            'path { a , .. }', 'path { }', '( pat , )', '[ pat , .. ]', '& pat', '&& pat', '& mut pat', '1 ..= 2',
            '1 .. 2', '1 ..', '.. 2', '..= 2', '... 2', '1 ... 2', '..', 'path ! ( )', 'qpath ! ( )', 'const { 1 }',
            'box pat', 'true', 'pat | pat', '| pat', 'path ..= path', '!', 'qpath ( )', 'qpath { }', "'l", 'deref ! ( a )',
            'mut ref a', '|| pat'],
    'stmt': ['let pat = expr', 'let pat', 'let pat : type = expr', 'let pat = expr else { }', 'item', 'expr', ';',
             'attr let a', 'attr item', 'path ! { }', 'path ! { } . a', 'path ! ( ) + 1', '{ } + 1', 'match a { } . b',
             'if cond { } - 1', 'unsafe { } . a', 'loop { } ?', 'attr { }', 'macro_rules ! a { }', 'let mut a = 1', 'super let a = 1',
             'if cond { } as type', 'loop { } ( a )', 'const { } [ 1 ]', 'async { } . a'],
    'item': ['vis fitem', 'fitem', 'fitem', 'attr fitem', 'default fitem'],
    'fitem': ['fn a ( ) { }', 'fn a ( ) ;', 'fn a < T > ( ) -> type where T : bounds { }', 'const fn a ( ) { }',
              'async fn a ( ) { }', 'unsafe fn a ( ) { }', 'safe fn a ( ) ;', 'gen fn a ( ) { }', 'async gen fn a ( ) { }',
              'extern "C" fn a ( ) { }', 'const async unsafe extern fn a ( ) { }', 'struct a ;', 'struct a ( type ) ;',
              'struct a { b : type }', 'struct a < T > where T : bounds ;', 'enum a { b }', 'union a { b : type }',
              'const a : type = expr ;', 'const _ : type = 1 ;', 'static a : type = 1 ;', 'static mut a : type = 1 ;',
              'unsafe static a : type ;', 'safe static a : type ;', 'type a = type ;', 'type a : bounds ;', 'use a ;',
              'use a :: { b , c } ;', 'use a as b ;', 'use a :: * ;', 'mod a ;', 'mod a { }', 'unsafe mod a { }',
              'extern crate a ;', 'extern crate a as b ;', 'extern "C" { }', 'unsafe extern "C" { }', 'trait a { }',
              'trait a : bounds { }', 'trait a = bounds ;', 'unsafe trait a { }', 'auto trait a { }', 'const trait a { }',
              'impl type { }', 'impl < T > tpath for type { }', 'impl ! tpath for type { }', 'unsafe impl a for b { }',
              'impl const a for b { }', 'const impl a for b { }', 'macro_rules ! a { }', 'macro a ( ) { }', 'path ! { }',
              'path ! ( ) ;', 'path ! a { }', 'reuse a :: b ;', 'const { }', 'type const a : type = 1 ;',
              'static move || a ;', 'const async fn a ( ) ;', 'unsafe auto trait a { }', 'trait a < T > : where { }',
              'pub ( crate ) fn a ( ) { }', 'impl a', 'fn ( )', 'enum a < T > where T : b { }', 'macro a { }',
              'impl < T > < T as a > :: b { }', 'impl ! { }', 'extern "C" unsafe fn a ( ) ;', 'safe extern "C" fn a ( ) ;'],
    'vis': ['pub', 'pub ( crate )', 'pub ( self )', 'pub ( super )', 'pub ( in a )', 'crate', 'priv', 'pub ( a )', ''],
    'meta': ['a', 'a :: b', 'a ( b )', 'a = expr', 'unsafe ( a )', 'a [ b ]', 'a { b }', 'a = "b"', ':: a', 'crate :: a',
             'unsafe', 'a = 1', 'a ! ( )', 'a < b >'],
    'block': ['{ }', '{ a }', 'unsafe { }', '{ a } . b'],
    'literal': ['1', '- 1', '"a"', 'true', '- true', "b'a'", 'c"x"', '1.0', '- - 1', 'b"x"', 'r"a"', "'c'", '-1.5f32'],
    'lifetime': ["'l", "'_", "'static", "'a"],
    'ident': ['a', 'fn', 'r#a', '_', 'self', 'gen', 'dyn'],
    'attr': ['# [ a ]', '# [ a ( b ) ]', '# [ a = "b" ]', '# ! [ a ]'],
}
RULES['pat_param'] = RULES['pat']
RULES['expr_2021'] = RULES['expr']
RULES['ty'] = RULES['type']
WORDS = ('as async auto await become box break const continue crate default do dyn else enum extern false fn for gen if '
         'impl in let loop macro macro_rules match mod move mut pub raw ref return safe self Self static struct super '
         'trait true try type typeof union unsafe unsized use virtual where while yeet yield _ abstract final override '
         'priv reuse builtin pin').split()
SIGNS = ('+ - * / % ^ ! & | && || << >> += -= *= /= %= ^= &= |= <<= >>= = == != > < >= <= @ . .. ... ..= , ; : :: -> <- '
         '=> # ? ~ $').split()
SOME = ["'l", '1', '"a"', '1.5', 'a', 'b', 'S', 'r#a', '( )', '( a )', '[ ]', '[ 1 ]', '{ }', '{ a }', 'c"x"', "'c'",
        '( .. )', '( crate )']
MOST = 24


def fragment(rng, name, depth):
    shapes = RULES[name]
    if depth <= 0:
        shapes = sorted(shapes, key=len)[:6]
    out = []
    for word in rng.choice(shapes).split():
        out += fragment(rng, word, depth - 1) if word in RULES and word != 'const' else [word]
    return out


def any_token(rng):
    return rng.choice(rng.choice([WORDS, SIGNS, SOME])).split()


def trees(tokens):
    """Tokens, with each group as one."""
    out, open_at = [], []
    for token in tokens:
        if token in ('(', '[', '{'):
            open_at.append(len(out))
            out.append([token])
        elif token in (')', ']', '}'):
            at = open_at.pop()
            whole = [t for part in out[at:] for t in part] + [token]
            out[at:] = [whole]
        else:
            out.append([token])
    return out


def changed(rng, tokens):
    """With one to three trees changed, left out, put in or written twice."""
    parts = trees(tokens)
    for _ in range(rng.choice([1, 1, 2, 3])):
        at = rng.randint(0, len(parts)) if rng.random() < 0.6 else 0
        how = rng.random()
        if how < 0.4 and at < len(parts):
            parts[at] = any_token(rng)
        elif how < 0.6 and at < len(parts):
            del parts[at]
        elif how < 0.7 and at < len(parts):
            parts.insert(at, parts[at])
        else:
            parts.insert(at, any_token(rng))
    return [t for part in parts for t in part]


def argument(rng, kind):
    how = rng.random()
    name = kind if rng.random() < 0.7 else rng.choice(sorted(RULES))
    tokens = fragment(rng, name, rng.randint(0, 3))
    if how < 0.35:
        return tokens
    if how < 0.8:
        return changed(rng, tokens)
    return [t for _ in range(rng.randint(0, 4)) for t in any_token(rng)]


def is_sign(token):
    return token in SIGNS and token != '$'


def joined(rng, tokens):
    """The tokens as a text. Two signs stand together now and then, so that others are read."""
    text = ''
    for k, token in enumerate(tokens):
        glue = k > 0 and (is_sign(token) and is_sign(tokens[k - 1])) and rng.random() < 0.15
        if glue and (text + token)[-2:] in ('//', '/*'):
            glue = False
        text += token if glue or not text else ' ' + token
    return text


def made(rng, kinds):
    kind, year = rng.choice(kinds), rng.choice(YEARS)
    follow = rng.choice(FOLLOW[kind] + [''] * len(FOLLOW[kind]))
    tokens = argument(rng, kind)
    if follow and rng.random() < 0.85:
        tokens = tokens + [follow] + (any_token(rng) if rng.random() < 0.5 else [])
    if len(tokens) > MOST or '$' in tokens and rng.random() < 0.9 or '$crate' in tokens:
        return made(rng, kinds)
    return [year, kind, follow, joined(rng, tokens)]


def main():
    out, count, seed = sys.argv[1], int(sys.argv[2]), int(sys.argv[3])
    rng, known, rows = random.Random(seed), set(), []
    while len(rows) < count:
        row = made(rng, sorted(FOLLOW))
        if tuple(row) not in known and '$' not in row[3]:
            known.add(tuple(row))
            rows.append(row)
    with open(out, 'w') as f:
        json.dump(rows, f)


if __name__ == '__main__':
    main()
