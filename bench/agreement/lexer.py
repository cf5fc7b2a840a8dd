"""Tokens of Rust text, for cutting sources apart and for comparing what two programs print."""
import re

SPACE = re.compile(r'\s+')
TOKEN = re.compile(r'''
    (?P<raw>(?:b|c)?r(?P<hash>\#*)".*?"(?P=hash))
  | (?P<string>(?:b|c)?"(?:\\.|[^"\\])*")
  | (?P<char>b?'(?:\\(?:x[0-9a-fA-F]{2}|u\{[0-9a-fA-F_]*\}|.)|[^\\'\n])')
  | (?P<lifetime>'(?:r\#)?[^\W\d]\w*)
  | (?P<number>0[xob][0-9a-zA-Z_]+|[0-9][0-9_]*(?:\.[0-9][0-9_]*|\.(?![.\w]))?(?:[eE][+-]?[0-9_]+)?[A-Za-z_0-9]*)
  | (?P<ident>(?:r\#)?[^\W\d]\w*)
  | (?P<punct>[^\s])
''', re.S | re.X)
OPEN = {'(': ')', '[': ']', '{': '}'}
CLOSE = set(OPEN.values())


def comment_end(text, at):
    """The end of the comment at this place."""
    if text.startswith('//', at):
        end = text.find('\n', at)
        return len(text) if end < 0 else end
    depth, i = 0, at
    while True:
        if text.startswith('/*', i):
            depth, i = depth + 1, i + 2
        elif text.startswith('*/', i):
            depth, i = depth - 1, i + 2
            if depth == 0:
                return i
        elif i >= len(text):
            raise ValueError('an open comment')
        else:
            i += 1


def is_doc(comment):
    if comment.startswith(('//!', '/*!')):
        return True
    if comment.startswith('///'):
        return not comment.startswith('////')
    return comment.startswith('/**') and not comment.startswith('/***') and comment != '/**/'


def lex(text):
    """A list of (kind, text, start, end). Doc comments are tokens of the kind `doc`."""
    tokens, at = [], 0
    while at < len(text):
        space = SPACE.match(text, at)
        if space:
            at = space.end()
            continue
        if text.startswith(('//', '/*'), at):
            end = comment_end(text, at)
            if is_doc(text[at:end]):
                tokens.append(('doc', text[at:end], at, end))
            at = end
            continue
        m = TOKEN.match(text, at)
        tokens.append((m.lastgroup if m.lastgroup != 'hash' else 'raw', m.group(), at, m.end()))
        at = m.end()
    return tokens


def closings(tokens):
    """For each opening bracket the index of its closing one; no answer if they do not pair."""
    ends, stack = {}, []
    for i, (kind, text, _, _) in enumerate(tokens):
        if kind != 'punct':
            continue
        if text in OPEN:
            stack.append(i)
        elif text in CLOSE:
            if not stack or OPEN[tokens[stack[-1]][1]] != text:
                return None
            ends[stack.pop()] = i
    return None if stack else ends
