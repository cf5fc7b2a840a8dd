"""Random macros of one to three rules, and calls of them that are near a rule.

A matcher has names, signs, literals, variables of the fragments that neither rustc nor the expander parses further,
groups and repetitions, up to two levels deep. A call takes a rule, fills it in, and makes a slip: a token is left
out, doubled, put in or replaced. So most calls fit no rule, and where they stop is not at the first token.
"""
import random

NAMES = ['red', 'green', 'blue', 'north', 'south']
SIGNS = [',', ';', '=>', '=', ':', '->', '|', '+']
LITERALS = ['1', '2', '"s"', "'c'"]
FRAGMENTS = ['ident', 'ident', 'literal', 'lifetime', 'tt']
GROUPS = ['()', '[]', '{}']
# What a filled-in variable may be.
FILLED = {'ident': NAMES, 'literal': LITERALS, 'lifetime': ["'a", "'static"], 'tt': NAMES + LITERALS + ['(red)', '[1 2]']}
ANY = NAMES + LITERALS + SIGNS + ["'a", '(red)', '[1]', '{ 2 }']


class Matcher:
    """A matcher is a list of parts: a token, ('variable', text), ('group', brackets, parts), or
    ('repetition', parts, separator, operator)."""

    def __init__(self, rng):
        self.rng, self.count = rng, 0
        self.parts = self.some(rng.randint(0, 4), 0)

    def some(self, count, depth):
        return [self.part(depth) for _ in range(count)]

    def variable(self):
        self.count += 1
        return ('variable', '$v%d' % self.count, self.rng.choice(FRAGMENTS))

    def part(self, depth):
        kind = self.rng.random()
        if depth < 2 and kind < 0.12:
            return ('group', self.rng.choice(GROUPS), self.some(self.rng.randint(0, 3), depth + 1))
        if depth < 2 and kind < 0.3:
            # A repetition has a token at least: one that matches nothing is no matcher.
            first = self.variable() if self.rng.random() < 0.7 else self.rng.choice(NAMES)
            operator = self.rng.choice('*+?')
            separator = '' if operator == '?' else self.rng.choice(['', ',', ';', '=>'])
            return ('repetition', [first] + self.some(self.rng.randint(0, 2), depth + 1), separator, operator)
        if kind < 0.65:
            return self.variable()
        return self.rng.choice(NAMES + SIGNS + LITERALS[:2])


def spelled(parts):
    words = []
    for part in parts:
        if isinstance(part, str):
            words.append(part)
        elif part[0] == 'variable':
            words.append('%s:%s' % part[1:])
        elif part[0] == 'group':
            words.append('%s %s %s' % (part[1][0], spelled(part[2]), part[1][1]))
        else:
            words.append('$( %s )%s%s' % (spelled(part[1]), part[2], part[3]))
    return ' '.join(words)


def filled(rng, parts):
    """Tokens that the parts match. A group is one word with its tokens in it."""
    words = []
    for part in parts:
        if isinstance(part, str):
            words.append(part)
        elif part[0] == 'variable':
            words.append(rng.choice(FILLED[part[2]]))
        elif part[0] == 'group':
            words.append([part[1], filled(rng, part[2])])
        else:
            rounds = rng.randint(0, 1) if part[3] == '?' else rng.randint(part[3] == '+', 3)
            for i in range(rounds):
                words += ([part[2]] if i and part[2] else []) + filled(rng, part[1])
    return words


def slipped(rng, words):
    """The tokens with a slip, often within a group."""
    groups = [word for word in words if isinstance(word, list)]
    if groups and rng.random() < 0.5:
        slipped(rng, rng.choice(groups)[1])
        return
    at = rng.randint(0, len(words))
    kind = rng.randrange(4)
    if kind == 0 or at == len(words):
        words.insert(at, rng.choice(ANY))
    elif kind == 1:
        del words[at]
    elif kind == 2:
        words.insert(at, words[at])
    else:
        words[at] = rng.choice(ANY)


def text_of(words):
    return ' '.join(word if isinstance(word, str) else '%s %s %s' % (word[0][0], text_of(word[1]), word[0][1]) for word in words)


def macros(seed, count):
    """A text with definitions, each on a line, and behind each one a call, in a function, on a line."""
    rng, lines = random.Random(seed), []
    for number in range(count):
        rules = [Matcher(rng) for _ in range(rng.randint(1, 3))]
        words = filled(rng, rng.choice(rules).parts)
        for _ in range(rng.randint(1, 2)):
            slipped(rng, words)
        said = '; '.join('(%s) => {}' % spelled(rule.parts) for rule in rules)
        lines.append('macro_rules! m%d { %s }' % (number, said))
        lines.append('fn f%d() { m%d!(%s); }' % (number, number, text_of(words)))
    return '\n'.join(lines) + '\n'
