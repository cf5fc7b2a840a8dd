"""A text to measure with: functions and calls of a macro, of so many bytes."""

MACROS = "macro_rules! p { ($a:ident $b:tt) => { $b $a } }\n"
PIECES = "fn f{0}(a: u32, b: u32) -> u32 {{ (a + {0}) * b }}\np!{{ x{0} y }}\n"


def text_of(size):
    pieces, number = [MACROS], 0
    while size > 0:
        pieces.append(PIECES.format(number))
        size, number = size - len(pieces[-1]), number + 1
    return "".join(pieces)
