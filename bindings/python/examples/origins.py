"""Tells where each token of a file's expansion comes from: origins.py FILE [DEFINITIONS..]

The macros of the files DEFINITIONS, of the same crate, may be called too. A line has the token, and the file, line and byte
column that it was written at: of the call where it is from an argument, of the definition where a rule wrote it."""

import sys
from pathlib import Path

from filgordd import Session, Unread


def main(names: list[str]) -> int:
    texts = [Path(name).read_text(encoding="utf-8") for name in names]
    # Positions of other texts are asked of a session over each.
    others = [Session(text) for text in texts]
    with Session(texts[0], scope="rust") as session:
        for number, text in enumerate(texts[1:], 1):
            session.source(number, text)
        session.prelude(range(1, len(texts)))
        try:
            expansion = session.expand()
        except Unread as unread:
            line, column = session.position(unread.fault.range.start)
            print(f"{names[0]}:{line}:{column}: {unread.fault.kind.words}", file=sys.stderr)
            return 1
    printed = expansion.printed.encode()
    for token, source in zip(expansion.tokens, expansion.sources):
        line, column = others[source].position(token.origin.start)
        print(f"{printed[slice(*token.range)].decode()}\t{names[source]}:{line}:{column}")
    for fault in expansion.faults:
        line, column = others[0].position(fault.range.start)
        print(f"{names[0]}:{line}:{column}: {fault.kind.words}", file=sys.stderr)
    return 1 if expansion.faults else 0


if __name__ == "__main__":
    sys.exit(main(sys.argv[1:]) if sys.argv[1:] else __doc__)
