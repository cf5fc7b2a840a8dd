"""What `Session.expand()` of Python costs beside the library: python.py [TEXT]

Expands TEXT, or 1 MB of functions and calls, as it is opened, as it is expanded again, and after an
edit in front, in turn by the library's call alone and by the method, which also copies the answer
out. Prints the median of the processor time of eleven turns of each, and their ratio. The status is
1 where a ratio is more than 2."""

import statistics
import sys
import time
from pathlib import Path

sys.dont_write_bytecode = True
sys.path.insert(0, str(Path(__file__).resolve().parents[2] / "bindings" / "python"))
from filgordd import Session  # noqa: E402
from texts import text_of  # noqa: E402

TURNS = 11


def library(session):
    session._call("expand")


def method(session):
    return session.expand()


def taken(call, session):
    start = time.process_time_ns()
    answer = call(session)
    return time.process_time_ns() - start, answer


# The times of a call where a session was just opened, was just expanded, and was edited in front.
def turn(call, text):
    with Session(text) as session:
        yield taken(call, session)[0]
        yield taken(call, session)[0]
        session.edit(0, 0, "// a comment\n")
        yield taken(call, session)[0]


def main():
    text = Path(sys.argv[1]).read_text() if len(sys.argv) > 1 else text_of(1_000_000)
    turns = [(list(turn(library, text)), list(turn(method, text))) for _ in range(TURNS)]
    expansion = Session(text).expand()
    print(f"{len(text.encode())} bytes, {len(expansion.tokens)} tokens, {len(expansion.faults)} faults")
    ratios = []
    for row, name in enumerate(("opened", "expanded again", "edited in front")):
        alone, whole = (statistics.median(it[which][row] for it in turns) for which in (0, 1))
        ratios.append(whole / alone)
        print(f"  {name}: library {alone / 1e6:.2f} ms, expand() {whole / 1e6:.2f} ms, {ratios[-1]:.2f} times")
    sys.exit(max(ratios) > 2)


main()
