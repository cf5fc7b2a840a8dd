"""What a session through the crate for Rust costs beside the library: beside.py C_PROGRAM RUST_PROGRAM

Both programs make the same turns over 100 KB of functions and calls: they open the text and expand it,
and they edit it and expand it; through the crate the printed text is copied out of each answer, too.
Prints the instructions of a turn of each, by callgrind, and their ratio. The status is 1 where a ratio
is more than 1.2, or they tell different things."""

import re
import subprocess
import sys

sys.dont_write_bytecode = True
from texts import text_of  # noqa: E402

TURNS = 4
KINDS = {"opened": "s", "edited": "e"}
CALLGRIND = ["valgrind", "--tool=callgrind", "--callgrind-out-file=/dev/null"]


# The instructions of a program over so many turns, and what it tells.
def counted(program, kind, turns, text):
    words = f"{kind} {turns} 0 +\n{text}".encode()
    ran = subprocess.run([*CALLGRIND, program], input=words, capture_output=True, check=True)
    return int(re.search(rb"Collected : (\d+)", ran.stderr)[1]), ran.stdout


# The instructions of a turn, and what the program tells at last.
def of_turn(program, kind, text):
    many, told = counted(program, kind, TURNS, text)
    return (many - counted(program, kind, 0, text)[0]) // TURNS, told


def main():
    text, failed = text_of(100_000), False
    for name, kind in KINDS.items():
        (library, told), (crate, same) = (of_turn(it, kind, text) for it in sys.argv[1:3])
        failed |= crate > 1.2 * library or told != same
        differs = "" if told == same else ", and they tell different things"
        print(f"{name}: the library {library}, the crate {crate}, {crate / library:.2f} times{differs}")
    sys.exit(failed)


main()
