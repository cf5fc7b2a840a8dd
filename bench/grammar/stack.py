#!/usr/bin/env python3
"""How deep the grammar of Rust reads, and the stack that it takes: bench/grammar/stack.py PROGRAM

PROGRAM is a built `filgordd`. For each construct it looks for the most levels that are read, up to 6,000, and then for
the least stack, in KiB, with which the whole process expands that text."""
import resource
import subprocess
import sys

CONSTRUCTS = {
    "return": ("expr", lambda n: "return " * n + "a"),
    "a @": ("pat", lambda n: "a @ " * n + "a"),
    "..": ("expr", lambda n: ".. " * n + "a"),
    "A<": ("ty", lambda n: "A<" * n + "a" + ">" * n),
    "A<B = ": ("ty", lambda n: "A<B = " * n + "a" + ">" * n),
    "fn() ->": ("ty", lambda n: "fn() -> " * n + "a"),
    "impl A() ->": ("ty", lambda n: "impl A() -> " * n + "a"),
    "&": ("ty", lambda n: "& " * n + "a"),
    "|x|": ("expr", lambda n: "|x| " * n + "a"),
    "if": ("expr", lambda n: "if " * n + "a" + " {}" * n),
    "else if": ("expr", lambda n: "if a {} else " * n + "{}"),
    "a =": ("expr", lambda n: "a = " * n + "a"),
    "-": ("expr", lambda n: "- " * n + "a"),
}


def run(program, text, kib):
    def limit():
        resource.setrlimit(resource.RLIMIT_STACK, (kib * 1024, kib * 1024))

    return subprocess.run([program, "expand"], input=text.encode(), capture_output=True, preexec_fn=limit)


# The first number from `low` to `high` of which this holds, where it holds of all that follow.
def first(low, high, holds):
    while low < high:
        middle = (low + high) // 2
        if holds(middle):
            high = middle
        else:
            low = middle + 1
    return low


def main(program):
    for name, (kind, nested) in CONSTRUCTS.items():
        def text(n):
            return f"macro_rules! p {{ ($x:{kind}) => {{ read }} }}\np!{{{nested(n)}}}\n"

        deepest = first(1, 6000, lambda n: run(program, text(n + 1), 8192).stdout != b"read\n")
        least = first(20, 8192, lambda kib: run(program, text(deepest), kib).returncode >= 0)
        print(f"{name:12} {kind:5} {deepest:5} levels {least:5} KiB", flush=True)


if __name__ == "__main__":
    main(sys.argv[1])
