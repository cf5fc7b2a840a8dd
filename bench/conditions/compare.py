#!/usr/bin/env python3
"""What conditions leave out, beside rustc: bench/conditions/compare.py PROGRAM [SEED]

PROGRAM is a built `filgordd`. 2,000 items stand under random conditions, alone, in modules, in implementations and in
the result of a call, and 200 definitions of macros. Under four sets of options rustc says which functions there are,
and which of two definitions a call takes."""
import random
import re
import subprocess
import sys
import tempfile

OPTIONS = ("a", "b", 'c="x"', 'c="y"', "r#fn", "d")
SETS = (["a"], ["b", 'c="x"'], ["a", 'c="y"', 'c="x"'], ["a", "b", "d", "r#fn"])


def predicate(rng, depth):
    kind = rng.randrange(7 if depth else 3)
    if kind == 0:
        return rng.choice(("true", "false"))
    if kind < 3:
        return rng.choice((*OPTIONS, "e", 'c = "z"', 'c=r"x"', 'c="\\x78"', "r#a"))
    name = ("all", "any", "not", rng.choice(("r#all", "any")))[kind - 3]
    count = 1 if name == "not" else rng.randrange(4)
    inner = ", ".join(predicate(rng, depth - 1) for _ in range(count))
    return f"{name}({inner}{',' if inner and rng.random() < 0.2 else ''})"


def attribute(rng):
    if rng.random() < 0.2:
        return f"#[cfg_attr({predicate(rng, 2)}, cfg({predicate(rng, 2)}), cfg({predicate(rng, 1)}))]"
    return f"#[cfg({predicate(rng, 3)})]"


def item(rng, n):
    front = "".join(attribute(rng) + " " for _ in range(1 + (rng.random() < 0.2)))
    there = f"fn f{n}() {{}}"
    kinds = (
        f"{front}{there}",
        f"{front}mod m{n} {{ {there} }}",
        f"mod m{n} {{ {front}pub {there} }}",
        f"struct S{n}; {front}impl S{n} {{ {there} }}",
        f"struct S{n}; impl S{n} {{ {front}{there} }}",
        f"give! {{ {n} {front}{there} }}",
        f"mod m{n} {{ give!({n} {front}{there}); }}",
        f"{front}const C{n}: u8 = 1; {front}{there}",
        f'{front}unsafe extern "C" {{ fn f{n}(); }}',
        f"fn g{n}() {{ {front}macro_rules! m {{ () => {{ {there} }} }} m! {{}} }}",
    )
    return rng.choice(kinds)


def main(program, seed):
    rng = random.Random(seed)
    front = "#![allow(warnings)]\nmacro_rules! m { () => {} }\nmacro_rules! give { ($n:tt $($i:item)*) => { $($i)* } }\n"
    text = front + "\n".join(item(rng, n) for n in range(2000)) + "\nfn main() {}\n"
    with tempfile.TemporaryDirectory() as room:
        with open(f"{room}/text.rs", "w") as it:
            it.write(text)
        for options in SETS:
            words = [it for option in options for it in ("--cfg", option)]
            asked = ["rustc", "--edition", "2024", "-Zunpretty=expanded", *words, f"{room}/text.rs"]
            told = subprocess.run(asked, capture_output=True, text=True, env={"RUSTC_BOOTSTRAP": "1", "PATH": "/usr/bin:/bin:/usr/local/bin:/root/.cargo/bin"})
            if told.returncode:
                sys.exit(told.stderr[:2000])
            # A definition that rustc prints has the function in its template.
            wanted = set(re.findall(r"\bfn (f\d+)", re.sub(r"macro_rules! m \{[^\n]*", "", told.stdout)))
            ours = subprocess.run([program, "expand", *words, f"{room}/text.rs"], capture_output=True, text=True)
            found = set(re.findall(r"\bfn (f\d+)", ours.stdout))
            apart = sorted(wanted ^ found)
            print(f"{' '.join(options)}: {len(wanted)} of 2000 are there, {len(apart)} otherwise {apart[:5]}", ours.stderr[:200])


main(sys.argv[1], int(sys.argv[2]) if len(sys.argv) > 2 else 1)
