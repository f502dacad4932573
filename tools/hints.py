#!/usr/bin/env python3
"""Looks for calls that were to be inlined.

    tools/hints.py [PROGRAM]

The toolchain drops `#[inline(always)]`, without a word, from a function that would grow too large. This lists each function of crates/*/src
that has the hint and still stands in the symbols of the program (crates/snoop/out/snoop), which it may not; then the status is 1. It needs
`nm`.
"""
import pathlib
import re
import subprocess
import sys

TOP = pathlib.Path(__file__).resolve().parent.parent
PROGRAM = TOP / "crates" / "snoop" / "out" / "snoop"
HINT = "#[inline(always)]"
IMPL = re.compile(r"impl(?:<.*?>)? (?:\w.* for )?(\w+)")
FUNCTION = re.compile(r"\s*(?:pub(?:\(\w+\))? )?(?:const )?fn (\w+)")


def hinted():
    """The functions with the hint: the crate, the type of the `impl` that each stands in, or none, and the name."""
    for file in sorted(TOP.glob("crates/*/src/**/*.rt")):
        crate = file.relative_to(TOP / "crates").parts[0]
        owner, is_next = None, False
        for line in file.read_text().splitlines():
            if line.startswith("impl"):
                owner = IMPL.match(line)[1]
            elif line.startswith("}"):
                owner = None
            is_next = is_next or line.strip() == HINT
            function = FUNCTION.match(line)
            if function and is_next:
                yield crate, owner, function[1]
                is_next = False


def called(program):
    """The functions in the symbols of a program: the crate, the type or module before the name, and the name. The mark of a generic function's
    types is left out. The name of a type goes before that of a trait."""
    symbols = subprocess.run(["nm", program], capture_output=True, text=True, check=True).stdout
    for line in symbols.splitlines():
        path = line.split(" ", 2)[-1].split("::<")[0].split("::")
        if len(path) > 2:
            yield path[0], path[-2], path[-1]


def is_of(place, owner):
    """Whether a type or a module of a symbol is that of a function: a module where the function stands in no `impl`."""
    return place.startswith(owner) if owner else place[:1].islower()


def main():
    symbols = set(called(sys.argv[1] if len(sys.argv) > 1 else PROGRAM))
    found = 0
    for crate, owner, name in hinted():
        if any(crate == at and name == its and is_of(place, owner) for at, place, its in symbols):
            print(f"{crate}: {owner + '::' if owner else ''}{name} is called, though it has {HINT}")
            found += 1
    sys.exit(found > 0)


main()
