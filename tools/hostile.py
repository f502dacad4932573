#!/usr/bin/env python3
"""Runs random texts, many of them faulty, through the program and through tools/reference.py, and compares what they answer.

    tools/hostile.py --seed 1 --count 2000
    tools/hostile.py --seed 1 --count 2000 --headings

compares standard output, standard error and status for each text, prints each text that they answer differently, and ends with 1 if
there is one. The program is $SNOOP, or else the one that was built last (crates/snoop/out/snoop).
"""
import argparse
import contextlib
import io
import os
import pathlib
import random
import subprocess
import sys
from types import SimpleNamespace

import reference
from reading.texts import FIELDS

PROGRAM = os.environ.get("SNOOP", pathlib.Path(__file__).resolve().parent.parent / "crates" / "snoop" / "out" / "snoop")
SHAPES = [(1, 1, 1, 1), (2, 4, 64, 1), (2, 4, 64, 1), (2, 4, 64, 1), (3, 2, 4096, 1), (4, 16, 1, 1), (256, 4, 64, 1), (1, 300, 2, 1),
          (2, 4, 64, 8), (2, 4, 64, 2), (3, 2, 4096, 64), (4, 16, 16, 2), (2, 4, 512, 64)]
# What is asked of a text of steps, and of one of rows.
VIEWS = {"steps": ["steps", "steps", "states", "states --as csv", "states --as csv --block 0 --from 2", "counts --by row", "counts --by core", "counts --by block",
                   "counts --by word", "counts --every 2", "draw", "draw --as svg", "draw --as html --shown 3", "lint"],
         "run": ["run", "run --serial", "states --of rows", "states --as csv --of rows --serial", "counts --by core --of rows", "counts --every 3 --of rows --serial",
                 "draw --of rows", "draw --as svg --of rows --serial", "lint --of rows"]}
LINE_ENDS = [b"\n", b"\n", b"\n", b"\r\n", b"\r", b"\n\n", b"\r\n\r\n"]
HOSTILE = [b"", b" ", b"-1", b"+1", b"0x", b"0X1", b"0xg", b"1.0", b"1e3", b"\xff", b"\xc3\xa9", b"\x00", b"18446744073709551615",
           b"18446744073709551616", b"0xffffffffffffffff", b"0x10000000000000000", b"0" * 40 + b"1", b"99999999999999999999999999", b"4294967296"]


def spelled(chance, value):
    """A number in one of its spellings."""
    return chance.choice([str(value), str(value), str(value), hex(value), "0x" + hex(value)[2:].upper(), "000" + str(value)]).encode()


def quoted(chance, field):
    """A field, in quotes now and then."""
    return b'"' + field.replace(b'"', b'""') + b'"' if chance.random() < 0.1 else field


def record(chance, options, kinds):
    """A record without faults."""
    kind = chance.choice(kinds)
    numbers = {"core": options.cores, "address": options.blocks * options.block_bytes, "value": 2**64}
    parts = [kind.encode()] + [spelled(chance, chance.randrange(numbers[name])) for name in FIELDS[kind]]
    return [quoted(chance, part) for part in parts]


def spoilt(chance, parts, options):
    """A record with one thing wrong, or almost."""
    place = chance.randrange(len(parts))
    match chance.randrange(8):
        case 0:
            parts[place] = chance.choice(HOSTILE)
        case 1:
            del parts[place]
        case 2:
            parts.insert(place, chance.choice([b"0", b"", b"L"]))
        case 3:
            parts[0] = chance.choice([b"l", b"X", b"", b" L", b"LL", b"\xff", b'"L', b'L"', b'"L"x', b'"""L"""'])
        case 4:
            parts[-1] = spelled(chance, options.cores + chance.randrange(2))
        case 5:
            parts[-1] = spelled(chance, options.blocks * options.block_bytes - chance.randrange(2))
        case 6:
            parts[place] = b'"' + parts[place]
        case 7:
            parts[place] += chance.choice([b'"', b" ", b"\t", b"\x00"])
    return parts or [b""]


def heading(chance, options):
    """What a text of steps is for: mostly these options, or others, or with one thing wrong."""
    others = {"protocol": chance.choice(["msi", "mesi"]), **dict(zip(("cores", "blocks", "block_bytes", "words"), chance.choice(SHAPES)))}
    wanted = dict(vars(options))
    match chance.randrange(4):
        case 0:
            name = chance.choice(list(others))
            wanted[name] = others[name]
        case 1:
            wanted.update(others)
    parts = [b"V", spelled(chance, chance.choice([2] * 20 + [0, 1, 3, 20])), wanted["protocol"].encode()]
    parts += [spelled(chance, wanted[name]) for name in ("cores", "blocks", "block_bytes", "words")]
    for _ in range(chance.choice([0, 0, 1, 2])):
        place = chance.randrange(len(parts))
        match chance.randrange(6):
            case 0:
                parts = parts[:place]
            case 1:
                parts.insert(place, chance.choice([b"2", b"", b"V", b"msi"]))
            case 2:
                parts[place] = chance.choice(HOSTILE)
            case 3:
                parts[place] = chance.choice([b"V", b"v", b"2", b"1", b"3", b"0x2", b"msi", b"mesi", b"MSI", b"Mesi", b"msi ", b"mes"])
            case 4:
                parts[place] = b'"' + parts[place]
            case 5:
                parts[place] += chance.choice([b'"', b" ", b"\x00", b"0"])
        parts = parts or [b"V"]
    return [quoted(chance, part) for part in parts]


def text(chance, options):
    """A text of a few records, and of one kind of damage or none; many texts of steps begin with a heading, and a few have one elsewhere."""
    kinds = "LSEOR" if options.command == "steps" else "LSE"
    found = [record(chance, options, kinds) for _ in range(chance.randrange(12))]
    if options.headings or chance.random() < (0.3 if options.command == "steps" else 0.05):
        found.insert(0, heading(chance, options))
    if chance.random() < 0.03:
        found.insert(chance.randrange(len(found) + 1), heading(chance, options))
    if found and chance.random() < 0.5:
        place = chance.randrange(len(found))
        found[place] = spoilt(chance, found[place], options)
    ends = [chance.choice(LINE_ENDS)] * len(found) if chance.random() < 0.5 else [chance.choice(LINE_ENDS) for _ in found]
    made = b"".join(b",".join(parts) + end for parts, end in zip(found, ends))
    if chance.random() < 0.1:
        made = b"\xef\xbb\xbf" + made
    place = chance.randrange(len(made) + 1)
    match chance.randrange(10):
        case 0:
            made = made[:place]
        case 1:
            made += made
        case 2:
            made = made[:place] + bytes([chance.randrange(256)]) + made[place + 1:]
        case 3:
            made = made[:place] + chance.choice([b'"', b",", b"\r", b"\n", b"\xef\xbb\xbf", b"\x00"]) + made[place:]
        case 4:
            made = made[:place] + made[place + 1:]
    return made


def words_of(options, view):
    """The words of a command line."""
    shape = {"protocol": options.protocol, "cores": options.cores, "blocks": options.blocks, "block-bytes": options.block_bytes, "words": options.words}
    return [*view.split(), *(word for name, value in shape.items() for word in (f"--{name}", str(value)))]


def by_reference(words, given):
    """What the second reading answers: status, output, errors."""
    output, errors, status = io.StringIO(), io.StringIO(), 0
    with contextlib.redirect_stdout(output), contextlib.redirect_stderr(errors):
        try:
            reference.answer(reference.asked(words), lambda: given)
        except SystemExit as ended:
            status = ended.code
    return status, output.getvalue().encode(), errors.getvalue().encode()


def by_program(words, given):
    """What the program answers."""
    done = subprocess.run([PROGRAM, *words], input=given, capture_output=True, check=False)
    return done.returncode, done.stdout, done.stderr


def main():
    parser = argparse.ArgumentParser(description=__doc__, formatter_class=argparse.RawDescriptionHelpFormatter)
    parser.add_argument("--seed", type=int, default=1, help="the same seed makes the same texts (default 1)")
    parser.add_argument("--count", type=int, default=2000, help="how many texts (default 2000)")
    parser.add_argument("--headings", action="store_true", help="each text begins with a heading")
    asked = parser.parse_args()
    chance = random.Random(asked.seed)
    refused = different = 0
    for _ in range(asked.count):
        cores, blocks, block_bytes, words = chance.choice(SHAPES)
        options = SimpleNamespace(command=chance.choice(["steps", "steps", "steps", "run"] if asked.headings else ["steps", "run"]), protocol=chance.choice(["msi", "mesi"]),
                                  cores=cores, blocks=blocks, block_bytes=block_bytes, words=words, headings=asked.headings)
        words = words_of(options, chance.choice(VIEWS[options.command]))
        given = text(chance, options)
        expected = by_reference(words, given)
        refused += expected[0] == 1
        found = by_program(words, given)
        if found == expected and found[0] == 1 and words[0] == "run":
            # Threads refuse the same rows.
            words = words_of(options, "threads")
            found = by_program(words, given)
        if found != expected:
            different += 1
            print(f"{' '.join(words)}\n  text {given!r}\n  expected {expected}\n  found {found}")
    print(f"{asked.count} texts, {refused} of them refused, {different} answered differently")
    sys.exit(different > 0 or refused in (0, asked.count))


if __name__ == "__main__":
    main()
