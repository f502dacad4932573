#!/usr/bin/env python3
"""Compares where the prover refused each must-fail edit with what the edit says.

    tools/refused.py LOG     LOG has the lines of `rt ci` or `rt must-fail`; without the edits that it lacks

An edit says by a line `# refused: FUNCTION CLAUSE` which function the prover has to refuse, and which of its clauses: `returns` if that has no name, the
whole name of the goal if it is no clause of the function. The prover names a function by a place in the code or in the function's proof, and mostly a
goal. Where it cuts the goal's name off, only the function is compared. Ends with 1 if an edit is refused elsewhere or does not say where, if the prover
gave up at a limit or only found a proof that names what is gone, and if LOG has no edits.
"""
import pathlib
import re
import sys

TOP = pathlib.Path(__file__).resolve().parent.parent
REFUSED = re.compile(r"must-fail (\w+)/([\w.-]+): refused, as it must be(?: (\(only .*?\)))?(?:: (.*))?$", re.M)
PLACE = re.compile(r"(?:note: )?(?:\./)?((?:src|proofs)/\S+?):(\d+):")
GOAL = re.compile(r"\(`([\w+-]+)`\)|error: `([\w+-]+)`")


def function_at(crate, file, number):
    """The function whose code or proof has this line, or whose comment begins there. An edit changes no line's number."""
    if file.startswith("proofs/"):
        return pathlib.PurePath(file).parent.name
    lines = (TOP / "crates" / crate / file).read_text().splitlines()
    is_above = lines[number - 1].lstrip().startswith(("//", "#["))
    near = lines[number - 1:] if is_above else lines[:number]
    names = re.findall(r"^ *(?:pub(?:\(\w+\))? )?(?:const )?fn (\w+)", "\n".join(near), re.M)
    return names[0 if is_above else -1]


def named(crate, said):
    """The function and the clause that the prover names, as far as it does."""
    place, goal = PLACE.match(said), GOAL.search(said)
    clause = goal and (goal[1] or goal[2])
    if clause and "-requires" not in clause:
        clause = re.sub(r"^.*-clause-|(?<=^returns)-.*", "", clause)
    return function_at(crate, place[1], int(place[2])) if place else None, clause


def main(log):
    edits, mistakes = REFUSED.findall(pathlib.Path(log).read_text()), 0
    for crate, edit, only, said in edits:
        wanted = re.search(r"^# refused: (\S+) (\S+)$", (TOP / "crates" / crate / "must-fail" / edit).read_text(), re.M)
        found = named(crate, said)
        if only or not wanted or any(one and one != other for one, other in zip(found, wanted.groups())):
            print(f"{crate}/{edit}: refused at {' '.join(map(str, found))} {only}, and it says {' '.join(wanted.groups()) if wanted else 'nothing'}")
            mistakes += 1
    print(f"{len(edits)} must-fail edits, {mistakes} of them refused elsewhere than they say")
    return 1 if mistakes or not edits else 0


if __name__ == "__main__":
    sys.exit(main(*sys.argv[1:]))
