#!/usr/bin/env python3
"""Makes a sheet of a run for students to fill in, and marks what they hand in.

    tools/marking.py sheet SOLUTION              the sheet: the lines of the solution, without what is to be found
    tools/marking.py marks SOLUTION ANSWER..     a line for each answer, the best first: its right cells, how many count, its name
    tools/marking.py mistakes SOLUTION ANSWER..  a line for each cell that is not right

A solution is what `snoop states --as csv` wrote. To be found are what each controller does at a step (FOUND) and what came with a
response; the reply tells too much, so it is neither on the sheet nor marked. A cell counts if the solution or the answer has something in
it. Commas, semicolons and tabs between fields are the same, and so are small and capital letters, and "IM_AD", "IM^AD" and "IM AD".
"""
import codecs
import csv
import pathlib
import sys

FOUND = ("before", "action", "after", "value", "place")


def lines(name):
    """The lines of a file by step and controller, each with its cells by the names of their fields."""
    content = pathlib.Path(name).read_bytes()
    is_wide = content.startswith((codecs.BOM_UTF16_LE, codecs.BOM_UTF16_BE))
    rows = content.decode("utf-16" if is_wide else "utf-8-sig", errors="replace").splitlines()
    separator = max(",;\t", key="".join(rows[:1]).count)
    return {(plain(line.get("step")), plain(line.get("controller"))): line for line in csv.DictReader(rows, delimiter=separator)}


def plain(cell):
    """A cell without what makes no difference; a cell that is not there is empty."""
    return " ".join((cell or "").lower().replace("_", " ").replace("^", " ").split())


def asked(line):
    """The fields that are to be found in a line of the solution."""
    return ("event", *FOUND) if line["record"].startswith("R,") else FOUND


def sheet(solution):
    """Prints the solution without what is to be found, and without replies."""
    out = csv.writer(sys.stdout, lineterminator="\n")
    out.writerow(next(iter(solution.values())))
    for line in solution.values():
        out.writerow("" if field in ("reply", *asked(line)) else cell for field, cell in line.items())


def compared(solution, answer):
    """Each cell that counts: where it is, what the solution has there, and what the answer has."""
    for place, line in solution.items():
        for field in asked(line):
            right, given = line[field], answer.get(place, {}).get(field) or ""
            if plain(right) or plain(given):
                yield f"step {line['step']}, {line['controller']}, {field}", right, given


def marks(solution, names):
    """Prints how many cells of each answer are right, of how many."""
    found = []
    for name in names:
        cells = [plain(right) == plain(given) for _, right, given in compared(solution, lines(name))]
        found.append((sum(cells), len(cells), name))
    for right, count, name in sorted(found, key=lambda mark: (-mark[0] / max(mark[1], 1), mark[2])):
        print(f"{right} of {count} {name}")


def mistakes(solution, names):
    """Prints each cell of the answers that is not right."""
    for name in names:
        for place, right, given in compared(solution, lines(name)):
            if plain(right) != plain(given):
                print(f"{name}: {place}: '{given}' in place of '{right}'")


def main():
    command, names = sys.argv[1:2], sys.argv[2:]
    if (command, len(names)) != (["sheet"], 1) and not (command in (["marks"], ["mistakes"]) and len(names) > 1):
        sys.exit(__doc__.strip())
    solution = lines(names[0])
    if not solution or not all(line.get("record") for line in solution.values()):
        sys.exit(f"{names[0]}: this is not what snoop states --as csv writes")
    if command == ["sheet"]:
        sheet(solution)
    else:
        {"marks": marks, "mistakes": mistakes}[command[0]](solution, names[1:])


if __name__ == "__main__":
    main()
