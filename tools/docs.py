#!/usr/bin/env python3
"""Takes out of the documents what ./check compares with the program, and finds mistakes in them.

    tools/docs.py states FOLDER     of examples/README.md, each table that follows a scene state by state: SCENE.PROTOCOL.states
    tools/docs.py programs FOLDER   of docs/LIBRARY.md, each program and what it prints: CRATE.rt and CRATE.stdout
    tools/docs.py commands FOLDER   of README.md, docs/GUIDE.md and docs/TEACHING.md, each command after "$ " and the output that it
                                    shows: N.command and N.out
    tools/docs.py mistakes          lines of prose that are too wide, files that are named and not there, and public functions that
                                    docs/PROVED.md has to name and does not

Ends with 1 where there is nothing of the kind, a program stands without its crate or without what it prints, or there is a mistake.
"""
import pathlib
import re
import sys

TOP = pathlib.Path(__file__).resolve().parent.parent


def states():
    """Each table that stands below a scene's name and protocol."""
    text = (TOP / "examples" / "README.md").read_text()
    for scene, protocol, table in re.findall(r"^\*\*`(\w+)`\*\*, (MSI|MESI)\.(?:.+\n)+\n((?:\|.*\n)+)", text, re.M):
        yield f"{scene}.{protocol.lower()}.states", table


def programs():
    """Each quote in Rust, with the crate that was named last before it, and the first quote after "It prints"."""
    text = (TOP / "docs" / "LIBRARY.md").read_text()
    for quote in re.finditer(r"```rust\n(.*?)```\n", text, re.S):
        crates = re.findall(r"crates/(\w+)/src/main\.rt", text[:quote.start()])
        printed = re.match(r"\nIt prints\n\n```text\n(.*?)```\n", text[quote.end():], re.S)
        if not crates or not printed:
            sys.exit(f"docs/LIBRARY.md: a program without its crate or without what it prints: {quote.group(1)[:60]!r}")
        yield f"{crates[-1]}.rt", quote.group(1)
        yield f"{crates[-1]}.stdout", printed.group(1)


def commands():
    """Each example of a console."""
    text = "".join((TOP / name).read_text() for name in ("README.md", "docs/GUIDE.md", "docs/TEACHING.md"))
    for number, (command, output) in enumerate(re.findall(r"```console\n\$ (.*)\n((?:.*\n)*?)```\n", text)):
        yield f"{number}.command", command + "\n"
        yield f"{number}.out", output


WIDTH = 100
FILE = re.compile(r"docs/[A-Z]+\.md|(?<![\w/.-])(?:crates|tools|examples|benches)/[a-z\d_./]*[a-z\d_](?![\w*/-])")


def pages():
    """All documents, each with its text."""
    for path in sorted([*TOP.glob("*.md"), *(TOP / "docs").glob("*.md"), *TOP.glob("*/README.md")]):
        yield path.relative_to(TOP), path.read_text()


def wide():
    """Lines of prose that are too wide: tables, quotes and links alone may be."""
    for path, text in pages():
        is_quoted = False
        for number, line in enumerate(text.splitlines(), 1):
            is_quoted ^= line.lstrip().startswith("```")
            if len(line) > WIDTH and not is_quoted and not line.startswith(("|", "    ")):
                yield f"{path}:{number}: {len(line)} columns, and not {WIDTH}"


def missing():
    """Files that are named and not there; what is built is not asked for."""
    for path, text in pages():
        for name in sorted(set(FILE.findall(text))):
            if "/out/" not in name and not (TOP / name).exists():
                yield f"{path}: there is no {name}"


# The crates that users are told of, with how the names begin that docs/PROVED.md has a line for: of most crates all. Of an engine or a view
# these are its calls from bytes to bytes and its laws, since all else there serves other crates, as do all functions of the crates that are
# not listed here: their contracts are beside the code.
LISTED = {
    **dict.fromkeys(["snoop_trace", "snoop_rules", "snoop_history", "snoop_bus", "snoop_model", "snoop_machine", "snoop_cores"], ""),
    **dict.fromkeys(["snoop_engine", "snoop_counts", "snoop_states", "snoop_draw", "snoop_svg"], "simulate_"),
    **dict.fromkeys(["snoop_lint", "snoop_sim"], ""),
}


def in_code(text):
    """The words that a text has in code."""
    return set(re.findall(r"\w+", " ".join(re.findall(r"`([^`]+)`", text))))


def unproved():
    """Public functions that docs/PROVED.md has to name and does not: below their crate's name in bold, in code, first in a row of a table.
    A law may be anywhere in its row."""
    parts = re.split(r"^(?=\|? ?\*\*`snoop_|## )", (TOP / "docs" / "PROVED.md").read_text(), flags=re.M)
    for crate, start in LISTED.items():
        part = "".join(part for part in parts if f"`{crate}`" in (part.split("**") + [""])[1])
        first = in_code("\n".join(line.split(" | ")[0] for line in part.splitlines()))
        for path in sorted((TOP / "crates" / crate / "src").rglob("*.rt")):
            for name in re.findall(r"^ *pub fn (\w+)", path.read_text(), re.M):
                is_law = path.name == "laws.rt"
                if (is_law or name.startswith(start)) and name not in (in_code(part) if is_law else first):
                    yield f"docs/PROVED.md: {name} of {crate} is missing"


def mistakes():
    """Prints what is wrong in the documents, and ends with 1 if anything is."""
    found = [*wide(), *missing(), *unproved()]
    print("\n".join(found))
    sys.exit(bool(found))


KINDS = {kind.__name__: kind for kind in (states, programs, commands)}


def main():
    if sys.argv[1:] == ["mistakes"]:
        mistakes()
    if len(sys.argv) != 3 or sys.argv[1] not in KINDS:
        sys.exit(__doc__.strip())
    folder = pathlib.Path(sys.argv[2])
    folder.mkdir(exist_ok=True)
    pieces = list(KINDS[sys.argv[1]]())
    if not pieces:
        sys.exit(f"no {sys.argv[1]} found")
    for name, text in pieces:
        (folder / name).write_text(text)


if __name__ == "__main__":
    main()
