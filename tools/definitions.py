#!/usr/bin/env python3
"""Prints definitions of crates/*/specs, found by name, with those that they use.

    tools/definitions.py IsJoined Serves          these, and what they use directly
    tools/definitions.py --all IsCoherentRun      this, and everything below it

Each is printed with its file, its comment and its text. If several files define a word, all its definitions are printed. A word that
no file defines is an error, with status 1; so is a file without a comment at its head, or a definition without one above it.
"""
import argparse
import pathlib
import re
import signal
import sys
from typing import NamedTuple

TOP = pathlib.Path(__file__).resolve().parent.parent
NAME = re.compile(r"(?:(?:abbrev|unfoldable) )?pub (?:(?:record|data) )?([^\s:({]+)")
WORD = re.compile(r"[^\s(){}\[\],;.]+")


class Definition(NamedTuple):
    name: str
    meaning: str
    lines: list  # its text


class Page(NamedTuple):
    path: pathlib.Path
    head: str
    imports: dict  # what each imported name is: its crate, its module and its name there
    definitions: list


def crates():
    """The crates that have definitions, in the order of crates.txt."""
    named = re.findall(r"^(\w+)", (TOP / "crates.txt").read_text(), re.MULTILINE)
    return [crate for crate in named if (TOP / "crates" / crate / "specs").is_dir()]


def files_of(specs):
    """The files of a crate's definitions, in the order in which their modules are listed."""
    def under(folder, listed):
        for name in re.findall(r"^pub mod (\w+)", listed.read_text(), re.MULTILINE):
            yield folder / f"{name}.antt"
            if (folder / name).is_dir():
                yield from under(folder / name, folder / f"{name}.antt")
    return list(under(specs, specs / "Lib.antt"))


def paths_in(text):
    """The paths of an import: of `a.{b.{c, d}, e}` a.b.c, a.b.d and a.e."""
    above, word = [""], ""
    for sign in text + ",":
        if sign == "{":
            above.append(above[-1] + word.strip())
        elif sign in ",}" and word.strip():
            yield above[-1] + word.strip()
        if sign == "}":
            above.pop()
        word = "" if sign in "{,}" else word + sign


def imports_in(text):
    """What a file imports."""
    found = {}
    for line in re.findall(r"^(?:ghost )?use Rattle\.(.*?);?$", text, re.MULTILINE):
        for path in paths_in(line):
            path, _, other = path.partition(" as ")
            crate, _, *module, name = path.split(".")
            found[(other or name).strip("◌")] = (crate, ".".join(module), name.strip("◌"))
    return found


def page_of(path):
    """The comment at the head of a file, its imports, and each definition with the comment right above it and its text."""
    head, found, comment, is_at_head, text = "", [], [], True, path.read_text()
    for line in text.splitlines():
        if line.startswith("--"):
            comment.append(line[2:].strip())
            continue
        if line.startswith("infix"):  # between an operator and its comment
            continue
        if is_at_head:
            head, comment, is_at_head = "\n".join(comment), [], False
        definition = NAME.match(line)
        if definition and not line.startswith("pub mod "):
            found.append(Definition(definition.group(1).strip("◌"), " ".join(comment), [line]))
        elif found and line and not comment and not line.startswith("use "):
            found[-1].lines.append(line)
        comment = []
    return Page(path.relative_to(TOP), head, imports_in(text), found)


def key_of(page, name):
    """A definition's crate, module and name."""
    _, crate, _, *module = page.path.with_suffix("").parts
    return (crate, ".".join(module), name)


def all_known():
    """All definitions, each with its page, by their keys."""
    pages = [page_of(path) for crate in crates() for path in files_of(TOP / "crates" / crate / "specs")]
    lacking = [f"{page.path}: no comment at its head" for page in pages if not page.head]
    lacking += [f"{page.path}: {definition.name} has no comment" for page in pages for definition in page.definitions if not definition.meaning]
    if lacking:
        sys.exit("\n".join(lacking))
    return {key_of(page, definition.name): (page, definition) for page in pages for definition in page.definitions}


def used_by(known, key):
    """The definitions that one uses directly."""
    page, definition = known[key]
    words = WORD.findall("\n".join(definition.lines))
    return [used for used in (page.imports.get(word, key_of(page, word)) for word in words) if used in known]


def with_used(known, keys, is_all):
    """These definitions, then what they use: directly, or all that is below them."""
    found = dict.fromkeys(keys)
    todo = list(found)
    for key in todo:
        new = [used for used in dict.fromkeys(used_by(known, key)) if used not in found]
        found.update(dict.fromkeys(new))
        todo += new if is_all else []
    return list(found)


def main():
    signal.signal(signal.SIGPIPE, signal.SIG_DFL)
    parser = argparse.ArgumentParser(description=__doc__, formatter_class=argparse.RawDescriptionHelpFormatter)
    parser.add_argument("words", nargs="+", metavar="WORD", help="the name of a definition")
    parser.add_argument("--all", action="store_true", help="print everything below it too")
    options = parser.parse_args()
    known, words = all_known(), [word.strip("◌") for word in options.words]
    unknown = [word for word in words if not any(word == name for _, _, name in known)]
    if unknown:
        sys.exit(f"no file of crates/*/specs defines {', '.join(unknown)}")
    for key in with_used(known, [key for key in known if key[2] in words], options.all):
        page, definition = known[key]
        print(page.path, f"-- {definition.meaning}", *definition.lines, "", sep="\n")


if __name__ == "__main__":
    main()
