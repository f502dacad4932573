#!/usr/bin/env python3
"""Prints docs/THEOREM.md, or writes it: the coherence theorem, with the types and the definitions that it uses.

    tools/theorem.py --write

All but HEAD and NOTATION comes from the sources: the law in crates/snoop_model/src/laws.rt, each definition that it uses, directly or
not, and the types of crates/*/src that these speak of. If a definition's file is in no part of the page, or NOTATION lacks a word of
the standard library that is used, or explains one that is not, the tool names these, writes nothing and ends with status 1.
"""
import argparse
import re
import sys
import textwrap

import definitions as specs
from definitions import TOP

PAGE = TOP / "docs" / "THEOREM.md"
LAWS = TOP / "crates" / "snoop_model" / "src" / "laws.rt"
LAW = re.compile(r"((?:^///.*\n)+)(?:#.*\n)*(pub fn coherent\(\)(?:\n .*)+)", re.MULTILINE)
TYPE = re.compile(r"((?:^///.*\n)*)(?:^#\[.*\n)*^pub ((?:struct|enum) (\w+).*\{\n(?:.*\n)*?^\}\n)", re.MULTILINE)
LONG = 160  # columns of a comment
ROW = re.compile(r"(.*) (\w+) = Some \(record \{ action = (.*); next = (\w+) \}\)")

# The parts of the page in reading order, each with the folders of its definitions.
PARTS = [
    ("What is proved", ["snoop_model/specs/Coherent"]),
    ("The protocol's tables", ["snoop_rules/specs"]),
    ("A machine's shape, and a block's words", ["snoop_trace/specs"]),
    ("The history: what was done", ["snoop_history/specs"]),
    ("Pictures: what each core, memory and the bus hold", ["snoop_bus/specs", "snoop_model/specs/Pictures"]),
    ("Moves: what a step does", ["snoop_model/specs/Moves"]),
    ("Runs: steps in a row", ["snoop_model/specs/Runs"]),
]

# What the definitions use of the standard library.
NOTATION = [
    ("ℕ; Bool, true, false; ==, not, &&, if then else", "numbers from 0 on; true or false; tests"),
    ("List, [], ∷, ++", "lists: the empty one, an element before a list, one list after another"),
    ("Option, None, Some; Result, Ok, Err", "nothing, or a value; an answer, or a refusal"),
    ("≡, ≢, <, ≤; ⊎, ↔, ⊤", "equal, not equal, less, at most; or, if and only if, what always holds"),
    ("IsTrue b, MatchBool b P Q", "b is true; P if b is true, else Q"),
    ("IsSome o, is_some o; IfSome o P, IsSomeAnd o P", "o has a value, as a fact and as a test; P holds of its value, if any; it has one, and P holds of it"),
    ("option_map f o, option_to_list o, unwrap_or o x", "f of the value, if any; the value as a list of at most one; the value, or else x"),
    ("length xs, take n xs, map f xs, filter p xs", "how many elements; the first n; f of each; those that pass p"),
    ("filter_map f xs, count_by p xs", "the values among the results of f; how many elements pass p"),
    ("All P xs, Contains xs x, IsPermutation xs ys", "P holds of each; x is an element; ys has the same elements, each as often"),
    ("slice_get xs k, slice_index_or xs k x", "the element at place k, counted from 0, if any; the same, or else x"),
    ("slice_set xs k x", "xs with x at place k, unchanged if it has no such place"),
    ("replicate n x, range_with_len a n", "n times x; the n numbers from a on"),
]

HEAD = r"""# The theorem

{doc}

`tools/theorem.py` makes this page from Snoop's sources: the theorem, then every type and definition
that it uses, directly or not. docs/COHERENCE.md has the prose: the model in words, why each clause
holds, what follows, and what no clause says. docs/PROTOCOL.md explains the states, messages and
steps. `tools/definitions.py NAME` shows a definition as its file has it.

## Notation

Definitions are laid out tightly: without `pub` and `abbrev`, and with their names only once. An
argument that all cases name alike is named at the head; the cases match those marked `·`. The first
case that fits counts. A small letter or word fits anything, as `_`, `One` and `P` do. `A, B = x` is
two cases. In the tables, `_ I: Load = Issue GetS / IsAd` is the case
`_ I Load = Some (record {{ action = Issue GetS; next = IsAd }})`. A definition of one line has no
comment here, and a long comment is cut. Types are in the words of Rust; their numbers are ℕ here,
and `declared.Open` is the type `Open`. Comments write IS_AD for `IsAd`, and so on. `Data` is a
block's words, a payload and an event.

| Written | Means |
|---|---|
| `f a`, `x.log`, `(a, b)`, `λ x. ..` | f of a; a field; a pair; a function of x |
| `A × B`, `A → B`, `¬ A`, `⊥` | of facts: A and B; if A then B; not A; what never holds. Of types: pairs; functions from A to B |
| `(x : T) × P`, `(x : T) → P` | there is an x with P; P for every x |
| `(made : Orders ..) → ..` | if the fact holds; `made.from` is the `from` that it says exists |
| `record R .. where` | a type with these fields; or a fact, if fields are facts: that they hold, for some values of the others |
| `record s {{ .. }}`, `record {{ .. }}`; `data` | s with these fields; a value with all of them; a type by its members |
| `op.Load`, `mem.M`; `Nothing` | a member, after a short name of its type; the action `None` |
| `.. : Type 0` | a fact or a type; so is what has a capital and no result |
| `{{A : Type 0}}`, `{{A}}` | a type that follows from the other arguments |
{notation}

`f a` and `¬` bind first, then `∷` and `++`, `≡` `≢` `<` `≤`, `×` and `⊎`, `↔`, `→`; `==` before
`&&`. `∷`, `++`, `×`, `⊎` and `→` group to the right. `(x : T) ×`, `(x : T) →` and `λ x.` extend to
the end of their brackets.
"""


def in_words(comment):
    """The text of a comment on Rust, with a line for each paragraph."""
    text = re.sub(r"(?<!\n)\n(?!\n)", " ", re.sub(r"^/// ?", "", comment.strip(), flags=re.MULTILINE))
    return "\n\n".join(textwrap.fill(part, 100, break_long_words=False, break_on_hyphens=False) for part in text.split("\n\n"))


def part_of(page):
    """The number of a page's part and of its folder there, if it has one."""
    for number, (_, folders) in enumerate(PARTS):
        for place, folder in enumerate(folders):
            if page.path.with_suffix("").is_relative_to(f"crates/{folder}"):
                return number, place
    return None


def below_the_law(known):
    """The definitions that the law uses, in the order of their files."""
    source = LAWS.read_text()
    imports = specs.imports_in(source)
    words = specs.WORD.findall(LAW.search(source).group(2))
    found = specs.with_used(known, [imports[word] for word in words if word in imports], True)
    return {key: known[key] for key in known if key in found}


def lacks(shown):
    """What the page cannot show."""
    explained = {sign.split()[0] for signs, _ in NOTATION for sign in re.split("[,;] ", signs)}
    used = set()
    for page, definition in shown.values():
        words = {"[]", *specs.WORD.findall("\n".join(definition.lines))}
        used |= {name.split("◌")[0] for name, (crate, *_) in page.imports.items() if crate == "std" and name.split("◌")[0] in words}
        if not part_of(page):
            yield f"{page.path}: in no part of the page"
    yield from (f"not explained: {word}" for word in sorted(used - explained))
    yield from (f"explained, and not used: {word}" for word in sorted(explained - used))


def types_of(shown):
    """The types that definitions speak of, and those that these are made of, each on a line."""
    known = {}
    for path in (path for crate in specs.crates() for path in sorted((TOP / "crates" / crate / "src").rglob("*.rt"))):
        for _, text, name in TYPE.findall(path.read_text()):
            text = re.sub(r"\s+", " ", re.sub(r"//.*|\bpub ", "", text)).replace(", }", " }")
            known[path.relative_to(TOP).parts[1], name] = re.sub(r"<(\w+) = \w+>", r"<\1>", text).strip()
    crate_of, todo = {name: crate for crate, name in known}, []
    for page, definition in shown.values():
        words = specs.WORD.findall("\n".join(definition.lines))
        paths = [".".join(page.imports[word]).split(".") for word in words if word in page.imports]
        todo += [(path[0], path[3]) for path in paths if path[1] == "declared"]
    found = set()
    for key in todo:
        if key in known and key not in found:
            found.add(key)
            todo += [(crate_of.get(name), name) for name in re.findall(r"\b[A-Z]\w+", known[key].split("{", 1)[1])]
    return "\n".join(text for key, text in known.items() if key in found)


def split_at(text, mark):
    """The pieces of a text between marks that stand in no brackets."""
    depth, pieces = 0, [""]
    for sign in text:
        depth += (sign in "({") - (sign in ")}")
        if sign == mark and not depth:
            pieces.append("")
        else:
            pieces[-1] += sign
    return [piece.strip() for piece in pieces if piece.strip()]


def named(names, kinds):
    """Arguments with their names: those of one kind in a row share a bracket."""
    text, last = "", None
    for name, kind in zip(names, kinds):
        text, last = (f"{text[:-len(last) - 4]} {name} : {kind})" if kind == last else f"{text} ({name} : {kind})"), kind
    return text


def table(cases):
    """The cases of a table: those of one protocol and state in a line, if no two are of the same state and event."""
    lines = {}
    rows = [ROW.fullmatch(case).groups() for case in cases]
    assert len({(start.split()[1], event) for start, event, _, _ in rows}) == len(rows)
    for start, event, action, next_state in rows:
        lines.setdefault(start, {}).setdefault(f"{action} / {next_state}", []).append(event)
    return [f"{start}: " + "; ".join(f"{', '.join(events)} = {result}" for result, events in line.items()) for start, line in lines.items()]


def laid_out(definition):
    """A definition's text without `pub`, `abbrev` and its repeated name. An argument with one name in all cases is named at the head."""
    first, *rest = (re.sub(r"^( *)(?:abbrev |unfoldable )?pub ", r"\1", line) for line in definition.lines)
    if first.startswith(("record ", "data ")):
        return "\n".join([first.replace(" : Type 0 where", " where"), *rest])
    cases = re.split(rf"\n{re.escape(definition.name)} ", "\n" + "\n".join(rest))[1:]
    if ROW.fullmatch(cases[0]):
        return "\n  ".join([first, *table(cases[:-1]), cases[-1]])
    lefts, rights = zip(*((split_at(case[:case.index("=")], " "), case[case.index("="):]) for case in cases))
    kinds = split_at(first.partition(" : ")[2], "→")
    names = [alike[0] if re.fullmatch(r"([a-z]\w*|P)( \1)*", " ".join(alike)) else "·" for alike in zip(*lefts)]
    if set(names) == {"·"} or "{" in kinds[0]:
        names = ["·" for _ in kinds]
    else:
        result = " → ".join(kinds[len(names):])
        first = definition.name + named(names, kinds) + ("" if result == "Type 0" else f" : {result}")
    if "·" not in names:
        right = re.sub(r"\s+", " ", rights[0]).replace("; }", " }") if "record {\n" in rights[0] else rights[0]
        return f"{first} {right}"
    texts = []
    for left, right in zip(lefts, rights):
        matched = " ".join(part for part, name in zip(left, names) if name == "·")
        if names.count("·") == 1 or len(left) == 1:
            matched = re.sub(r"^\((.*)\)$", r"\1", matched)
        texts = [*texts[:-1], (f"{texts[-1][0]}, {matched}", right)] if texts and texts[-1][1] == right else [*texts, (matched, right)]
    return "\n  ".join([first, *(f"{matched} {right}" for matched, right in texts)])


def text_of(number, shown):
    """A part of the page: its definitions, in the order of its folders and their files."""
    texts = []
    for (part, _), _, definition in sorted((part_of(page), at, definition) for at, (page, definition) in enumerate(shown.values())):
        if part == number:
            text, comment = laid_out(definition), definition.meaning
            comment = comment if len(comment) < LONG else re.split("[:;] ", comment)[0]
            texts.append(f"\n-- {comment}\n{text}\n" if "\n" in text else text)
    return re.sub(r"\n{3,}", "\n\n", "\n".join(texts)).strip()


def page_of(known):
    """The page, from all definitions."""
    shown = below_the_law(known)
    lacking = list(lacks(shown))
    if lacking:
        sys.exit("\n".join(lacking))
    comment, law = LAW.search(LAWS.read_text()).groups()
    text = HEAD.format(doc=in_words(comment), notation="\n".join(f"| `{signs}` | {meaning} |" for signs, meaning in NOTATION))
    parts = [f"## {title}\n\n```text\n{text_of(number, shown)}\n```\n" for number, (title, _) in enumerate(PARTS)]
    parts[0] = parts[0].replace("```text", f"```rust\n{law}\n```\n\n```text", 1)
    parts.insert(1, f"## Types\n\n```rust\n{types_of(shown)}\n```\n")
    return "\n".join([text, *parts])


def main():
    parser = argparse.ArgumentParser(description=__doc__, formatter_class=argparse.RawDescriptionHelpFormatter)
    parser.add_argument("--write", action="store_true", help="write the page instead of printing it")
    options = parser.parse_args()
    text = page_of(specs.all_known())
    if options.write:
        PAGE.write_text(text)
    else:
        sys.stdout.write(text)


if __name__ == "__main__":
    main()
