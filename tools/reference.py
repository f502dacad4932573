#!/usr/bin/env python3
"""A second reading of the protocol, with which the program is compared.

It shares no code with Snoop: its tables are those of docs/PROTOCOL.md, its texts those of docs/TEXTS.md, it keeps every block of every
core in plain dictionaries, and it recomputes the report from the whole history at the end. Texts are read from standard input. A refused
text is reported as the program reports it (a line on standard error, status 1, nothing on standard output). Its parts are in tools/reading.

  steps    the line of each step of a text of steps, then the report, as `snoop steps`
  run      the same for a text of rows, as `snoop run`; with --serial as `snoop run --serial`
  states   the states of each block after each step, as `snoop states`; with --as csv a line for each controller that takes a row of its
           table; with --as markdown a table of one block, as in examples/README.md
  counts   with --by row, core, block or word, or with --every N, how often what happens, as `snoop counts`
  draw     a drawing in plain text, or with --as svg or html in these, as `snoop draw`
  lint     what is wrong with a text, as `snoop lint`
  views    of a text of steps, or with --of rows of rows, each of VIEWS, in a folder: N.words has the words, and N.shown the view
  getters  all that a machine's getters answer after each step, as crates/snoop_getters prints it
  storm    makes a text of random steps, or with --rows of random rows
  crowd    the output of a long text, or a text of many rows, as a rule writes it, without the machine below
  table    a controller's table, as `snoop table`

    tools/reference.py steps --protocol mesi < examples/silent_upgrade.steps
    tools/reference.py run --protocol mesi < examples/producer_and_consumer.rows
    tools/reference.py run --serial < examples/producer_and_consumer.rows
    tools/reference.py states --protocol mesi < examples/silent_upgrade.steps
    tools/reference.py states --block 1 < examples/two_blocks_open.steps
    tools/reference.py counts --by core < examples/upgrade_race.steps
    tools/reference.py counts --every 6 < examples/upgrade_race.steps
    tools/reference.py draw --ascii < examples/upgrade_race.steps
    tools/reference.py draw --as svg --of rows --serial < examples/order_of_a_trace.rows > order.svg
    tools/reference.py lint --of rows < examples/upgrade_race.steps
    tools/reference.py getters --protocol mesi --cores 2 --blocks 1 < examples/silent_upgrade.steps
    tools/reference.py storm --cores 8 --blocks 3 --count 1000 > storm.steps
    tools/reference.py crowd all_cores_store | sed -n 's/: .*//p' | ./snoop steps --cores 256
    tools/reference.py table --protocol mesi --which memory
    tools/reference.py table --as matrix
"""
import argparse
import contextlib
import os
import pathlib
import sys

from reading import counts, drawing, getters, html, lint, made, pictures, runs, states, svg
from reading.svg import STYLES
from reading.texts import Faulty, Refused

MAKERS = {"storm": made.storm, "crowd": made.crowd, "table": made.table}
STATES = {"text": states.as_text, "csv": states.as_csv, "markdown": states.as_markdown}
COUNTS = {"row": counts.by_row, "core": counts.by_core, "block": counts.by_block, "word": counts.by_word, None: counts.by_steps}
DRAWINGS = {"text": drawing.as_text, "svg": svg.as_svg, "html": html.as_html}
# What is shown of a text of steps, and of one of rows. The choices keep drawings of 64 cores and 6 blocks small enough.
VIEWS = {
    "steps": ("states", "states --block 0 --from 3 --to 90", "states --as csv", "states --as csv --block 0 --from 3 --to 90",
              "counts --by row", "counts --by core", "counts --by block", "counts --by block --top 1", "counts --by word", "counts --every 7",
              "draw --to 500", "draw --ascii --from 2 --to 500", "draw --block 0 --from 3 --to 300",
              "draw --as svg --to 45", "draw --as svg --theme light --block 0 --from 3 --to 300 --shown 9", "draw --as svg --theme dark --from 40 --to 60",
              "draw --as html --block 0 --to 400", "draw --as html --theme dark --from 2 --to 45 --shown 30",
              "lint", "lint --of rows --most 3"),
    "rows": ("states --of rows", "states --of rows --serial", "states --as csv --of rows", "states --as csv --of rows --serial --block 0 --from 3 --to 90",
             "counts --by row --of rows --serial", "counts --by core --of rows", "counts --by block --of rows --serial", "counts --by word --of rows",
             "counts --every 100 --of rows --serial", "draw --of rows --to 500", "draw --ascii --of rows --serial --to 500",
             "draw --as svg --of rows --to 45", "draw --as html --of rows --serial --block 0 --to 400", "lint --of rows"),
}


def reading(options):
    """What reads the text."""
    return {
        "steps": runs.steps,
        "run": runs.run,
        "states": STATES.get(options.form),
        "counts": COUNTS.get(options.by),
        "draw": DRAWINGS.get(options.form),
        "lint": lint.lint,
        "getters": getters.getters,
    }[options.command]


def asked(words):
    """The options that these words ask for; ends the program where there are none."""
    parser = argparse.ArgumentParser(description=__doc__, formatter_class=argparse.RawDescriptionHelpFormatter)
    parser.add_argument("command", choices=("steps", "run", "states", "counts", "draw", "lint", "views", "getters", "storm", "crowd", "table"))
    parser.add_argument("name", nargs="?", help=f"views: the folder; crowd: which one, of {', '.join(made.CROWDS)}")
    parser.add_argument("--protocol", type=str.lower, choices=("msi", "mesi"), default="msi", help="default msi")
    parser.add_argument("--cores", type=int, default=2, help="how many cores, 1 to 256 (default 2)")
    parser.add_argument("--blocks", type=int, default=4, help="how many blocks of memory, 1 to 65536 (default 4)")
    parser.add_argument("--block-bytes", type=int, default=64, help="bytes of a block, a power of two up to 4096 (default 64)")
    parser.add_argument("--words", type=int, default=1, help="words of a block, a power of two up to 64; several have 8 bytes or more each (default 1)")
    parser.add_argument("--of", choices=("steps", "rows"), default="steps", help="states, counts, draw, lint, views: what the text is (default steps)")
    parser.add_argument("--serial", action="store_true", help="rows: each is served whole before the next one of the text is asked")
    parser.add_argument("--rows", action="store_true", help="storm: rows in place of steps")
    parser.add_argument("--as", dest="form", default="text", choices=("text", "csv", "markdown", "svg", "html", "rows", "matrix"),
                        help="states, draw, table: the form (default text, of a table rows)")
    parser.add_argument("--ascii", action="store_true", help="draw --as text: in ASCII")
    parser.add_argument("--shown", type=int, metavar="N", help="draw --as svg, html: the first rows, so many of them (default all)")
    parser.add_argument("--theme", choices=STYLES, default="auto", help="draw --as svg, html: the colours (default auto)")
    parser.add_argument("--block", type=int, metavar="N", help="states, draw: this block alone (in Markdown block 0, if none is chosen)")
    parser.add_argument("--from", dest="first", type=int, default=1, metavar="N", help="states, draw: the number of the first step that is shown (default 1)")
    parser.add_argument("--to", dest="last", type=int, default=2**64 - 1, metavar="N", help="states, draw: the number of the last one")
    parser.add_argument("--by", choices=("row", "core", "block", "word"), help="counts: what each line counts")
    parser.add_argument("--every", type=int, metavar="N", help="counts: a line for each N steps")
    parser.add_argument("--top", type=int, metavar="N", help="counts --by block: the blocks of most requests, so many of them")
    parser.add_argument("--most", type=int, default=20, metavar="N", help="lint: how many faults are shown (default 20)")
    parser.add_argument("--which", choices=("cache", "memory"), default="cache", help="table: whose table (default cache)")
    parser.add_argument("--count", type=int, default=1000, help="storm: how many steps; crowd: how many blocks or rows, where that is open (default 1000)")
    parser.add_argument("--seed", type=int, default=1, help="storm: where the generator begins (default 1)")
    options = parser.parse_args(words)
    if not (1 <= options.cores <= 256 and 1 <= options.blocks <= 65536 and options.block_bytes in [2**k for k in range(13)]):
        parser.error("no such shape: 1 to 256 cores, 1 to 65536 blocks, block bytes a power of two up to 4096")
    if options.words not in [2**k for k in range(7)] or (options.words > 1 and options.block_bytes < 8 * options.words):
        parser.error("no such words: a power of two up to 64, and 8 bytes or more for each of several")
    if (options.command in ("crowd", "views")) != (options.name is not None) or (options.command == "crowd" and options.name not in made.CROWDS):
        parser.error("`crowd` takes a name of a crowd and `views` a folder, and no other command does")
    if options.of == "rows" and options.command not in ("states", "counts", "draw", "lint", "views"):
        parser.error("only `states`, `counts`, `draw`, `lint` and `views` take --of")
    if options.serial and options.command not in ("run", "states", "counts", "draw"):
        parser.error("only `run`, `states`, `counts` and `draw` take --serial")
    if (options.by is not None) + (options.every is not None) != (options.command == "counts"):
        parser.error("`counts` takes --by or --every, and no other command does")
    if options.command in ("states", "draw") and reading(options) is None:
        parser.error(f"`{options.command}` has no form {options.form}")
    return options


def answer(options, read):
    """Writes what is asked for of the text that is read; ends the program where that is refused."""
    try:
        if options.command in MAKERS:
            MAKERS[options.command](options)
        else:
            pictures.check_choice(options)
            reading(options)(options, read())
    except Faulty as fault:
        refuse(1, fault)
    except Refused as fault:
        refuse(2, fault)


def write_views(options, words, text):
    """Writes each view of a text into a folder, with its words beside it."""
    shape = [word for word in words[words.index(options.name) + 1:] if word not in ("--of", options.of)]
    for number, view in enumerate(VIEWS[options.of]):
        path = pathlib.Path(options.name, str(number))
        path.with_suffix(".words").write_text(f"{view}\n")
        with path.with_suffix(".shown").open("w", encoding="utf-8") as shown, contextlib.redirect_stdout(shown):
            answer(asked([*view.split(), *shape]), lambda: text)


def refuse(status, fault):
    """Ends the program as Snoop does."""
    print(f"snoop: {fault}", file=sys.stderr)
    sys.exit(status)


def main():
    sys.stdout.reconfigure(encoding="utf-8")
    words = sys.argv[1:]
    options = asked(words)
    try:
        if options.command == "views":
            write_views(options, words, sys.stdin.buffer.read())
        else:
            answer(options, sys.stdin.buffer.read)
        sys.stdout.flush()
    except BrokenPipeError:  # the reader has gone; nothing is left to flush at the end
        os.dup2(os.open(os.devnull, os.O_WRONLY), sys.stdout.fileno())
        sys.exit(1)


if __name__ == "__main__":
    main()
