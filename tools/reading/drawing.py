"""A drawing of a run in plain text: a line for each step, with a panel for each block."""
from typing import NamedTuple

from . import pictures
from .machine import WAITING
from .runs import given_steps, see
from .texts import Refused

MAY_WRITE, MAY_READ, AT_ONCE, REFUSED, ISSUED, WAITS, ORDERED, SENDS, WAITS_FOR_DATA, LEFT, RIGHT, WIRE, BROKEN = "▓░■✗○┊●◆│◀▶─╌"
IN_ASCII = str.maketrans("▓░■✗○┊●◆│◀▶─╌", "#+*xo:@%|<>-~")
MARKS = dict.fromkeys(("M", "E", "MI_A", "EI_A"), MAY_WRITE) | dict.fromkeys(("S", "SM_AD", "SM_D"), MAY_READ)
RAILS = dict.fromkeys(WAITING, WAITS) | dict.fromkeys(("IS_D", "IM_D", "SM_D"), WAITS_FOR_DATA)
MOST_CELLS = 1_000_000
LEGEND = f"""
{MAY_WRITE} may write   {MAY_READ} may read   {AT_ONCE} done at once   {REFUSED} refused
{ISSUED} issued   {WAITS} waits for its order   {ORDERED} ordered   {SENDS} sends   {WAITS_FOR_DATA} waits for data   {LEFT} gets data"""


class Widths(NamedTuple):
    """The widths of words: of a number, a core, the bus and memory."""
    number: int
    core: int
    bus: int
    memory: int


class Cell(NamedTuple):
    """A core's part of a panel."""
    mark: str
    words: str
    rail: str


def widths_of(options, given):
    """The widths of words, by the text alone: a place in a queue needs room only where several blocks are asked for."""
    values = options.words * (pictures.digits_of_values(given) + 1) - 1
    blocks = len(pictures.asking(options, given))
    place = len(f" #{blocks}") if blocks > 1 else 0
    return Widths(max(4, len(str(len(given)))), max(6 + values + place, len(f"core {options.cores}")), 14 + len(str(options.cores)) + values, 9 + values)


def field(width, words, fill=" "):
    """Words with a blank on each side, filled up to the width, or fill alone."""
    return f" {words} " + fill * (width - len(words)) if words else fill * (width + 2)


def panel(widths, cells, begin, wire, tip, bus, link, memory):
    """A block's part of a line; a wire runs from the cell at which it begins to the bus."""
    out = ""
    for place, cell in enumerate(cells):
        fill = wire if begin is not None and place > begin else " "
        out += (cell.mark or fill) + field(widths.core, cell.words, fill) + (cell.rail or fill) + 2 * (wire if place == begin else fill)
    return out + tip + field(widths.bus, bus) + link + field(widths.memory, memory)


def standing(machine, block, cores):
    """The cells of a block's cores without words: what they may do, and what they wait for."""
    states = [machine.line[core, block].state for core in cores]
    return [Cell(MARKS.get(state, ""), "", RAILS.get(state, "")) for state in states]


def first_panel(machine, block, cores, widths):
    """The panel of the first row: all that stands."""
    words = [pictures.of_core(machine, block, core, 2) for core in cores]
    cells = [cell._replace(words=said) for cell, said in zip(standing(machine, block, cores), words)]
    return panel(widths, cells, None, " ", " ", pictures.of_bus(machine, block), "  ", pictures.of_memory(machine, block))


def rail_of(machine, step, core):
    """The mark that a step sets at a core, if any."""
    kind, is_refused = step.record[0], step.reply.startswith("refused")
    if kind in "LSE":
        if core == step.core:
            return REFUSED if is_refused else ISSUED if step.reply.startswith("issued") else AT_ONCE
    elif kind == "O":
        if not is_refused:
            return ORDERED if core == step.core else SENDS if core == machine.open[step.block].sender else ""
    elif core == step.core and not is_refused and step.rows[0].controller == core:
        return LEFT
    return ""


def wire_of(step):
    """Where the step's wire begins, if it has one, what it is made of, and what stands at the bus."""
    kind, is_refused = step.record[0], step.reply.startswith("refused")
    if kind == "O":
        return (step.core, BROKEN, REFUSED) if is_refused else (step.core, WIRE, RIGHT)
    if kind == "R" and is_refused:
        return None, " ", REFUSED
    if kind == "R" and step.rows[0].controller == step.core:
        return step.core, WIRE, WIRE
    return None, " ", " "


def link_of(machine, step, has_memory):
    """The message from memory or to it."""
    kind, is_refused = step.record[0], step.reply.startswith("refused")
    if kind == "O" and not is_refused and machine.open[step.block].sender is None:
        return LEFT + WIRE
    return WIRE + RIGHT if kind == "R" and has_memory else "  "


def panel_of(machine, step, block, cores, widths):
    """The panel of a step's row."""
    cells = standing(machine, block, cores)
    if step.block != block:
        return panel(widths, cells, None, " ", " ", "", "  ", "")
    moved = {row.controller for row in step.rows}
    cells = [cell._replace(words=pictures.of_core(machine, block, core, 2) if core in moved else "", rail=rail_of(machine, step, core) or cell.rail)
             for core, cell in zip(cores, cells)]
    core, wire, tip = wire_of(step)
    is_ordered = step.record[0] == "O" and not step.reply.startswith("refused")
    has_memory = "memory" in moved
    return panel(widths, cells, None if core is None else cores.index(core), wire, tip, pictures.of_bus(machine, block) if is_ordered else "",
                 link_of(machine, step, has_memory), pictures.of_memory(machine, block) if has_memory else "")


def count_of_rows(options, given):
    """How many steps of the text are within the range."""
    return len(range(options.first, min(options.last, len(given)) + 1))


def as_text(options, text):
    """The heads, the situation before the first drawn step, a line for each drawn step, and the legend."""
    given = given_steps(options, text)
    panels = pictures.panels_of(options, given)
    if (count_of_rows(options, given) + 1) * (sum(len(cores) + 2 for _, cores in panels) + 1) > MOST_CELLS:
        raise Refused("TooLarge")
    widths = widths_of(options, given)

    def line(number, parts, last):
        written = "".join(f" {part}" for part in parts)
        text = f"{number:>{widths.number}}{written} {last}"
        print(text.translate(IN_ASCII) if options.ascii else text)

    def head(block, cores):
        begins = block * options.block_bytes
        wide = len(cores) * (widths.core + 6) + widths.bus + widths.memory + 7
        return f"block {block} (bytes {begins} to {begins + options.block_bytes - 1})".ljust(wide)

    def names(cores):
        return panel(widths, [Cell(" ", f"core {core}", " ") for core in cores], None, " ", " ", "bus", "  ", "memory")

    def first_row():
        line(options.first - 1, [first_panel(machine, *one, widths) for one in panels], "at reset" if options.first == 1 else "before")

    line("", [head(*one) for one in panels], options.protocol.upper())
    line("step", [names(cores) for _, cores in panels], "line")
    machine, steps = see(options, given)
    if options.first == 1:
        first_row()
    for step in steps:
        if pictures.is_shown(options, step):
            line(step.number, [panel_of(machine, step, *one, widths) for one in panels], f"{step.record}: {step.reply}")
        if step.number == options.first - 1:
            first_row()
    print(LEGEND.translate(IN_ASCII) if options.ascii else LEGEND)
