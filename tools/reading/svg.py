"""A drawing of a run as SVG: a row for each drawn step, with a panel for each block. All numbers are whole pixels."""
from typing import NamedTuple

from . import pictures
from .machine import WAITING
from .runs import given_steps, see
from .texts import Refused

MOST_CELLS = 20_000
MARGIN, TOP, STEP, EVENT, FOOT = 12, 28, 54, 36, 70  # a row is STEP high; in its upper part, EVENT high, stands what happens
MESSAGE, FIRST, SECOND, LABEL = 19, 13, 31, 49       # in a row: the line of a message; the baselines of an event's words, and of a cell's
LANE_GAP, BUS_GAP, PANEL_GAP, RAIL = 8, 28, 36, 8
LEAST_WIDTH = 788
LIGHT = """text{font:12px ui-monospace,Menlo,Consolas,"DejaVu Sans Mono","Liberation Mono",monospace;fill:#1a1a1a}
.paper{fill:#fff}.h,.l{stroke:#d0d0d0}.j{stroke:#808080;stroke-dasharray:1 5}
.w{fill:#f0a050}.c{fill:#fbdcb4}.r{fill:#b5d8f0}.m{fill:#cfe6dc}.bus{fill:#f2f2f2}.b{fill:#d9d2e9}
.s,.o{font-weight:700}.k,.t{fill:#404040}.z{fill:#a51d14}
.u{stroke:#1a1a1a}.p{stroke:#1a1a1a;stroke-width:2;fill:#1a1a1a}.g{stroke:#0b4f7d;stroke-width:2;fill:#0b4f7d}
.q,.d{stroke:#1a1a1a;stroke-width:2}.q{stroke-dasharray:2 4}.i{fill:#fff;stroke:#1a1a1a;stroke-width:2}
.v{stroke:#a51d14;stroke-width:2;stroke-dasharray:4 4}.x{stroke:#a51d14;stroke-width:2;fill:none}
.ask{fill:#fff;stroke:#1a1a1a}.edge{fill:#5c2e00}.done{fill:#1a1a1a;stroke:#1a1a1a}.y{fill:transparent}
a:focus{outline:none}a:focus .y{stroke:#1a1a1a;stroke-width:2}a:target .y{fill:#ffe98a}a:target~a{opacity:.12}
"""
DARK = """text{fill:#f0f0f0}.paper,.i,.ask{fill:#15171a}.h,.l{stroke:#3c4046}.j{stroke:#909090}
.w{fill:#8f4700}.c{fill:#573a15}.r{fill:#1d4f73}.m{fill:#1f4538}.bus{fill:#1d2024}.b{fill:#453f68}
.k,.t{fill:#dcdcdc}.z{fill:#ffb4ab}.u,.q,.d,.i,.ask{stroke:#f0f0f0}.p,.done{stroke:#f0f0f0;fill:#f0f0f0}
.edge{fill:#ffcf9e}.g{stroke:#9fd3f5;fill:#9fd3f5}.v,.x{stroke:#ffb4ab}a:focus .y{stroke:#f0f0f0}a:target .y{fill:#5a5110}
"""
STYLES = {"light": LIGHT, "dark": LIGHT + DARK, "auto": LIGHT + "@media screen and (prefers-color-scheme:dark){\n" + DARK + "}\n"}


class Column(NamedTuple):
    """A column of a panel: its name, where it begins and ends."""
    name: str
    x: int
    end: int

    @property
    def rail(self):
        return self.end - RAIL


class Panel(NamedTuple):
    """The columns of one block, from this x on: by core, the bus, memory."""
    block: int
    x: int
    cores: dict
    bus: Column
    memory: Column

    @property
    def end(self):
        return self.memory.end

    def columns(self):
        return [*self.cores.values(), self.bus, self.memory]


class Canvas(NamedTuple):
    """What all rows have in common."""
    options: object
    panels: list
    numbers: int
    replies: int
    width: int

    @property
    def records(self):
        return self.numbers + 12


class Cell(NamedTuple):
    """What stands in a column: the class of its band, its words, and the class of its rail, if any."""
    band: str
    words: str
    rail: str


class Row(NamedTuple):
    """A drawn step: the number of the step before which it looks, the step, what stands after it in each panel, and what happens."""
    step: object
    cells: list
    event: str


class Above(NamedTuple):
    """The row above: the number of the last step that it shows, and what stands in each panel."""
    number: int
    cells: list


def digits(number):
    return len(str(number))


def panel_at(options, block, cores, x, values):
    """The places of a block's columns."""
    lane, bus = 88 + 8 * (values + digits(options.blocks)), 128 + 8 * (values + digits(options.cores))
    lanes = {core: Column(f"Core {core}", x + place * (lane + LANE_GAP), x + place * (lane + LANE_GAP) + lane) for place, core in enumerate(cores)}
    bus_x = x + len(cores) * (lane + LANE_GAP) + 20
    memory_x = bus_x + bus + BUS_GAP
    return Panel(block, x, lanes, Column("Bus", bus_x, bus_x + bus), Column("Memory", memory_x, memory_x + 88 + 8 * values))


def canvas_of(options, given):
    """The columns of a drawing, by its text and its machine alone."""
    stored, cores = pictures.digits_of_values(given), digits(options.cores)
    numbers = MARGIN + 8 * digits(len(given))
    x = numbers + 12 + 8 * (4 + cores + digits(options.blocks * options.block_bytes) + stored) + 16
    panels = []
    for block, asking in pictures.panels_of(options, given):
        panels.append(panel_at(options, block, asking, x, options.words * (stored + 1) - 1))
        x = panels[-1].end + PANEL_GAP
    return Canvas(options, panels, numbers, x, MARGIN + max(LEAST_WIDTH, x + 8 * (23 + cores + stored)))


def text(x, y, words, kind):
    return f'<text class="{kind}" x="{x}" y="{y}">{words}</text>\n'


def number(x, y, words):
    return f'<text class="t" x="{x}" y="{y}" text-anchor="end">{words}</text>\n'


def box(x, y, wide, high, kind):
    return f'<rect class="{kind}" x="{x}" y="{y}" width="{wide}" height="{high}"/>\n'


def line(x1, y1, x2, y2, kind):
    return f'<path class="{kind}" d="M{x1} {y1}L{x2} {y2}"/>\n'


def dot(x, y, kind):
    return f'<circle class="{kind}" cx="{x}" cy="{y}" r="4"/>\n'


def right(x1, x2, y, kind):
    return f'<path class="{kind}" d="M{x1} {y}H{x2 - 6}M{x2} {y}l-7 -4v8z"/>\n'


def left(x1, x2, y, kind):
    return f'<path class="{kind}" d="M{x1} {y}H{x2 + 6}M{x2} {y}l7 -4v8z"/>\n'


def cross(x, y):
    return f'<path class="x" d="M{x - 4} {y - 4}l8 8m0 -8l-8 8"/>\n'


def part(x, y, wide, high, kind):
    """A stretch of a column's band. Whoever may write has a dark edge too, for those who see no colours."""
    edge = box(x, y, 4, high, "edge") if kind in ("w", "c") else ""
    return box(x, y, wide, high, kind) + edge if kind else ""


def operation(x, y, words, kind):
    """A load or store that is asked for, or performed."""
    return box(x + 8, y + 5, 7, 7, kind) + text(x + 20, y + FIRST, words, "o")


def band_of(cache, state):
    """What a core may do in a state, by its table."""
    hits = lambda event: cache.get((state, event), ("",))[0] == "hit"
    if hits("Store"):
        return "c" if state in ("E", "EI_A") else "w"
    return "r" if hits("Load") else ""


def standing(machine, panel):
    """What stands in the columns of a panel: its cores, the bus, memory."""
    def of_core(core):
        state = machine.line[core, panel.block].state
        rail = "q" if state in WAITING else "d" if state in ("IS_D", "IM_D", "SM_D") else ""
        return Cell(band_of(machine.cache, state), pictures.of_core(machine, panel.block, core, 2), rail)

    answers = machine.memory[panel.block][0] in pictures.ANSWERING
    return [*map(of_core, panel.cores), Cell("b" if panel.block in machine.open else "", pictures.of_bus(machine, panel.block), ""),
            Cell("m" if answers else "", pictures.of_memory(machine, panel.block), "")]


def cell(column, y, above, now):
    """A column's part of a row: its band, its rail, its words. A first row has none above it."""
    wide = column.end - column.x
    before = above.band if above else ""
    out = part(column.x, y, wide, STEP, now.band) if before == now.band else part(column.x, y, wide, EVENT, before) + part(column.x, y + EVENT, wide, STEP - EVENT, now.band)
    if now.rail:
        out += line(column.rail, y if above else y + EVENT, column.rail, y + STEP, now.rail)
    is_new = above is None or above.words != now.words
    if now.words and (is_new or now.words != "I"):
        out += text(column.x + 8, y + LABEL, now.words, "s" if is_new else "k")
    return out


def cells(panel, y, above, now):
    """A panel's part of a row, without what happens."""
    return "".join(cell(column, y, *both) for column, *both in zip(panel.columns(), above or [None] * len(now), now))


def is_refused(step):
    return step.reply.startswith("refused")


def ask_event(panel, step):
    """A core asks."""
    column, kind = panel.cores[step.core], step.record[0]

    def drawn(y):
        if kind == "E":
            out = text(column.x + 8, y + FIRST, "evict", "o")
        else:
            words = "load" if kind == "L" else "store " + step.record.split(",")[-1]
            out = operation(column.x, y, words, "done" if "hit" in step.reply else "ask")
        out += text(column.x + 8, y + SECOND, "stall" if is_refused(step) else step.reply, "a")
        out += cross(column.x + 58, y + 27) if is_refused(step) else ""
        return out + (dot(column.rail, y, "i") if step.reply.startswith("issued") else "")

    return drawn


def order_event(panel, step, transaction):
    """The bus orders a core's request, or another transaction is in the way."""
    column, bus = panel.cores[step.core], panel.bus

    def refused(y):
        return text(column.x + 8, y + FIRST, "bus taken", "o") + line(column.rail, y, bus.x - 8, y, "v") + cross(bus.x - 4, y)

    def ordered(y):
        out = text(column.x + 8, y + FIRST, transaction.request, "o") + line(panel.x, y, panel.end, y, "u")
        out += right(column.rail, bus.x, y, "p") + dot(column.rail, y, "p")
        if transaction.sender is None:
            return out + text(panel.memory.x + 8, y + SECOND, transaction.payload, "a") + left(panel.memory.x + 4, bus.end, y + MESSAGE, "g")
        sender = panel.cores[transaction.sender]
        return out + text(sender.x + 8, y + SECOND, transaction.payload, "a") + right(sender.rail, bus.x, y + MESSAGE, "g")

    return refused if is_refused(step) else ordered


def respond_event(panel, step):
    """The message on the bus arrives, or there is none."""
    bus, memory = panel.bus, panel.memory
    takers = [row.controller for row in step.rows]

    def refused(y):
        return cross(bus.x + 12, y + FIRST)

    def arrives(y):
        payload, out = step.reply.split()[0], ""
        if step.core in takers:
            column = panel.cores[step.core]
            out += operation(column.x, y, step.reply.split(", ")[1], "done") + text(column.x + 8, y + SECOND, payload, "a")
            out += line(column.rail, y, column.rail, y + MESSAGE, "d") + left(bus.x, column.rail, y + MESSAGE, "g")
        if "memory" in takers:
            out += text(memory.x + 8, y + SECOND, payload, "a") + right(bus.end, memory.x, y + MESSAGE, "g")
        return out

    return refused if is_refused(step) else arrives


def event_of(machine, panel, step):
    """What happens in a panel at a step, for the height at which it is drawn."""
    if step.block != panel.block:
        return lambda y: ""
    if step.record[0] == "O":
        return order_event(panel, step, machine.open[panel.block])
    return respond_event(panel, step) if step.record[0] == "R" else ask_event(panel, step)


def rows_taken(step):
    """The rows of the tables that the controllers took."""
    for row in step.rows:
        if row.event:
            name = row.controller if row.controller == "memory" else f"core {row.controller}"
            yield f"\n{name}: {row.before},{row.event},{row.action},{row.after}"


def row(canvas, y, above, drawn):
    """A drawn step, with the number of the last step that the row above shows, and what stands there."""
    step, follows = drawn.step, drawn.step.number == above.number + 1
    out = f'<a id="s{step.number}" href="#s{step.number}">\n<title>{step.number}. {step.record}: {step.reply}{"".join(rows_taken(step))}</title>\n'
    out += box(0, y, canvas.width, STEP, "y") + line(0, y, canvas.width, y, "h" if follows else "j") + number(canvas.numbers, y + FIRST, step.number)
    out += text(canvas.records, y + FIRST, step.record, "s") + text(canvas.replies, y + FIRST, step.reply, "z" if is_refused(step) else "t")
    out += "".join(cells(panel, y, *both) for panel, *both in zip(canvas.panels, above.cells, drawn.cells))
    return out + "".join(happens(y) for happens in drawn.event) + "</a>\n"


def first_row(canvas, above):
    """What stands above the rows."""
    word = "before" if above.number else "reset"
    return (number(canvas.numbers, TOP + LABEL, above.number) + text(canvas.records, TOP + LABEL, word, "t")
            + "".join(cells(panel, TOP, None, now) for panel, now in zip(canvas.panels, above.cells)))


def legend(y, protocol):
    """Two lines that say what the marks mean."""
    out, x = "", MARGIN
    for kind, words in (("w", "may write"), ("c", "may write, unchanged"), ("r", "may read"), ("b", "open transaction"), ("m", "memory sends, else (value)")):
        if kind != "c" or protocol == "mesi":
            out += part(x, y, 14, 14, kind) + text(x + 20, y + 11, words, "t")
            x += 8 * len(words) + 32
    z = y + 26
    return (out + box(12, z + 3, 7, 7, "ask") + text(24, z + 11, "asked", "t") + box(80, z + 3, 7, 7, "done") + text(92, z + 11, "performed", "t")
            + line(184, z + 3, 184, z + 17, "q") + dot(184, z + 3, "i") + text(194, z + 11, "issued (#2: second in the queue)", "t")
            + line(470, z + 3, 470, z + 17, "d") + dot(470, z + 3, "p") + text(480, z + 11, "ordered", "t")
            + right(556, 580, z + 7, "g") + text(588, z + 11, "message", "t") + cross(664, z + 7) + text(674, z + 11, "refused", "t"))


def heading(canvas, panel, column, bottom):
    """What stands above a column, and behind it."""
    out, begins = "", panel.block * canvas.options.block_bytes
    if column is panel.bus:
        out += text(panel.x, 20, f"Block {panel.block}, bytes {begins} to {begins + canvas.options.block_bytes - 1}", "t")
        out += box(column.x, 64, column.end - column.x, bottom - 64, "bus")
    return out + text(column.x + 8, 44, column.name, "s") + line(column.x, 64, column.x, bottom, "l")


def sheet(canvas, above, drawn, shown, style=""):
    """A sheet of rows, of which so many are shown."""
    protocol, bottom = canvas.options.protocol, TOP + STEP * (len(drawn) + 1)
    width, height = canvas.width, bottom + FOOT
    out = f'<svg xmlns="http://www.w3.org/2000/svg" viewBox="0 0 {width} {height}" width="{width}" height="{height}">\n'
    out += f"<title>Snoop, {protocol.upper()}, {len(drawn)} steps drawn</title>\n{style}"
    out += box(0, 0, width, height, "paper") + text(MARGIN, 20, protocol.upper(), "s")
    out += "".join(heading(canvas, panel, column, bottom) for panel in canvas.panels for column in panel.columns())
    if above:
        out += first_row(canvas, above)
    for place, one in enumerate(drawn[:shown], 1):
        out += row(canvas, TOP + STEP * place, above, one)
        above = Above(one.step.number, one.cells)
    return out + legend(bottom + 18, protocol) + "</svg>\n"


def drawing_of(options, text):
    """What all rows have in common, the row above them, if there is one, and the rows. Of a first run over the steps they are counted."""
    given = given_steps(options, text)
    canvas = canvas_of(options, given)
    rows = sum(pictures.is_shown(options, step) for step in see(options, given)[1])
    if (rows + 1) * (1 + sum(len(panel.columns()) for panel in canvas.panels)) > MOST_CELLS:
        raise Refused("TooLarge")
    machine, steps = see(options, given)
    look = lambda: [standing(machine, panel) for panel in canvas.panels]
    above, drawn = Above(0, look()) if options.first == 1 else None, []
    for step in steps:
        if pictures.is_shown(options, step):
            drawn.append(Row(step, look(), [event_of(machine, panel, step) for panel in canvas.panels]))
        if step.number == options.first - 1:
            above = Above(step.number, look())
    return canvas, above, drawn


def as_svg(options, text):
    """One sheet with all rows."""
    canvas, above, drawn = drawing_of(options, text)
    shown = len(drawn) if options.shown is None else options.shown
    print(sheet(canvas, above, drawn, shown, f"<style>\n{STYLES[options.theme]}</style>\n"), end="")
