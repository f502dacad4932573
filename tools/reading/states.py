"""The states of a run: a table for a person, the lines of `snoop states --as csv`, and the tables of examples/README.md."""
import csv
import sys

from . import pictures
from .runs import given_steps, see
from .texts import place_of, shown_values


def as_markdown(options, text):
    """A Markdown table with a row for each step: its line, the states of one block in the cores that ever hold it and in memory, and
    memory's value (its values, where the block has several words); what a step changes is bold."""
    block = options.block or 0
    machine, steps = see(options, given_steps(options, text))

    def held():
        state, values = machine.memory[block]
        return [machine.line[core, block].state for core in range(options.cores)] + [state, shown_values(values)]

    written, rows = ["at reset"], [held()]
    for step in steps:
        written.append(f"`{step.record}: {step.reply}`")
        rows.append(held())
    shown = [place for place in range(options.cores + 2) if place >= options.cores or any(row[place] != "I" for row in rows)]
    names = [f"Core {core}" for core in range(options.cores)] + ["Memory", "Its value" if options.words == 1 else "Its values"]
    print("| " + " | ".join(["Line"] + [names[place] for place in shown]) + " |")
    print("|---" * (len(shown) + 1) + "|")
    for name, row, before in zip(written, rows, rows[:1] + rows):
        print("| " + " | ".join([name] + [row[place] if row[place] == before[place] else f"**{row[place]}**" for place in shown]) + " |")


def kept(machine, block, controller):
    """The values that a controller keeps of a block."""
    if controller is None or block is None:
        return ""
    values = machine.memory[block][1] if controller == "memory" else machine.line[controller, block].kept
    return "" if values is None else shown_values(values)


def as_csv(options, text):
    """A line for each controller that takes a row of its table at a step, and one for a step at which none does."""
    machine, steps = see(options, given_steps(options, text))
    out = csv.writer(sys.stdout, lineterminator="\n")
    out.writerow("step record reply block controller event before action after value place".split())
    for step in steps:
        for controller, event, before, action, after in step.rows if pictures.is_shown(options, step) else ():
            is_core = isinstance(controller, int)
            name = f"core {controller}" if is_core else controller
            place = pictures.place(machine, step.block, controller) if is_core else 0
            out.writerow([step.number, step.record, step.reply, step.block, name, event, before, action, after,
                          kept(machine, step.block, controller), place or ""])


def as_text(options, text):
    """A table for each block that a shown step is of, with what each step changes, and what is left at the end."""
    given = given_steps(options, text)
    asking = pictures.asking(options, given)
    machine, steps = see(options, given)
    values = options.words * (pictures.digits_of_values(given) + 1)
    widths = [12 + values, 18 + values, 10 + values]
    number = max(4, len(str(len(given))))

    def cells(block):
        return [*(pictures.of_core(machine, block, core, 1) for core in asking.get(block, ())),
                pictures.of_bus(machine, block) or "free", pictures.of_memory(machine, block)]

    def line(first, columns, last):
        cores = len(columns) - 2
        padded = [cell.ljust(max(width, len(cell) + 1)) for cell, width in zip(columns, widths[:1] * cores + widths[1:])]
        return f"{first:>{number}}  " + "".join(padded) + last

    above, tables = {}, {}

    def begin():
        for block in {place_of(options, numbers[kind in "LSE"])[0] for kind, numbers in given if kind != "O"}:
            above[block] = cells(block)
            tables[block] = [line(options.first - 1, above[block], "at reset" if options.first == 1 else "before")]

    if options.first == 1:
        begin()
    shown = set()
    for step in steps:
        if step.block is not None and pictures.is_shown(options, step):
            shown.add(step.block)
            now = cells(step.block)
            dotted = ["." if cell == old else cell for cell, old in zip(now, above[step.block])]
            tables[step.block].append(line(step.number, dotted, f"{step.record}: {step.reply}"))
            above[step.block] = now
        if step.number == options.first - 1:
            begin()
    for block in sorted(shown):
        begins = block * options.block_bytes
        print(f"{options.protocol.upper()}, block {block} (bytes {begins} to {begins + options.block_bytes - 1})\n")
        names = [*(f"core {core}" for core in asking.get(block, ())), "bus", "memory"]
        print("\n".join([line("step", names, "line"), *tables[block]]) + "\n")
    waiting = [f"core {core}" for core in range(options.cores) if machine.queues[core]]
    still_open = [f"block {block}" for block in sorted(machine.open)]
    print("at the end: " + ("still waiting: " + ", ".join(waiting) if waiting else "nothing waits")
          + "; " + ("still open: " + ", ".join(still_open) if still_open else "nothing is open"))
