"""All that a machine's getters answer after each step of a text, as crates/snoop_getters prints it."""
from .machine import Did, Sent, WAITING
from .runs import Lines, flat
from .texts import records, shown_values


def held(machine, core, block):
    """What a core holds of a block: its state, the values that it keeps, and where its request waits to be ordered a mark and its place."""
    state, kept, _ = machine.line[core, block]
    values = "" if kept is None else "=" + shown_values(kept, "/")
    queue = machine.queues[core]
    return state + values + (f"!{queue.index(block) + 1}" if block in queue else "")


def shown(machine, block):
    """All that is seen of a block: what each core holds, memory's state and values, and the open transaction."""
    state, values = machine.memory[block]
    cells = [held(machine, core, block) for core in range(machine.cores)] + [f"{state}={shown_values(values, '/')}"]
    transaction = ""
    if block in machine.open:
        core, request, payload, carried, sender = machine.open[block]
        sends = carried if payload in ("Data", "DataE") else (0,) * len(values)
        transaction = f"{core}:{request}:{payload}:{shown_values(sends, '/')}:{'memory' if sender is None else sender}"
    return ",".join(cells + [transaction]) + "|"


def oldest(machine, core):
    """A mark where a request of the core waits, and the oldest one with its block."""
    queue = machine.queues[core]
    return f"!{WAITING[machine.line[core, queue[0]].state]}:{queue[0]}" if queue else ""


def getters(options, text):
    """All that is seen of a machine after each step, a line each; at the end the counts and values of its history."""
    lines = Lines(options, lambda line: None)
    machine = lines.machine
    cores, blocks = range(options.cores), range(options.blocks)
    for kind, numbers in records(options, text):
        lines.take(kind, numbers)
        counts = [str(sum(machine.line[core, block].state != "I" for block in blocks)) + oldest(machine, core) + "," for core in cores]
        print("".join([shown(machine, block) for block in blocks] + counts))
    dids = [item if isinstance(item, Did) else item.did for item in machine.items if not isinstance(item, Sent)]
    performed = [sum(did is not None and did.core == core for did in dids) for core in cores]
    last = flat(machine.items)
    values = [shown_values((last.get((block, word), 0) for word in range(options.words)), "/") for block in blocks]
    print(f"{len(machine.items)}|" + "".join(f"{count}," for count in performed) + "|" + "".join(f"{value}," for value in values))
