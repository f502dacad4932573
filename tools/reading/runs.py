"""Runs of steps and of rows: the line of each step, what each controller does at it, and the report from the whole history."""
import collections
from typing import NamedTuple, Optional, Union

from .machine import Came, Did, Machine, Sent, WAITING
from .texts import place_of, records, shown_values


def flat(items):
    """The value that was stored last in each word, by block and word."""
    dids = [item if isinstance(item, Did) else item.did for item in items if not isinstance(item, Sent)]
    return {(did.block, did.word): did.value for did in dids if did and not did.load}


def report(items, words):
    """The counts and the values of the blocks' words, from the whole history."""
    responses = [item for item in items if isinstance(item, Came)]
    dids = [item if isinstance(item, Did) else item.did for item in items if not isinstance(item, Sent)]
    loads = [did for did in dids if did and did.load]
    stores = [did for did in dids if did and not did.load]
    sent_with = lambda request: sum(isinstance(item, Sent) and item.request == request for item in items)
    lines = [
        "loads %d hits %d" % (len(loads), sum(did.hit for did in loads)),
        "stores %d hits %d" % (len(stores), sum(did.hit for did in stores)),
        "GetS %d GetM %d PutM %d" % tuple(map(sent_with, ("GetS", "GetM", "PutM"))),
        "from memory %d from caches %d" % (sum(came.sender is None for came in responses),
                                           sum(came.sender is not None and came.request != "PutM" for came in responses)),
        "writebacks %d clean %d stale %d" % (sum(came.request == "PutM" and came.payload == "Data" for came in responses),
                                             sum(came.request == "PutM" and came.payload == "NoDataE" for came in responses),
                                             sum(came.request == "PutM" and came.payload == "NoData" for came in responses)),
    ]
    last = flat(items)
    mentioned = dict.fromkeys(item.block for item in items)
    return lines + [f"block {block} value {shown_values(last.get((block, word), 0) for word in range(words))}" for block in mentioned]



def operation(kind, numbers):
    """What a record of a row asks for."""
    return {"L": ("Load", None), "S": ("Store", numbers[-1]), "E": ("Evict", None)}[kind]


class Lines:
    """Takes steps, and writes the line of each."""

    def __init__(self, options, write=print):
        self.machine = Machine(options.protocol, options.cores, options.blocks, options.words)
        self.options = options
        self.block_bytes = options.block_bytes
        self.words = options.words
        self.write = write

    def ask(self, core, block, word, op):
        reply = self.machine.ask(core, block, word, op)
        value = f",{op[1]}" if op[0] == "Store" else ""
        address = block * self.block_bytes + (0 if op[0] == "Evict" else word * (self.block_bytes // self.words))
        self.write(f"{op[0][0]},{core},{address}{value}: {reply}")
        return reply

    def order(self, core):
        self.write(f"O,{core}: {self.machine.order(core)}")

    def respond(self, block):
        self.write(f"R,{block * self.block_bytes}: {self.machine.respond(block)}")

    def report(self):
        self.write("\n".join(report(self.machine.items, self.words)))

    def take(self, kind, numbers):
        if kind == "O":
            self.order(numbers[0])
        elif kind == "R":
            self.respond(numbers[0] // self.block_bytes)
        else:
            self.ask(numbers[0], *place_of(self.options, numbers[1]), operation(kind, numbers))


def steps(options, text):
    """The lines of each step, then the report."""
    lines = Lines(options)
    for kind, numbers in records(options, text):
        lines.take(kind, numbers)
    lines.report()


class Row(NamedTuple):
    """What a controller does at a step: the core's number or "memory", the event that it meets, its states before and after, its action.
    Where no controller takes a row of its table there is no event, and the core may not be known."""
    controller: Union[int, str, None]
    event: Optional[str]
    before: str
    action: Optional[str]
    after: str


class Seen(NamedTuple):
    """A step that was taken or refused: its number from 1, its record and reply, the core that asks, orders or is answered and the block
    that it is of, where there are any, and what the controllers do."""
    number: int
    record: str
    reply: str
    core: Optional[int]
    block: Optional[int]
    rows: list


def met(machine, options, kind, numbers):
    """Who meets what at a step, by the machine before it: the core, the block, and each controller with its event."""
    if kind in "LSE":
        core, block = numbers[0], place_of(options, numbers[1])[0]
        event = operation(kind, numbers)[0]
        return core, block, [(core, None if event == "Evict" and machine.line[core, block].state == "I" else event)]
    if kind == "O":
        [core] = numbers
        if not machine.queues[core]:
            return core, None, [(core, None)]
        block = machine.queues[core][0]
        if block in machine.open:
            return core, block, [(core, None)]
        request = WAITING[machine.line[core, block].state]
        return core, block, [(other, ("Own" if other == core else "Other") + request) for other in sorted(machine.holders[block])] + [("memory", request)]
    block = place_of(options, numbers[0])[0]
    if block not in machine.open:
        return None, block, [(None, None)]
    core, request, payload, _, _ = machine.open[block]
    waits = request == "PutM" or machine.memory[block][0].endswith("_D")
    return core, block, [(core, payload)] * (request != "PutM") + [("memory", payload)] * waits


def state_of(machine, block, controller):
    """A controller's state of a block."""
    if controller is None or block is None:
        return ""
    return machine.memory[block][0] if controller == "memory" else machine.line[controller, block].state


def see(options, given):
    """Takes the steps of a text's records: the machine, which moves on, and an iterator over the steps, each as it was taken."""
    written = []
    lines = Lines(options, written.append)
    machine = lines.machine

    def taken():
        for number, (kind, numbers) in enumerate(given, 1):
            core, block, meetings = met(machine, options, kind, numbers)
            befores = [state_of(machine, block, controller) for controller, _ in meetings]
            lines.take(kind, numbers)
            table = lambda controller: machine.memory_table if controller == "memory" else machine.cache
            rows = [Row(controller, event, before, table(controller)[before, event][0] if event else None, state_of(machine, block, controller))
                    for (controller, event), before in zip(meetings, befores)]
            yield Seen(number, *written.pop().split(": ", 1), core, block, rows)

    return machine, taken()


def serve(lines, given):
    """Takes the steps that serve rows: in each round each core has one turn, by rising number, and does its rows in the order of the
    text, one after another."""
    left = {core: collections.deque() for core in range(lines.options.cores)}
    for kind, numbers in given:
        left[numbers[0]].append((*place_of(lines.options, numbers[1]), operation(kind, numbers)))
    asked_for = {}  # by core, the block of the row that was asked for and is not over

    def turn(core):
        if core in asked_for:
            block = asked_for[core]
            waits = lines.machine.line[core, block].state in WAITING
            transaction = lines.machine.open.get(block)
            if waits and transaction is None:
                return lines.order(core)
            if waits:
                return lines.respond(block)  # another core's transaction is in the way
            del asked_for[core]
            if transaction is not None and transaction.core == core:
                return lines.respond(block)
            # another core's turn has brought the answer: the next row comes at once
        if left[core]:
            block, word, op = left[core].popleft()
            if lines.ask(core, block, word, op).startswith("issued"):
                asked_for[core] = block

    while asked_for or any(left.values()):
        for core in range(lines.options.cores):
            turn(core)


def serve_serially(lines, given):
    """Takes the steps that serve rows one after another, in the order of the text: where a row issues a request, that is ordered and
    answered before the next row is asked."""
    for kind, numbers in given:
        block, word = place_of(lines.options, numbers[1])
        if lines.ask(numbers[0], block, word, operation(kind, numbers)).startswith("issued"):
            lines.order(numbers[0])
            lines.respond(block)


def run(options, text):
    """The lines of the steps that serve the rows, then the report."""
    lines = Lines(options)
    (serve_serially if options.serial else serve)(lines, records(options, text))
    lines.report()


def given_steps(options, text):
    """The steps of a text: its own, or those that serve its rows, each read again from its line."""
    if options.of == "steps":
        return records(options, text)
    taken = []

    def take(line):
        kind, *numbers = line.partition(":")[0].split(",")
        taken.append((kind, list(map(int, numbers))))

    (serve_serially if options.serial else serve)(Lines(options, take), records(options, text))
    return taken
