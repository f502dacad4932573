"""How often the rows of the tables are taken, and by whom; what each core, block, word and stretch of steps comes to."""
import collections
import csv
import sys
from typing import NamedTuple, Optional

from .machine import Did, Sent, rows
from .runs import given_steps, see


def by_row(options, text):
    """A line for each row of the tables, but those of a core in I at another core's request, with how often it is taken."""
    taken = collections.Counter()
    for step in see(options, given_steps(options, text))[1]:
        taken.update(("memory" if row.controller == "memory" else "cache", row.before, row.event) for row in step.rows if row.event)
    out = csv.writer(sys.stdout, lineterminator="\n")
    out.writerow("controller state event action next count".split())
    for controller, table in zip(("cache", "memory"), rows()[options.protocol]):
        for row in table:
            if not (controller == "cache" and row[0] == "I" and row[1].startswith("Other")):
                out.writerow([controller, *row, taken[controller, row[0], row[1]]])


OF_ROWS = {
    "upgrades": [("SM_AD", "OwnGetM")],
    "upgrades_lost": [("SM_AD", "OtherGetM")],
    "invalidated": [("S", "OtherGetM"), ("SM_AD", "OtherGetM")],
    "taken": [("E", "OtherGetM"), ("M", "OtherGetM")],
    "downgraded": [("E", "OtherGetS"), ("M", "OtherGetS")],
    "overtaken": [("EI_A", "OtherGetS"), ("EI_A", "OtherGetM"), ("MI_A", "OtherGetS"), ("MI_A", "OtherGetM")],
}
AT_ROW = {row: [name for name, rows_of_name in OF_ROWS.items() if row in rows_of_name] for row in sum(OF_ROWS.values(), [])}
MISSES = {("IS_D", "Data"), ("IS_D", "DataE"), ("IM_D", "Data")}
LOST = {(state, "OtherGetM") for state in ("S", "SM_AD", "E", "M")}
GIVEN_UP = {(state, "Evict") for state in ("S", "E", "M")}
OF_REFUSALS = {"stalled": "Stalled", "bus_taken": "BusTaken", "nothing_waiting": "NothingWaiting", "no_transaction": "NoTransaction"}
AT_REFUSAL = {refusal: name for name, refusal in OF_REFUSALS.items()}
OF_REPORT = "loads load_hits stores store_hits gets getm putm from_memory from_caches writebacks clean stale".split()
OF_MISSES = "misses cold given_up true_sharing false_sharing".split()
BY_CORE = [*OF_REPORT, *OF_MISSES, *OF_ROWS, "invalidates", "supplied", "stalled", "bus_taken", "nothing_waiting"]
BY_BLOCK = [*OF_REPORT, *OF_MISSES, *OF_ROWS, "stalled", "bus_taken", "no_transaction"]
BY_WORD = OF_REPORT[:4]
BY_STEPS = [*BY_CORE, "no_transaction"]


class Counted(NamedTuple):
    """A thing that counts: the number of its step, the core that it counts for and its block, where there are any, its word, where it is
    an operation's, and the name of its count. A core and a block that a step names count too, with no name."""
    step: int
    core: Optional[int]
    block: Optional[int]
    word: Optional[int]
    name: Optional[str]


def of_operation(did):
    """The counts that an operation adds to."""
    kind = "load" if did.load else "store"
    return [kind + "s", kind + "_hits"] if did.hit else [kind + "s"]


def of_item(step, item):
    """What an item of the history counts as."""
    core, block = item.core, item.block
    if isinstance(item, Sent):
        yield Counted(step, core, block, None, item.request.lower())
        return
    if not isinstance(item, Did) and item.request == "PutM":
        yield Counted(step, core, block, None, {"Data": "writebacks", "NoDataE": "clean", "NoData": "stale"}[item.payload])
        return
    if not isinstance(item, Did):
        yield Counted(step, core, block, None, "from_memory" if item.sender is None else "from_caches")
        if item.sender is not None:
            yield Counted(step, item.sender, block, None, "supplied")
        item = item.did
    for name in of_operation(item):
        yield Counted(step, core, block, item.word, name)


class Causes:
    """Of each core and block the step at which the core's last copy was lost, or nothing where it was given up; of each word the last
    step that stored to it."""

    def __init__(self):
        self.ended = {}
        self.stored = {}

    def of_miss(self, core, block, word):
        """Why the core has no copy."""
        if (core, block) not in self.ended:
            return "cold"
        lost = self.ended[core, block]
        if lost is None:
            return "given_up"
        return "true_sharing" if self.stored.get((block, word), 0) > lost else "false_sharing"

    def note(self, step, items):
        """Goes on past a step."""
        for row in step.rows:
            if (row.before, row.event) in LOST:
                self.ended[row.controller, step.block] = step.number
            elif (row.before, row.event) in GIVEN_UP:
                self.ended[row.controller, step.block] = None
        for item in items:
            did = item if isinstance(item, Did) else None if isinstance(item, Sent) else item.did
            if did and not did.load:
                self.stored[did.block, did.word] = step.number


def of_step(step, items, causes):
    """What a step counts as, with the items that it adds to the history, by the causes that it met."""
    number, block = step.number, step.block
    if block is not None or step.core is not None:
        yield Counted(number, step.core, block, None, None)
    for row in step.rows:
        if row.controller == "memory" or row.event is None:
            continue
        for name in AT_ROW.get((row.before, row.event), ()):
            yield Counted(number, row.controller, block, None, name)
            if name == "invalidated":
                yield Counted(number, step.core, block, None, "invalidates")
        if (row.before, row.event) in MISSES:
            [came] = items
            yield Counted(number, row.controller, block, None, "misses")
            yield Counted(number, row.controller, block, None, causes.of_miss(row.controller, block, came.did.word))
    if step.reply.startswith("refused"):
        yield Counted(number, step.core, block, None, AT_REFUSAL[step.reply.split()[1]])
    for item in items:
        yield from of_item(number, item)


def counted(options, text):
    """All that counts in a run."""
    machine, steps = see(options, given_steps(options, text))
    causes, before = Causes(), 0
    for step in steps:
        items = machine.items[before:]
        yield from of_step(step, items, causes)
        causes.note(step, items)
        before += len(items)


def show(names, lines):
    """Lines of numbers, with a line of names at the head."""
    print(",".join(names))
    for line in lines:
        print(",".join(map(str, line)))


def by_core(options, text):
    """A line for each core that a step names, with its counts."""
    found = collections.defaultdict(collections.Counter)
    for one in counted(options, text):
        if one.core is not None:
            found[one.core][one.name] += 1
    show(["core", *BY_CORE], ([core, *(found[core][name] for name in BY_CORE)] for core in sorted(found)))


def by_block(options, text):
    """A line for each block that a step is of, with its counts: all by number, or those of most ordered requests."""
    found = collections.defaultdict(collections.Counter)
    cores = collections.defaultdict(set)  # by block and name
    for one in counted(options, text):
        if one.block is not None:
            found[one.block][one.name] += 1
            if one.name in (None, "loads", "stores"):
                cores[one.block, one.name].add(one.core)
    blocks = sorted(found)
    if options.top is not None:
        ordered = lambda block: sum(found[block][name] for name in ("gets", "getm", "putm"))
        blocks = sorted(blocks, key=ordered, reverse=True)[:options.top]

    def line(block):
        different = [len(cores[block, name] - {None}) for name in (None, "loads", "stores")]
        return [block, block * options.block_bytes, *different, *(found[block][name] for name in BY_BLOCK)]

    show(["block", "address", "cores", "readers", "writers", *BY_BLOCK], map(line, blocks))


def by_word(options, text):
    """A line for each word of each block that two cores or more perform operations on."""
    found = collections.defaultdict(collections.Counter)
    cores = collections.defaultdict(set)
    users = collections.defaultdict(set)
    for one in counted(options, text):
        if one.name in ("loads", "stores"):
            cores[one.block, one.word, one.name].add(one.core)
            users[one.block].add(one.core)
        if one.word is not None:
            found[one.block, one.word][one.name] += 1

    def line(block, word):
        readers, writers = (cores[block, word, name] for name in ("loads", "stores"))
        address = block * options.block_bytes + word * (options.block_bytes // options.words)
        return [block, word, address, len(readers | writers), len(readers), len(writers), *(found[block, word][name] for name in BY_WORD)]

    shared = sorted(block for block in users if len(users[block]) >= 2)
    show(["block", "word", "address", "cores", "readers", "writers", *BY_WORD], (line(block, word) for block in shared for word in range(options.words)))


def by_steps(options, text):
    """A line for each stretch of so many steps, with the counts of all cores in it."""
    found = collections.defaultdict(collections.Counter)
    last = 0
    for one in counted(options, text):
        found[(one.step - 1) // options.every][one.name] += 1
        last = one.step
    line = lambda place: [place * options.every + 1, min((place + 1) * options.every, last), *(found[place][name] for name in BY_STEPS)]
    show(["first", "last", *BY_STEPS], map(line, range(-(-last // options.every))))
