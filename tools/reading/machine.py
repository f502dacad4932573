"""The protocol: the tables of docs/PROTOCOL.md, and a machine that moves by them, with each block of each core in plain dictionaries."""
import collections
import pathlib
import re
from typing import NamedTuple, Optional

PROTOCOL = pathlib.Path(__file__).resolve().parents[2] / "docs" / "PROTOCOL.md"
READABLE = {"S", "SM_AD", "SM_D", "E", "M", "EI_A", "MI_A"}
WAITING = {"IS_AD": "GetS", "IM_AD": "GetM", "SM_AD": "GetM", "MI_A": "PutM", "EI_A": "PutM", "II_A": "PutM"}


def rows():
    """The rows of the cache and memory tables by protocol, in the order of the page."""
    texts = re.findall(r"```text\n(.*?)```", PROTOCOL.read_text(), re.S)
    mesi_cache, msi_memory, mesi_memory = ([row.split(",") for row in text.strip().split("\n")] for text in texts)
    msi_cache = [row for row in mesi_cache if row[0] not in ("E", "EI_A") and row[:2] != ["IS_D", "DataE"]]
    assert [len(t) for t in (msi_cache, mesi_cache, msi_memory, mesi_memory)] == [64, 78, 10, 15]
    return {"msi": (msi_cache, msi_memory), "mesi": (mesi_cache, mesi_memory)}


def tables():
    """The cache and memory tables by protocol, each from (state, event) to (action, next state)."""
    index = lambda table: {(state, event): (action, after) for state, event, action, after in table}
    return {protocol: tuple(map(index, both)) for protocol, both in rows().items()}


def sent(action):
    """The payload of an action that sends, else None."""
    words = action.replace("send ", "").split(" to ")
    return words[0] if action.startswith("send ") or " to " in action else None


class Line(NamedTuple):
    """What a core holds of a block: its state, the values of the words that it keeps and the operation that waits, if any."""
    state: str
    kept: Optional[tuple]
    waiting: Optional[tuple]


class Open(NamedTuple):
    """An open transaction: the requestor, its request, and the message that is under way; a sender of None is memory."""
    core: int
    request: str
    payload: str
    values: Optional[tuple]
    sender: Optional[int]


class Did(NamedTuple):
    """A load or store of a word that was performed, and the value that it loaded or stored."""
    core: int
    block: int
    word: int
    load: bool
    value: int
    hit: bool


class Sent(NamedTuple):
    """A request that was ordered."""
    core: int
    block: int
    request: str


class Came(NamedTuple):
    """A response to the core's request: its sender (None is memory) and payload, and what it performed, if anything."""
    core: int
    block: int
    request: str
    sender: Optional[int]
    payload: str
    did: Optional[Did]


def stored(values, word, value):
    """The values of a block's words after a store in one of them: the others stay."""
    return values[:word] + (value,) + values[word + 1:]


class Sparse(dict):
    """A table that has the same first entry wherever nothing was put in."""

    def __init__(self, first):
        super().__init__()
        self.first = first

    def __missing__(self, key):
        return self.first


class Machine:
    def __init__(self, protocol, cores, blocks, words):
        self.cache, self.memory_table = tables()[protocol]
        self.cores, self.blocks = cores, blocks
        first = "IorS" if protocol == "msi" else "I"
        self.line = Sparse(Line("I", None, None))
        self.holders = collections.defaultdict(set)  # of each block the cores that are not in I
        assert all(self.cache["I", f"Other{request}"] == ("none", "I") for request in ("GetS", "GetM", "PutM"))
        self.memory = Sparse((first, (0,) * words))
        self.open = {}
        self.queues = {c: [] for c in range(cores)}
        self.items = []

    def put(self, core, block, state, kept, waiting):
        self.line[core, block] = Line(state, kept if state in READABLE else None, waiting)
        (self.holders[block].discard if state == "I" else self.holders[block].add)(core)

    def ask(self, core, block, word, op):
        state, kept, waiting = self.line[core, block]
        event, value = op
        if state == "I" and event == "Evict":
            return "absent"
        action, after = self.cache[state, event]
        if action == "stall":
            return "refused Stalled " + state
        if action == "hit":
            value = kept[word] if event == "Load" else value
            self.put(core, block, after, kept if event == "Load" else stored(kept, word, value), waiting)
            self.items.append(Did(core, block, word, event == "Load", value, hit=True))
            return f"hit {value}" if event == "Load" else "store hit"
        if action == "drop":
            self.put(core, block, after, kept, None)
            return "gone"
        request = action.split()[1]
        self.put(core, block, after, kept, None if event == "Evict" else (word, op))
        self.queues[core].append(block)
        return "issued " + request

    def order(self, core):
        if not self.queues[core]:
            return "refused NothingWaiting"
        block = self.queues[core][0]
        if block in self.open:
            return f"refused BusTaken {block}"
        request = WAITING[self.line[core, block].state]
        senders, afters = [], {}
        for other in self.holders[block]:  # the others are in I, where they do nothing
            state, kept, _ = self.line[other, block]
            action, afters[other] = self.cache[state, ("Own" if other == core else "Other") + request]
            if sent(action):
                senders.append((other, sent(action), kept))
        state, values = self.memory[block]
        action, after = self.memory_table[state, request]
        if sent(action):
            senders.append((None, sent(action), values))
        [(sender, payload, carried)] = senders
        for other, state in afters.items():
            _, kept, waiting = self.line[other, block]
            self.put(other, block, state, kept, waiting)
        self.memory[block] = (after, values)
        self.queues[core].remove(block)
        self.open[block] = Open(core, request, payload, carried, sender)
        self.items.append(Sent(core, block, request))
        return "ordered " + request

    def respond(self, block):
        if block not in self.open:
            return "refused NoTransaction"
        core, request, payload, carried, sender = self.open.pop(block)
        text = payload + (" from memory" if sender is None else f" from core {sender}")
        state, values = self.memory[block]
        if request == "PutM" or state.endswith("_D"):
            action, after = self.memory_table[state, payload]
            self.memory[block] = (after, carried if action == "write" else values)
        did = None
        if request != "PutM":
            state, _, (word, (event, value)) = self.line[core, block]
            action, after = self.cache[state, payload]
            loads = action == "fill load"
            value = carried[word] if loads else value
            self.put(core, block, after, carried if loads else stored(carried, word, value), None)
            did = Did(core, block, word, event == "Load", value, hit=False)
            text += f", {'load' if event == 'Load' else 'store'} {value}"
        self.items.append(Came(core, block, request, sender, payload, did))
        return text
