"""What a block looks like: the words of a core, of the bus and of memory, and the steps and blocks that are chosen to be shown."""
from .texts import Refused, place_of, shown_values

ANSWERING = ("IorS", "I", "S")  # memory's states in which it sends its values to who asks


def place(machine, block, core):
    """The place of a block in a core's queue, from 1; 0 where it does not stand there."""
    queue = machine.queues[core]
    return queue.index(block) + 1 if block in queue else 0


def of_core(machine, block, core, least_place):
    """A core's state, the values that it keeps, and its request's place in its queue from this place on."""
    state, kept, _ = machine.line[core, block]
    waits = place(machine, block, core)
    return state + ("" if kept is None else " " + shown_values(kept)) + (f" #{waits}" if waits >= least_place else "")


def of_message(transaction):
    """The payload, and the values that it carries."""
    carries = transaction.payload in ("Data", "DataE")
    return transaction.payload + (" " + shown_values(transaction.values) if carries else "")


def of_bus(machine, block):
    """The open transaction of a block, if there is one."""
    transaction = machine.open.get(block)
    return f"C{transaction.core} {transaction.request}: {of_message(transaction)}" if transaction else ""


def of_memory(machine, block):
    """Memory's state, and its values: in brackets where it would not send them."""
    state, values = machine.memory[block]
    return f"{state} {shown_values(values)}" if state in ANSWERING else f"{state} ({shown_values(values)})"


def asking(options, given):
    """The cores that ask for each block anywhere in the text, rising, by block."""
    found = {}
    for kind, numbers in given:
        if kind in "LSE":
            found.setdefault(place_of(options, numbers[1])[0], set()).add(numbers[0])
    return {block: sorted(cores) for block, cores in found.items()}


def panels_of(options, given):
    """The blocks that are drawn, rising, each with its cores."""
    found = asking(options, given)
    blocks = sorted(found) if options.block is None else [options.block]
    return [(block, found.get(block, [])) for block in blocks]


def digits_of_values(given):
    """The digits of the largest value that the text stores."""
    return len(str(max((numbers[-1] for kind, numbers in given if kind == "S"), default=0)))


def check_choice(options):
    """Refuses an order of rows where there are none, a block outside the shape, a range without a step, the first blocks where no blocks
    are counted, and stretches of no steps."""
    if options.serial and options.command != "run" and options.of != "rows":
        raise Refused("BadSerial: --serial needs --of rows")
    if options.block is not None and not options.block < options.blocks:
        raise Refused("BadBlock")
    if not 1 <= options.first <= options.last:
        raise Refused("BadRange")
    if options.top is not None and options.by != "block":
        raise Refused("BadTop: --top needs --by block")
    if options.every == 0:
        raise Refused("BadEvery: --every has to be 1 or more")


def is_shown(options, step):
    """Whether a step is among those that are chosen."""
    return options.first <= step.number <= options.last and options.block in (None, step.block)
