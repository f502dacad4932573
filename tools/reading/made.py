"""Texts that are made: random ones, the outputs of long ones as a rule writes them, and a controller's table."""
from .machine import rows


def storm(options):
    """Random steps of every kind, core, block and word, or random rows, from a linear congruential generator."""
    x = options.seed
    kinds = 3 if options.rows else 5
    for n in range(1, options.count + 1):
        x = (x * 6364136223846793005 + 1442695040888963407) % 2**64
        k = x >> 33
        core, block = k // kinds % options.cores, k // (kinds * options.cores) % options.blocks
        word = k // (kinds * options.cores * options.blocks) % options.words
        address = block * options.block_bytes + word * (options.block_bytes // options.words)
        print((f"L,{core},{address}", f"S,{core},{address},{n}", f"E,{core},{address}", f"O,{core}", f"R,{address}")[k % kinds])


def all_cores_store(_):
    """The output where all 256 cores ask to store, and then each is ordered and answered in turn."""
    for core in range(256):
        yield f"S,{core},0,{core}: issued GetM"
    for core in range(256):
        yield f"O,{core}: ordered GetM"
        yield f"R,0: Data from {f'core {core - 1}' if core else 'memory'}, store {core}"
    yield "loads 0 hits 0\nstores 256 hits 0\nGetS 0 GetM 256 PutM 0\nfrom memory 1 from caches 255"
    yield "writebacks 0 clean 0 stale 0\nblock 0 value 255"


def stale_writebacks_of_all_cores(_):
    """The output where each of 256 cores stores and evicts in turn, and then all writebacks are ordered."""
    for core in range(256):
        yield f"S,{core},0,{core + 1}: issued GetM"
        yield f"O,{core}: ordered GetM"
        yield f"R,0: Data from {f'core {core - 1}' if core else 'memory'}, store {core + 1}"
        yield f"E,{core},0: issued PutM"
    for core in range(256):
        yield f"O,{core}: ordered PutM"
        yield f"R,0: {'NoData' if core < 255 else 'Data'} from core {core}"
    yield "loads 0 hits 0\nstores 256 hits 0\nGetS 0 GetM 256 PutM 256\nfrom memory 1 from caches 255"
    yield "writebacks 1 clean 0 stale 255\nblock 0 value 256"


def loads_and_drops(options):
    """The output under MSI where a core loads so many blocks, and then drops each."""
    count = options.count
    for block in range(count):
        yield f"L,0,{64 * block}: issued GetS\nO,0: ordered GetS\nR,{64 * block}: Data from memory, load 0"
    for block in range(count):
        yield f"E,0,{64 * block}: gone"
    yield f"loads {count} hits 0\nstores 0 hits 0\nGetS {count} GetM 0 PutM 0\nfrom memory {count} from caches 0"
    yield "writebacks 0 clean 0 stale 0"
    for block in range(count):
        yield f"block {block} value 0"


def many_rows(options):
    """A text of so many rows, of 8 cores on 6 blocks."""
    for n in range(options.count):
        core, address = (n * 5 + n // 7) % 8, (n * 7 + n // 11) % 6 * options.block_bytes + n % options.block_bytes
        kind = "E" if n % 10 == 9 else "S" if n % 3 == 0 else "L"
        yield f"{kind},{core},{address}" + (f",{n}" if kind == "S" else "")


CROWDS = {crowd.__name__: crowd for crowd in (all_cores_store, stale_writebacks_of_all_cores, loads_and_drops, many_rows)}


def crowd(options):
    """The lines of a crowd."""
    for lines in CROWDS[options.name](options):
        print(lines)


EVENTS = ("Load Store Evict OwnGetS OwnGetM OwnPutM OtherGetS OtherGetM OtherPutM Data DataE".split(), "GetS GetM PutM Data NoData NoDataE".split())


def table(options):
    """The rows of a table, a line each, or with --as matrix a line for each state and a column for each event, both as they have rows."""
    is_memory = options.which == "memory"
    given = rows()[options.protocol][is_memory]
    if options.form != "matrix":
        for row in given:
            print(",".join(row))
        return
    cells = {(state, event): f"{action}/{after}" for state, event, action, after in given}
    events = [event for event in EVENTS[is_memory] if any(met == event for _, met in cells)]
    print(",".join(["state", *events]))
    for state in dict.fromkeys(state for state, _ in cells):
        print(",".join([state, *(cells.get((state, event), "") for event in events)]))
