"""What is wrong with a text, for a person."""
import re

from .texts import BYTE_ORDER_MARK, FIELDS, fault_of, fields_of, is_heading, number

MOST_CORES, MOST_BLOCKS = 256, 65536
HEADING = ("version", "protocol", "cores", "blocks", "block_bytes", "words")


def shown(field):
    """A field as it stands: printable, not too long, and no further than its first line end."""
    front = re.split(rb"[\r\n]", field)[0][:40]
    escaped = "".join("\\\\" if byte == 0x5c else chr(byte) if 0x20 <= byte <= 0x7e else f"\\x{byte:02x}" for byte in front)
    return f"'{escaped}'" + (f" and {counted(len(field) - len(front), 'more byte')}" if len(field) > len(front) else "")


def first_of(*hints):
    """The first hint that fits."""
    return next((f"; {words}" for fits, words in hints if fits), "")


def names_of(kind, heading):
    """The fields of a kind of record, after its letter."""
    return HEADING if heading else FIELDS[kind]


WORDS = "a load is L, a store S, an eviction E"
QUOTE = "a quote is closed on a later line, or not at all"
COMMA = "within quotes a comma is part of the field"
REPORT = (b"loads ", b"stores ", b"GetS ", b"from memory ", b"writebacks ", b"block ")


def bad_kind(place, record, of_rows):
    """The first field is no kind of record."""
    field = record[0]
    kinds = "L, S, E" if of_rows else "L, S, E, O, R"
    names = place == 1 and field and (len(record) == 1 or number(record[1]) is None) and not re.match(rb"[LSEOR][ \t;]", field)
    return f"{shown(field)} is no kind of record ({kinds})" + first_of(
        (field.lower() in (b"w", b"write", b"store", b"read", b"load", b"evict"), WORDS),
        (field in (b"r", b"R") and len(record) == 3, WORDS),
        (of_rows and field in (b"O", b"R", b"V"), "it is for snoop steps"),
        (not of_rows and field == b"V", "a heading stands in record 1 alone"),
        (field in (b"l", b"s", b"e", b"o", b"r"), "kinds are capital letters"),
        (re.search(rb"[\r\n]", field), QUOTE),
        (b"," in field, COMMA),
        (field.startswith(b"#"), "a text has no comments"),
        (re.search(rb"[^\x09\x20-\x7e]", field), "this is no plain text"),
        (field.startswith(REPORT), "a line of the report begins so"),
        (len(record) == 1 and re.search(rb"[ \t;]", field), "commas stand between the fields"),
        (re.search(rb"\A[ \t]|[ \t]\Z", field), "blanks are not taken away"),
        (names, "a text has no line of names"),
        (re.search(rb"[ \t;]", field), "commas stand between the fields"))


def of_field(field):
    """The hints of a field, whatever it stands for."""
    return [(re.search(rb"[\r\n]", field), QUOTE),
            (b"," in field, COMMA),
            (b":" in field, "a reply begins at the colon, and a step has none"),
            (b"#" in field, "a text has no comments"),
            (re.search(rb"[ \t;][LSEOR]\Z", field), "each record has a line of its own"),
            (b"\\" in field, r"a backslash stands for itself: printf makes a line end of \n")]


def bad_fields(record, names):
    """The record has too few fields or too many."""
    kind = record[0].decode()
    form = ",".join([kind, *("2" if name == "version" else name for name in names)])
    return f"{kind} has {len(names) + 1} fields ({form}), and this record has {len(record)}" + first_of(
        *(hint for field in record for hint in of_field(field)),
        (len(record) == len(names) + 2 and not record[-1], "a comma stands at the end"),
        (kind == "R" and len(record) == 3, WORDS))


def bad_number(record, names):
    """A field is no number."""
    name, field = next((name, field) for name, field in zip(names, record[1:]) if name != "protocol" and number(field) is None)
    return f"{name} {shown(field)} is no number" + first_of(
        (not field, "it is empty"),
        *of_field(field),
        (re.search(rb"\A[ \t]|[ \t]\Z", field), "blanks are not taken away"),
        (re.fullmatch(rb"[0-9]+|0x[0-9A-Fa-f]+", field), "it is above 18446744073709551615"),
        (field.startswith(b"0X"), "the x of 0x is small"),
        (re.fullmatch(rb"[0-9A-Fa-f]+", field), "hexadecimal digits stand after 0x"),
        (True, "a number is decimal digits, or 0x and hexadecimal digits"))


def no_core(core, options):
    """The core is not there."""
    return f"core {core} is not there: --cores {options.cores} has cores 0 to {options.cores - 1}" + first_of(
        (core < MOST_CORES, f"--cores {core + 1} has it"), (True, f"no machine has more than {MOST_CORES} cores"))


def no_block(address, options):
    """The address is outside memory."""
    bytes_in_all, needed = options.blocks * options.block_bytes, address // options.block_bytes + 1
    return f"address {address} is outside the memory of {counted(options.blocks, 'block')} of {counted(options.block_bytes, 'byte')} (0 to {bytes_in_all - 1})" + first_of(
        (needed <= MOST_BLOCKS, f"--blocks {needed} has room for it"), (True, f"no machine has more than {MOST_BLOCKS} blocks: number the blocks anew"))


def other_shape(record, options):
    """The heading is for other options."""
    wanted = (record[2].decode(), *map(number, record[3:]))
    given = (options.protocol, options.cores, options.blocks, options.block_bytes, options.words)
    words = "--protocol {} --cores {} --blocks {} --block-bytes {} --words {}".format
    return f"the heading is for {words(*wanted)}, and the options are {words(*given)}"


def explained(fault, place, record, of_rows, options):
    """What a fault of a record means."""
    heading = is_heading(place, record, of_rows)
    if fault == "BadKind":
        return f"{shown(record[2])} is no protocol (msi, mesi)" if heading else bad_kind(place, record, of_rows)
    names = names_of(record[0].decode(), heading)
    if fault == "BadFields":
        return bad_fields(record, names)
    if fault == "BadNumber":
        return bad_number(record, names)
    if fault == "BadVersion":
        return f"version {number(record[1])} is not known; it has to be 2"
    if fault == "OtherShape":
        return other_shape(record, options)
    numbers = dict(zip(names, map(number, record[1:])))
    return no_core(numbers["core"], options) if fault == "NoCore" else no_block(numbers["address"], options)


def has_heading(records, of_rows):
    """The first of the records is a heading."""
    return any(is_heading(place, record, of_rows) for place, _, record in records[:1])


def needs(records, faults, of_rows, options):
    """The fewest cores and blocks that take the whole text, where nothing else is wrong with it."""
    if not records or not set(faults) <= {"NoCore", "NoBlock"} or has_heading(records, of_rows):
        return []
    named = [dict(zip(FIELDS[record[0].decode()], map(number, record[1:]))) for _, _, record in records]
    cores = 1 + max(numbers.get("core", 0) for numbers in named)
    blocks = 1 + max(numbers.get("address", 0) // options.block_bytes for numbers in named)
    return [f"needs --cores {cores} --blocks {blocks}"] if cores <= MOST_CORES and blocks <= MOST_BLOCKS else []


def slip(records, of_rows):
    """Steps that look like rows, and rows that look like steps."""
    kinds = {record[0] for _, _, record in records}
    drives = bool(kinds & {b"O", b"R"})
    if of_rows:
        return ["with O or R: is this a text for snoop steps?"] if drives else []
    if drives or not kinds & {b"L", b"S", b"E"}:
        return []
    return ["no O and no R: is this, without its heading, a text for snoop run?" if has_heading(records, of_rows) else "no O and no R: is this a text for snoop run?"]


def numbered(text):
    """The records of a text, each with its place and the line on which it begins, both from 1."""
    found, line, at = [], 1, 0
    body = text.removeprefix(BYTE_ORDER_MARK)
    for place, (begin, record) in enumerate(fields_of(text), 1):
        line += len(re.findall(rb"\r\n|\r|\n", body[at:begin]))
        found.append((place, line, record))
        at = begin
    return found


def counted(number_of, word):
    """So many of something."""
    return f"{number_of} {word}" + ("" if number_of == 1 else "s")


def lint(options, text):
    """A line for each of the first faulty records, their number, what the text needs, and what else looks wrong."""
    of_rows = options.of == "rows"
    records = numbered(text)
    faults = []
    for place, line, record in records:
        fault = fault_of(place, record, of_rows, options)
        if fault:
            faults.append(fault)
            if len(faults) <= options.most:
                print(f"record {place}, line {line}: {fault}: {explained(fault, place, record, of_rows, options)}")
    many = counted(len(faults), "fault") if faults else "no fault"
    print(f"{many} in {counted(len(records), 'record')}" + (f", {options.most} shown" if len(faults) > options.most else ""))
    print("".join(f"{line}\n" for line in needs(records, faults, of_rows, options) + slip(records, of_rows)), end="")
