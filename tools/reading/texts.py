"""What texts of steps and of rows may contain, by docs/TEXTS.md, and how values are written."""
import functools
import re


def shown_values(values, between=" "):
    """The values of a block's words."""
    return between.join(map(str, values))


FIELDS = {"L": ("core", "address"), "S": ("core", "address", "value"), "E": ("core", "address"), "O": ("core",), "R": ("address",)}


class Faulty(Exception):
    """The first faulty record of a text, and its fault."""


class Refused(Exception):
    """A choice that is none for this machine or this text, by what is reported: BadBlock, BadRange, BadTop, TooLarge."""


BYTE_ORDER_MARK = b"\xef\xbb\xbf"


def fields_of(text):
    """The records of a text, each where it begins and a list of its fields, byte by byte: a quote opens a field that it begins, where two mean one; what
    follows the quote that closes it is part of the field as it stands, up to a comma or the end of the line; a quote that is never closed
    takes the rest of the text; blank lines are no records."""
    text = text.removeprefix(BYTE_ORDER_MARK)
    if b'"' not in text:
        yield from ((line.start(), line[0].split(b",")) for line in re.finditer(rb"[^\r\n]+", text))
        return
    at, end = 0, len(text)
    while at < end:
        if text[at] in b"\r\n":
            at += 1
            continue
        begin, record = at, []
        while True:  # a field
            field = bytearray()
            if text[at:at + 1] == b'"':
                at += 1
                while at < end:
                    if text[at:at + 2] == b'""':
                        field += b'"'
                        at += 2
                    elif text[at:at + 1] == b'"':
                        at += 1
                        break
                    else:
                        field.append(text[at])
                        at += 1
            while at < end and text[at] not in b",\r\n":
                field.append(text[at])
                at += 1
            record.append(bytes(field))
            if at < end and text[at:at + 1] == b",":
                at += 1
                continue
            break
        yield begin, record


NUMBER = re.compile(rb"[0-9]+|0x[0-9A-Fa-f]+")


@functools.lru_cache(100_000)
def number(field):
    """The number that a field writes, if it writes one below 2^64."""
    if not NUMBER.fullmatch(field):
        return None
    digits = field[2:] if field.startswith(b"0x") else field
    digits = digits.lstrip(b"0") or b"0"
    if len(digits) > 20:  # longer than any number below 2^64
        return None
    value = int(digits, 16 if field.startswith(b"0x") else 10)
    return value if value < 2**64 else None


def fault_in(record, kinds, options):
    """The fault of a record, if it has one: the first one in the table of docs/TEXTS.md."""
    kind = record[0].decode("latin-1")
    if len(kind) != 1 or kind not in kinds:
        return "BadKind"
    if len(record) - 1 != len(FIELDS[kind]):
        return "BadFields"
    numbers = dict(zip(FIELDS[kind], map(number, record[1:])))
    if None in numbers.values():
        return "BadNumber"
    if numbers.get("core", 0) >= options.cores:
        return "NoCore"
    if numbers.get("address", 0) // options.block_bytes >= options.blocks:
        return "NoBlock"
    return None


def heading_fault(record, options):
    """The fault of a heading, if it has one: the first that its fields call for, from left to right."""
    if len(record) < 2:
        return "BadFields"
    version = number(record[1])
    if version != 2:
        return "BadNumber" if version is None else "BadVersion"
    if len(record) != 7:
        return "BadFields"
    if record[2] not in (b"msi", b"mesi"):
        return "BadKind"
    numbers = list(map(number, record[3:]))
    if None in numbers:
        return "BadNumber"
    asked = [options.cores, options.blocks, options.block_bytes, options.words]
    return None if record[2].decode() == options.protocol and numbers == asked else "OtherShape"


def is_heading(place, record, of_rows):
    """The first record of a text of steps may be a heading."""
    return place == 1 and record[0] == b"V" and not of_rows


def fault_of(place, record, of_rows, options):
    """The fault of a record at its place in a text, if it has one."""
    if is_heading(place, record, of_rows):
        return heading_fault(record, options)
    return fault_in(record, "LSE" if of_rows else "LSEOR", options)


def records(options, text):
    """The letter and the numbers of each record but a heading; a text with a fault is refused whole."""
    read = []
    of_rows = options.command == "run" or options.of == "rows"
    for place, (_, record) in enumerate(fields_of(text), 1):
        fault = fault_of(place, record, of_rows, options)
        if fault:
            raise Faulty(f"record {place}: {fault}")
        if not is_heading(place, record, of_rows):
            read.append((record[0].decode(), [number(field) for field in record[1:]]))
    return read


def place_of(options, address):
    """The block and the word of an address."""
    return address // options.block_bytes, address % options.block_bytes // (options.block_bytes // options.words)
