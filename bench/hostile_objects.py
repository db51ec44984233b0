"""Purgatories whose parts share their bytes. Each is read and linked, and then refused, since it has not the symbols of a
purgatory. Each kind writes its file in a folder, of so many times its least size, and answers its name and the words of a
command."""
import struct

from companion.written import to_write

HEADER, ROW, SYMBOL, ENTRY = 64, 64, 24, 24
MOST_SECTIONS = 0xfe00


def section(kind, flags, offset, size, link=0, info=0):
    entsize = 24 if kind in (2, 4) else 0
    return struct.pack("<IIQQQQIIQQ", 0, kind, flags, 0, offset, size, link, info, 1, entsize)


def object_file(sections, behind):
    """The file of these section headers, which stand behind its other bytes."""
    at = HEADER + len(behind)
    ident = b"\x7fELF\x02\x01\x01" + bytes(9)
    numbers = struct.pack("<HHIQQQIHHHHHH", 1, 62, 1, 0, 0, at, 0, HEADER, 0, 0, ROW, len(sections), 0)
    return ident + numbers + behind + b"".join(sections)


def names(size):
    """Symbols whose names start one byte behind each other, and all end with the last byte of the string table."""
    half = size // 2
    count = half // SYMBOL
    rows = b"".join(struct.pack("<IBBHQQ", k % (half - 1), 0, 0, 1, 0, 8) for k in range(count))
    strings = b"a" * (half - 1) + b"\0"
    sections = [section(0, 0, 0, 0), section(1, 2, HEADER, 16),
                section(2, 0, HEADER, len(rows), 3), section(3, 0, HEADER + len(rows), half)]
    return object_file(sections, rows + strings)


def tables(size, kind=0, target=1, step=0):
    """As many sections of relocations as half of the file has room for, and entries in the other half."""
    count = min(size // 2 // ROW, MOST_SECTIONS)
    entries = (size - count * ROW) // ENTRY
    rows = bytes(2 * SYMBOL) + struct.pack("<QQq", 0, kind, 0) * entries
    sections = [section(0, 0, 0, 0), section(1, 2, HEADER, 16), section(1, 0, HEADER, 16),
                section(2, 0, HEADER, 2 * SYMBOL, 4), section(3, 0, HEADER, 1)]
    for k in range(count):
        first = k * step % entries
        place = HEADER + 2 * SYMBOL + first * ENTRY
        sections.append(section(4, 0, place, (entries - first) * ENTRY, 3, target))
    return object_file(sections, rows)


def kind(make):
    """A kind of purgatories, of 1 MiB and more, before the kernel of the first example."""

    def write(folder, times):
        with to_write(f"{folder}/object") as out:
            out.write(make(times << 20))
        options = ["--map", "map", "--type", "raw", "--at", "2000", "--purgatory", "object"]
        return "object", ["boot", *options, "memory", "pool", "/dev/null", "kernel"]

    return write


KINDS = {
    "names": kind(names),
    "tables": kind(tables),
    "shifted": kind(lambda size: tables(size, step=1)),
    "elsewhere": kind(lambda size: tables(size, kind=1, target=2)),
}
