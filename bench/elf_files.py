"""ELF files for the measurements: an executable of many loads, and a relocatable object of many relocations."""
import random
import struct

from companion.written import to_write

ELF64 = b"\x7fELF\x02\x01\x01".ljust(16, b"\0")
LOAD = 16


def write_executable(file, loads, base):
    """An executable of so many PT_LOADs, 16 bytes each one behind the other from `base` on, in random order (always the
    same), so that they are one segment."""
    order = list(range(loads))
    random.Random(1).shuffle(order)
    start = 64 + 56 * loads
    with to_write(file) as out:
        out.write(ELF64 + struct.pack("<HHIQQQIHHHHHH", 2, 62, 1, base, 64, 0, 0, 64, 56, loads, 0, 0, 0))
        for i in order:
            at, address = start + LOAD * i, base + LOAD * i
            out.write(struct.pack("<IIQQQQQQ", 1, 5, at, address, address, LOAD, LOAD, 1))
        out.write(bytes(1 + i % 255 for i in range(LOAD * loads)))


def write_purgatory(file, relocations):
    """A purgatory with so many relocations of 8 bytes each, in random order (always the same), by the symbol that it is
    entered at."""
    names = [(b"purgatory_start", 16), (b"entry64_regs", 136), (b"purgatory_sha_regions", 256), (b"purgatory_sha256_digest", 32)]
    strings, symbols, place = b"\0", bytes(24), 0
    for name, size in names:
        symbols += struct.pack("<IBBHQQ", len(strings), 0x10, 0, 1, place, size)
        strings += name + b"\0"
        place += size
    # the first section has the symbols, the second the relocated fields
    order = list(range(relocations))
    random.Random(1).shuffle(order)
    rela = b"".join(struct.pack("<QQq", 8 * i, 1 << 32 | 1, i) for i in order)
    parts = [(1, 2, bytes(place), 0, 0, 8, 0), (1, 2, bytes(8 * relocations), 0, 0, 8, 0)]
    parts += [(4, 0, rela, 4, 2, 8, 24), (2, 0, symbols, 5, 0, 8, 24), (3, 0, strings, 0, 0, 1, 0)]
    headers, at = [bytes(64)], 64
    for kind, flags, data, link, info, align, entry in parts:
        headers.append(struct.pack("<IIQQQQIIQQ", 0, kind, flags, 0, at, len(data), link, info, align, entry))
        at += len(data)
    with to_write(file) as out:
        out.write(ELF64 + struct.pack("<HHIQQQIHHHHHH", 1, 62, 1, 0, 0, at, 0, 64, 0, 0, 64, len(headers), 0))
        for part in parts:
            out.write(part[2])
        out.write(b"".join(headers))
