"""Memory, over a dump in kdump's compressed format (IMPLEMENTATION of makedumpfile; diskdump_mod.h and makedumpfile.h): pages
that are packed each by itself, and two bitmaps that say which there are."""
import os
import struct
import zlib
from functools import lru_cache

from companion.numbers import PAGE
from companion.refusals import Wrong

MAGIC = b"KDUMP   "
# where the header has its numbers: the size of a block, and how many blocks the sub-header and the bitmaps take
NUMBERS = ("<III", 428)
# in the sub-header, which is the second block
VMCOREINFO = ("<QQ", 32)
DESCRIPTION = struct.Struct("<QIIQ")
PACKED_BY = {1: "zlib", 2: "lzo", 4: "snappy", 0x20: "zstd"}


class Kdump:
    """The memory. A page that the dump leaves out, as one of zeros or a free one, is zeros."""

    def __init__(self, path):
        self.path, self.file = path, open(path, "rb")
        block, sub, bitmaps = struct.unpack_from(NUMBERS[0], self._bytes(0, PAGE), NUMBERS[1])
        if block != PAGE or bitmaps % 2:
            raise Wrong(f"{path} has blocks of {block} bytes, and a dump of x86-64 has {PAGE}")
        half = bitmaps // 2 * PAGE
        self.is_memory = self._bytes((1 + sub) * PAGE, half)
        self.is_kept = self._bytes((1 + sub) * PAGE + half, half)
        self.table = (1 + sub + bitmaps) * PAGE
        self.before = self._counts()

    def _bytes(self, place, size):
        data = os.pread(self.file.fileno(), size, place)
        if len(data) < size:
            raise Wrong(f"{self.path} is cut off: it has no {size} bytes at {place}")
        return data

    def _counts(self):
        """How many pages are kept before each byte of the bitmap."""
        counts, total = [], 0
        ones = [bin(byte).count("1") for byte in range(256)]
        for byte in self.is_kept:
            counts.append(total)
            total += ones[byte]
        return counts

    def notes(self):
        """The text of VMCOREINFO; nothing where the dump has none."""
        place, size = struct.unpack_from(VMCOREINFO[0], self._bytes(PAGE, PAGE), VMCOREINFO[1])
        return self._bytes(place, size) if size else b""

    def has(self, address):
        byte, bit = divmod(address // PAGE, 8)
        return byte < len(self.is_memory) and bool(self.is_memory[byte] >> bit & 1)

    @lru_cache(maxsize=256)
    def page(self, number):
        if not self.has(number * PAGE):
            raise Wrong(f"{self.path} does not have the memory at {number * PAGE:#x}")
        byte, bit = divmod(number, 8)
        if not self.is_kept[byte] >> bit & 1:
            return bytes(PAGE)
        index = self.before[byte] + bin(self.is_kept[byte] & (1 << bit) - 1).count("1")
        row = self._bytes(self.table + DESCRIPTION.size * index, DESCRIPTION.size)
        place, size, flags, _ = DESCRIPTION.unpack(row)
        data, way = self._bytes(place, size), next((way for flag, way in PACKED_BY.items() if flags & flag), None)
        if way not in (None, "zlib"):
            raise Wrong(f"{self.path} has pages that are packed by {way}, which Python does not unpack: let makedumpfile write "
                        "it by -c (zlib), or by -E, as an ELF core file")
        return zlib.decompress(data) if way else data

    def read(self, address, size):
        first, last = address // PAGE, (address + size - 1) // PAGE
        data = b"".join([self.page(number) for number in range(first, last + 1)])
        return data[address % PAGE :][:size]

    def word(self, address):
        return struct.unpack("<Q", self.read(address, 8))[0]

    def find(self, wanted):
        """Each address at which these bytes stand, within one page."""
        for number in range(8 * len(self.is_kept)):
            if self.is_kept[number // 8] >> number % 8 & 1:
                at = self.page(number).find(wanted)
                if at >= 0:
                    yield number * PAGE + at


def of_file(path):
    """The memory of a dump, and as its notes the VMCOREINFO that it has."""
    memory = Kdump(path)
    text = memory.notes()
    note = struct.pack("<III", 11, len(text), 0) + b"VMCOREINFO\0\0" + text
    return memory, [note] if text else []


def is_one(path):
    with open(path, "rb") as file:
        return file.read(len(MAGIC)) == MAGIC
