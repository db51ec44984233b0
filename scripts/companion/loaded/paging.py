"""Addresses of a kernel, by its page tables (Intel 64 and IA-32 Architectures Software Developer's Manual, volume 3, 4.5)."""
import struct

from companion.numbers import PAGE
from companion.refusals import Wrong

PRESENT, LARGE = 1, 0x80
# bits 12 to 51 of an entry: where the next table or the page lies
PLACE = (1 << 52) - PAGE
ENTRIES = 512


class Virtual:
    """Memory by the addresses of page tables, which begin at `top` and have so many levels. `encrypted` is the bit of an
    entry that says that AMD's memory encryption is on, and is no part of a place."""

    def __init__(self, physical, top, levels, encrypted=0):
        self.physical, self.top, self.levels, self.in_place = physical, top, levels, PLACE & ~encrypted

    def place(self, address):
        """The place in memory of an address, and how many bytes follow in the same page."""
        table = self.top
        for level in range(self.levels - 1, -1, -1):
            shift = 12 + 9 * level
            entry = self.physical.word(table + 8 * (address >> shift & ENTRIES - 1))
            if not entry & PRESENT:
                raise Wrong(f"the kernel's page tables do not map {address:#x}")
            if level == 0 or level < 3 and entry & LARGE:
                # the low address bits of a large page are not part of its place: bit 12 is PAT there
                size = 1 << shift
                return (entry & self.in_place & -size) + address % size, size - address % size
            table = entry & self.in_place
        raise AssertionError("the lowest level maps pages")

    def read(self, address, size):
        found = []
        while size:
            at, left = self.place(address)
            count = min(left, size)
            found.append(self.physical.read(at, count))
            address, size = address + count, size - count
        return b"".join(found)

    def word(self, address):
        return struct.unpack("<Q", self.read(address, 8))[0]

    def number(self, address, size):
        return int.from_bytes(self.read(address, size), "little")

    def text(self, address, most=256):
        """The text at an address, up to its zero byte."""
        left = PAGE - address % PAGE
        data = self.read(address, min(most, left))
        if b"\0" not in data and left < most:
            data += self.read(address + left, most - left)
        return data.partition(b"\0")[0].decode(errors="replace")


def tables(physical, top, levels, in_place=PLACE):
    """The pages of all tables that are reached from the one at `top`, by their numbers; one that memory lacks is left out."""
    found, level_tables = {top // PAGE}, {top}
    for level in range(levels - 1, 0, -1):
        below = set()
        for table in level_tables:
            for (entry,) in struct.iter_unpack("<Q", physical.read(table, PAGE)):
                if entry & PRESENT and not (level < 3 and entry & LARGE) and physical.has(entry & in_place):
                    below.add(entry & in_place)
        found |= {table // PAGE for table in below}
        level_tables = below
    return found
