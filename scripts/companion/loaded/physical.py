"""A machine's memory by its addresses, over a file that has parts of it."""
import bisect
import mmap
import os
import struct

from companion import dumps
from companion.numbers import PAGE
from companion.refusals import Wrong


class Physical:
    """Memory, over the open file of a dump. A part of it is (address, place in the file, bytes in the file, bytes of memory):
    what a dump leaves out of a part, as makedumpfile leaves out pages of zeros, is zeros."""

    def __init__(self, path, parts):
        self.path, self.file = path, open(path, "rb")
        self.parts = sorted(parts)
        self.starts = [part[0] for part in self.parts]

    def part_of(self, address):
        """The part that has an address."""
        # parts may overlap, as those of /proc/kcore do: the one that starts last need not be the one that reaches the address
        for i in range(bisect.bisect_right(self.starts, address) - 1, -1, -1):
            start, _, _, memory = self.parts[i]
            if address < start + memory:
                return self.parts[i]
        raise Wrong(f"{self.path} does not have the memory at {address:#x}")

    def has(self, address):
        try:
            return bool(self.part_of(address))
        except Wrong:
            return False

    def read(self, address, size):
        found = []
        while size:
            start, offset, length, memory = self.part_of(address)
            count, place = min(size, start + memory - address), address - start
            data = os.pread(self.file.fileno(), min(count, max(0, length - place)), offset + place)
            if len(data) < min(count, max(0, length - place)):
                raise Wrong(f"{self.path} cannot be read at {address:#x}")
            found.append(data.ljust(count, b"\0"))
            address, size = address + count, size - count
        return b"".join(found)

    def word(self, address):
        return struct.unpack("<Q", self.read(address, 8))[0]

    def page(self, number):
        return self.read(number * PAGE, PAGE)

    def find(self, wanted):
        """Each address at which these bytes stand, whole within a part."""
        with mmap.mmap(self.file.fileno(), 0, access=mmap.ACCESS_READ) as data:
            for address, offset, length, _ in self.parts:
                at = data.find(wanted, offset, offset + length)
                while at >= 0:
                    yield address + at - offset
                    at = data.find(wanted, at + 1, offset + length)


def of_core(path):
    """The memory of an ELF core file, and the bytes of its notes."""
    rows = dumps.core_rows(path)
    memory = Physical(path, [(row.address, row.offset, row.length, max(row.length, row.memory)) for row in rows
                             if row.kind == dumps.LOAD])
    if not memory.parts:
        raise Wrong(f"{path} has no memory: no program header says where a part of it lies")
    notes = [os.pread(memory.file.fileno(), row.length, row.offset) for row in rows if row.kind == dumps.NOTE]
    return memory, notes


def of_raw(path):
    """The memory of a file of bytes, from address 0 on."""
    return Physical(path, [(address, offset, size, size) for address, offset, size in dumps.raw_parts(path)]), []
