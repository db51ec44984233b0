"""Dumps of a machine's memory: ELF core files and raw bytes."""
import os
import struct
from typing import NamedTuple

from companion.numbers import END_PAGE, PAGE
from companion.refusals import Wrong

# Memory dumps that hold the bytes of memory in another way, by how they begin.
OTHERS = {
    b"KDUMP   ": "a dump in kdump's compressed format", b"makedumpfile": "a flattened dump of makedumpfile",
    b"DISKDUMP": "a dump in kdump's compressed format", b"\x1f\x8b": "compressed by gzip", b"\xfd7zXZ": "compressed by xz",
    b"\x28\xb5\x2f\xfd": "compressed by zstd", b"BZh": "compressed by bzip2", b"QFI\xfb": "a disk image (qcow2)",
    b"LibvirtQemudSave": "a saved machine of libvirt (virsh dump --memory-only makes a core file)",
}
# /proc/kcore has the parts of the kernel that are at no place of memory at addresses above this
MOST_ADDRESS = 1 << 52


def refuse_others(path, head):
    for magic, what in OTHERS.items():
        if head.startswith(magic):
            raise Wrong(f"{path} is {what}: dump it without compression, or unpack it first (dump-guest-memory without -z)")


class CoreRow(NamedTuple):
    """A program header of a core file: what it says of (PT_LOAD, PT_NOTE), its place in the file, the address of its memory,
    its size in the file, and in memory."""

    kind: int
    offset: int
    address: int
    length: int
    memory: int


LOAD, NOTE = 1, 4


def core_rows(path):
    """The program headers of an ELF core file: its notes, and the parts of memory; those of /proc/kcore at no place of memory
    are left out."""
    with open(path, "rb") as file:
        size = os.fstat(file.fileno()).st_size
        head = file.read(64)
        refuse_others(path, head)
        if head[:6] != b"\x7fELF\2\1" or len(head) < 64 or head[16:18] != b"\4\0":
            raise Wrong(f"{path} is not an ELF64 core file: QEMU's dump-guest-memory makes one; give --raw for plain bytes")
        (table,) = struct.unpack_from("<Q", head, 32)
        entry, count = struct.unpack_from("<HH", head, 54)
        file.seek(table)
        rows = file.read(entry * count)
    if entry < 56 or len(rows) < entry * count:
        raise Wrong(f"{path} is cut off in its program headers")
    found = []
    for i in range(count):
        kind, _, offset, _, address, length, memory, _ = struct.unpack_from("<IIQQQQQQ", rows, entry * i)
        if kind == NOTE or kind == LOAD and address < MOST_ADDRESS:
            if offset + length > size:
                raise Wrong(f"{path} is cut off: the memory from {address:#x} on is not in it")
            found.append(CoreRow(kind, offset, address, length, memory))
    return found


def core_parts(path):
    """Where an ELF core file has memory: (address, place in the file, size), rising."""
    return sorted((row.address, row.offset, row.length) for row in core_rows(path) if row.kind == LOAD)


def raw_parts(path):
    """Where a file of raw bytes has memory: from address 0 on."""
    with open(path, "rb") as file:
        head = file.read(64)
    refuse_others(path, head)
    if head.startswith(b"\x7fELF"):
        raise Wrong(f"{path} is an ELF file: give --core")
    return [(0, 0, os.path.getsize(path))]


class Reader:
    """Reads the whole pages of a dump, and knows how far it is."""

    def __init__(self, path, parts):
        self.path, self.parts, self.done = path, parts, 0
        self.whole = sum(size for _, _, size in parts)

    def pages(self):
        """The number and the bytes of each whole page, rising; of a page that two parts have, the first counts."""
        before = -1
        with open(self.path, "rb") as file:
            for address, offset, size in self.parts:
                skip = -address % PAGE
                file.seek(offset + skip)
                for number, data in self._pages_of(file, address + skip, size - skip):
                    if before < number < END_PAGE:
                        before = number
                        yield number, data

    def _pages_of(self, file, at, left):
        while left >= PAGE:
            data = file.read(min(left & -PAGE, 1 << 20))
            if len(data) < PAGE:
                raise Wrong(f"{self.path} cannot be read to its end")
            for i in range(0, len(data) & -PAGE, PAGE):
                yield (at + i) // PAGE, data[i : i + PAGE]
            at, left, self.done = at + len(data), left - len(data), self.done + len(data)
