"""Memory files: docs/FORMATS.md has their format."""
import os
import struct

from companion.numbers import END_PAGE, PAGE, counted
from companion.refusals import Wrong
from companion.written import to_write

MAGIC, MOST_PAGES = b"KXMEM001", 131072
NONE = bytes(PAGE)


class Memory:
    """A memory file, whose pages are read when they are asked for."""

    def __init__(self, path):
        self.path, self.file, self.place = path, open(path, "rb"), {}
        size = os.fstat(self.file.fileno()).st_size
        head = os.pread(self.file.fileno(), 16, 0)
        if head[:8] != MAGIC or len(head) < 16:
            raise Wrong(f"{path} is not a memory file: it does not begin with KXMEM001 and a number of pages")
        (count,) = struct.unpack_from("<Q", head, 8)
        if count > MOST_PAGES or size != 16 + 4104 * count:
            raise Wrong(f"{path} has {size} bytes, which is not {counted(count, 'page')}: it is cut off or goes on")
        before = -1
        for at in range(16, size, 4104):
            (number,) = struct.unpack("<Q", os.pread(self.file.fileno(), 8, at))
            if not before < number < END_PAGE:
                raise Wrong(f"{path}: the page number at byte {at} is too great or not above the one before it")
            self.place[number] = at + 8
            before = number

    def page(self, number):
        """The bytes of a page: zeros where the file has none."""
        if number not in self.place:
            return NONE
        return os.pread(self.file.fileno(), PAGE, self.place[number])

    def word(self, address):
        return struct.unpack_from("<Q", self.page(address // PAGE), address % PAGE)[0]

    def bytes_at(self, address, size):
        """So many bytes from an address on."""
        first, last = address // PAGE, (address + size - 1) // PAGE
        data = b"".join(self.page(number) for number in range(first, last + 1))
        return data[address % PAGE :][:size]


class Writer:
    """Writes a memory file page by page, in rising order; pages of zeros are left out. What has begun is not a memory file
    until `end` has written the number of pages."""

    def __init__(self, path):
        self.count, self.file = 0, to_write(path)
        self.file.write(MAGIC + bytes(8))

    def add(self, number, data):
        """Adds a page; its bytes may be fewer than a page's, and zeros follow them."""
        data = data.ljust(PAGE, b"\0")
        if data == NONE:
            return
        self.count += 1
        if self.count <= MOST_PAGES:
            self.file.write(struct.pack("<Q", number) + data)

    def end(self):
        with self.file:
            self.file.seek(8)
            self.file.write(struct.pack("<Q", self.count))


def write_memory(path, pages=()):
    """A memory file of these pages (number, bytes), in rising order of their numbers; of no page without them."""
    writer = Writer(path)
    for number, data in pages:
        writer.add(number, data)
    writer.end()


def memory_bytes(pages):
    """The bytes of a memory file of these pages, by their numbers; zeros follow what a page has too few of."""
    held = sorted((number, data.ljust(PAGE, b"\0")) for number, data in pages.items() if any(data))
    return MAGIC + struct.pack("<Q", len(held)) + b"".join(struct.pack("<Q", number) + data for number, data in held)
