"""How large the area of a crash kernel must be, by arithmetic: to load it, and as a rule of thumb to run it.

To load: in the area lie the kernel with room for its init_size, at the lowest multiple of its kernel_alignment, and then
from the top down the initrd, the crash headers, the boot parameters and the purgatory (docs/KERNELS.md, Places).

To run, as a rule of thumb: this, the unpacked initrd, which Linux holds in memory beside the file, and ROOM for what the
kernel allocates and its processes; and of all that 1/64 for the records of its pages (struct page, 64 bytes for 4 KiB).
Linux unpacks into a tmpfs, which takes at most half of the memory, so that as much again must stay beside it; with root=
or rootfstype=ramfs it is a ramfs, which has no limit (Documentation/filesystems/ramfs-rootfs-initramfs).
"""
import struct

from companion.maps import ranges_outside_crash_areas
from companion.numbers import PAGE, up

# what a small crash kernel and its processes were seen to need, with some to spare: docs/COMPANION.md
ROOM = 32 << 20
# Linux begins an area at a multiple of 16 MiB
STEP = 16 << 20
# sh_flags of a section that is loaded (System V ABI, chapter 4)
SHF_ALLOC = 2
# what is added to the command line: elfcorehdr= and a number of KiB below 2^46, and the words of its memmap=
ADDED = len(" elfcorehdr=68719476736K")
# the words of a command line with which the unpacked initrd may fill the memory
UNLIMITED = ("root=", "rootfstype=ramfs")


def linked_bytes(path):
    """The bytes of a purgatory when it is linked: its sections with SHF_ALLOC, each at the next multiple of its alignment
    (docs/KERNELS.md, Purgatories). What is no ELF64 object has none, and the load refuses it."""
    with open(path, "rb") as file:
        data = file.read()
    if data[:6] != b"\x7fELF\2\1" or len(data) < 64:
        return 0
    (table,), (size, count) = struct.unpack_from("<Q", data, 40), struct.unpack_from("<HH", data, 58)
    end = 0
    for at in range(table, table + size * count, size or 1):
        if size >= 64 and at + 64 <= len(data) and struct.unpack_from("<Q", data, at + 8)[0] & SHF_ALLOC:
            length, alignment = (struct.unpack_from("<Q", data, at + place)[0] for place in (32, 48))
            end = up(end, max(alignment, 1)) + length
    return end


def headers_bytes(rows, notes):
    """The bytes of the crash headers: the file header, and a program header for each note and range of RAM."""
    return 64 + 56 * (notes + len(ranges_outside_crash_areas(rows)))


class Needs:
    """What a crash kernel needs of its area: its parts as (name, bytes), each in whole pages."""

    def __init__(self, kernel, initrd, rows, notes, command, purgatory=0):
        self.kernel, self.alignment = kernel.memory()
        self.lowest = kernel.lowest()
        self.unpacked = initrd.size if initrd else 0
        # what must stay free beside it
        is_limited = not any(word.startswith(UNLIMITED) for word in command.split())
        self.room = max(ROOM, self.unpacked) if is_limited else ROOM
        self.parts = [("kernel", self.kernel)]
        if initrd:
            self.parts.append(("initrd", max(PAGE, up(initrd.bytes, PAGE))))
        self.parts += [("crash headers", up(headers_bytes(rows, notes), PAGE)),
                       ("boot parameters", up(PAGE + len(command.encode()) + ADDED + 1, PAGE))]
        if purgatory:
            self.parts.append(("purgatory", up(purgatory, PAGE)))

    def to_load(self, start=STEP):
        """The least bytes of an area that begins there."""
        first = up(max(start, self.lowest), self.alignment)
        return first - start + sum(size for _, size in self.parts)

    def to_run(self, start=STEP):
        needed = self.to_load(start) + self.unpacked + self.room
        return needed + needed // 64

    def advised(self, start=STEP):
        """The sizes for crashkernel=, in steps of 16 MiB: to load, and to run."""
        return up(self.to_load(start), STEP), up(self.to_run(start), STEP)
