"""What a kernel says of itself in its note VMCOREINFO (Documentation/admin-guide/kdump/vmcoreinfo.rst of Linux)."""
import struct

from companion.refusals import Wrong

NAME = b"VMCOREINFO"
# an ELF note: the sizes of name and text, a type, the name in whole words of four bytes, then the text
BEGIN = NAME + b"\0\0OSRELEASE="
TEXT_BEHIND_NAME, MOST = 12, 1 << 16


class Vmcoreinfo:
    """The lines NAME=VALUE of the note."""

    def __init__(self, text):
        self.lines = dict(line.split("=", 1) for line in text.split("\n") if "=" in line)
        self.release = self.lines.get("OSRELEASE", "")

    def symbol(self, name):
        """The address of a symbol; None where the note has none."""
        return self._number(f"SYMBOL({name})", 16)

    def number(self, name):
        return self._number(f"NUMBER({name})", 10)

    def _number(self, key, base):
        try:
            return int(self.lines[key], base) if key in self.lines else None
        except ValueError:
            raise Wrong(f"VMCOREINFO says {key}={self.lines[key]}, which is not a number") from None


def of_notes(notes):
    """Each VMCOREINFO among notes, as the program headers of a core file have them."""
    for data in notes:
        at = 0
        while at + 12 <= len(data):
            name_size, size, _ = struct.unpack_from("<III", data, at)
            text = at + 12 + (name_size + 3) // 4 * 4
            if data[at + 12 : at + 12 + name_size].rstrip(b"\0") == NAME:
                yield Vmcoreinfo(data[text : text + size].rstrip(b"\0").decode(errors="replace"))
            at = text + (size + 3) // 4 * 4


def of_memory(physical):
    """Each VMCOREINFO that stands in memory. There may be several: a kernel that was started by kexec leaves the note of
    the one before it where it was."""
    for at in physical.find(BEGIN):
        name_size, size, _ = struct.unpack("<III", physical.read(at - 12, 12))
        if name_size == len(NAME) + 1 and 0 < size <= MOST:
            text = physical.read(at + TEXT_BEHIND_NAME, size)
            yield Vmcoreinfo(text.rstrip(b"\0").decode(errors="replace"))
