"""Sections and symbols of ELF64 files (Tool Interface Standard, ELF): a vmlinux, and the purgatories of Linux and
kexec-tools."""
import struct
from typing import NamedTuple

from companion.refusals import Wrong

ALLOC, EXECINSTR = 2, 4
SYMTAB, NOBITS = 2, 8


class Section(NamedTuple):
    name: str
    kind: int
    flags: int
    address: int
    offset: int
    size: int
    link: int
    align: int
    entry_size: int


class Elf:
    """An ELF64 file, by its bytes."""

    def __init__(self, data, where):
        self.data, self.where = data, where
        if data[:6] != b"\x7fELF\2\1" or len(data) < 64:
            raise Wrong(f"{where} is not an ELF64 file for x86-64")
        (self.entry,) = struct.unpack_from("<Q", data, 24)
        (table,) = struct.unpack_from("<Q", data, 40)
        size, count, names = struct.unpack_from("<HHH", data, 58)
        if size < 64 or names >= count or table + size * count > len(data):
            raise Wrong(f"{where} has no table of sections, or is cut off in it")
        rows = [struct.unpack_from("<IIQQQQIIQQ", data, table + size * i) for i in range(count)]
        text = data[rows[names][4] :][: rows[names][5]]
        self.sections = [Section(name_at(text, row[0]), *row[1:7], row[8] or 1, row[9]) for row in rows]

    def section(self, name):
        """The bytes of the section of this name; None without one."""
        found = next((row for row in self.sections if row.name == name), None)
        return found and self.data[found.offset : found.offset + found.size]

    def symbols(self):
        """The named symbols: name, section number and value each."""
        for table in self.sections:
            if table.kind == SYMTAB:
                names = self.sections[table.link]
                text = self.data[names.offset : names.offset + names.size]
                for at in range(table.offset, table.offset + table.size, table.entry_size or 24):
                    name, _, _, section, value, _ = struct.unpack_from("<IBBHQQ", self.data, at)
                    if name:
                        yield name_at(text, name), section, value


def name_at(text, at):
    return text[at : text.find(b"\0", at)].decode(errors="replace")
