"""Types of a kernel by its BTF (Documentation/bpf/btf.rst of Linux): how large a struct is, and where its members lie."""
import struct
from typing import NamedTuple

from companion.refusals import Wrong

MAGIC = 0xEB9F
# kinds of types
INT, PTR, ARRAY, STRUCT, UNION, TYPEDEF, VOLATILE, CONST, RESTRICT, TYPE_TAG = 1, 2, 3, 4, 5, 8, 9, 10, 11, 18
# The bytes behind the twelve of a type, by its kind: those of all, and those of each of its `vlen` parts.
BEHIND = {INT: 4, ARRAY: 12, 14: 4, 17: 4}
EACH = {STRUCT: 12, UNION: 12, 6: 8, 13: 8, 15: 12, 19: 12}


class Member(NamedTuple):
    """A member of a struct: its place in bits, its size in bits where it is a bit-field and else 0, and its size in bytes."""

    bit: int
    bits: int
    size: int

    @property
    def place(self):
        """Its place in bytes."""
        return self.bit // 8

    def of(self, data):
        """Its value in the bytes of a struct."""
        if self.bits:
            return int.from_bytes(data, "little") >> self.bit & (1 << self.bits) - 1
        return int.from_bytes(data[self.place : self.place + self.size], "little")


class Struct:
    """A struct: its size, and its members by name, those of unnamed parts among them."""

    def __init__(self, name, size, members):
        self.name, self.size, self.members = name, size, members

    def __contains__(self, name):
        return name in self.members

    def __getitem__(self, name):
        if name not in self.members:
            raise Wrong(f"the layout of this kernel is not known: its struct {self.name} has no member {name}")
        return self.members[name]


class Btf:
    """The types in the bytes of a .BTF section."""

    def __init__(self, data, where):
        if len(data) < 24 or struct.unpack_from("<H", data)[0] != MAGIC:
            raise Wrong(f"{where} has no BTF: it does not begin with its magic number, 0xeb9f")
        head, types, types_size, names, names_size = struct.unpack_from("<IIIII", data, 4)
        self.data, self.rows, self.structs = data, [None], {}
        self.names = data[head + names : head + names + names_size]
        at, end = head + types, head + types + types_size
        if end > len(data) or len(self.names) < names_size:
            raise Wrong(f"the BTF of {where} is cut off")
        while at < end:
            name, info, size = struct.unpack_from("<III", data, at)
            kind, count = info >> 24 & 31, info & 0xFFFF
            self.rows.append((name, info, size, at + 12))
            if kind == STRUCT and name:
                self.structs.setdefault(self.name(name), len(self.rows) - 1)
            at += 12 + BEHIND.get(kind, 0) + EACH.get(kind, 0) * count

    def name(self, at):
        return self.names[at : self.names.index(b"\0", at)].decode()

    def kind(self, number):
        return self.rows[number][1] >> 24 & 31

    def size(self, number):
        """The size of a type in bytes."""
        _, info, size, at = self.rows[number]
        kind = info >> 24 & 31
        if kind == ARRAY:
            element, _, count = struct.unpack_from("<III", self.data, at)
            return self.size(element) * count
        if kind in (TYPEDEF, VOLATILE, CONST, RESTRICT, TYPE_TAG):
            return self.size(size)
        return 8 if kind == PTR else size

    def struct(self, name):
        if name not in self.structs:
            raise Wrong(f"the layout of this kernel is not known: its BTF has no struct {name}")
        number = self.structs[name]
        return Struct(name, self.rows[number][2], self._members(number, 0))

    def _members(self, number, base):
        _, info, _, at = self.rows[number]
        found = {}
        for i in range(info & 0xFFFF):
            name, kind, offset = struct.unpack_from("<III", self.data, at + 12 * i)
            # with kind_flag an offset has the size of a bit-field in its upper eight bits
            bits = offset >> 24 if info >> 31 else 0
            bit = base + (offset & 0xFFFFFF if info >> 31 else offset)
            if name:
                found[self.name(name)] = Member(bit, bits, self.size(kind))
            elif self.kind(kind) in (STRUCT, UNION):
                found.update(self._members(kind, bit))
        return found
