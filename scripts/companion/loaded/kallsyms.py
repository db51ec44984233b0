"""The symbols that a kernel keeps of itself: the tables behind /proc/kallsyms, read from its memory (kernel/kallsyms.c and
scripts/kallsyms.c of Linux)."""
import struct

from companion.refusals import Wrong

TABLES = ("kallsyms_names", "kallsyms_num_syms", "kallsyms_token_table", "kallsyms_token_index", "kallsyms_offsets")
# which later kernels do without
BASE = "kallsyms_relative_base"
TOKENS, MOST_SYMBOLS, MOST_NAMES = 256, 1 << 21, 1 << 26


def read(virtual, note):
    """The symbols by name, through page tables, by a VMCOREINFO that says where the tables lie; the first of a name
    counts."""
    place = {name: note.symbol(name) for name in TABLES}
    if None in place.values():
        raise Wrong(f"the VMCOREINFO of Linux {note.release} does not say where its symbols lie, as it does from Linux 6.0 "
                    "on: give --symbols FILE, its System.map, vmlinux, or the text of its /proc/kallsyms, read as root")
    count = virtual.number(place["kallsyms_num_syms"], 4)
    size = place["kallsyms_token_table"] - place["kallsyms_names"]
    if not 0 < count <= MOST_SYMBOLS or not 0 < size <= MOST_NAMES:
        raise Wrong(f"the tables of symbols of Linux {note.release} have a layout that is not known: give --symbols FILE")
    names = names_of(virtual.read(place["kallsyms_names"], size), count, tokens_of(virtual, place))
    offsets = struct.unpack(f"<{count}i", virtual.read(place["kallsyms_offsets"], 4 * count))
    base = virtual.word(note.symbol(BASE)) if note.symbol(BASE) else None
    for addresses in addresses_of(offsets, place["kallsyms_offsets"], base):
        found = {}
        for name, address in zip(names, addresses):
            found.setdefault(name, address)
        if found.get("_stext") == note.symbol("_stext"):
            return found
    raise Wrong(f"the tables of symbols of Linux {note.release} do not say of _stext what VMCOREINFO says: give --symbols "
                "FILE")


def addresses_of(offsets, place, base):
    """The addresses that offsets stand for, in each of the ways that kernels have had: the one that is right gives _stext the
    address that VMCOREINFO has."""
    if base is None:
        # from its own place on, as in Linux 7
        yield [place + 4 * i + offset for i, offset in enumerate(offsets)]
    else:
        # from the base on
        yield [base + (offset & 0xFFFFFFFF) for offset in offsets]
        # with CONFIG_KALLSYMS_ABSOLUTE_PERCPU: one that is not negative is an address
        yield [offset if offset >= 0 else base - 1 - offset for offset in offsets]


def tokens_of(virtual, place):
    """The text of each of the 256 tokens of which names are made."""
    index = struct.unpack(f"<{TOKENS}H", virtual.read(place["kallsyms_token_index"], 2 * TOKENS))
    table = virtual.read(place["kallsyms_token_table"], index[-1] + 64)
    return [table[at : table.index(b"\0", at)].decode(errors="replace") for at in index]


def names_of(data, count, tokens):
    """The names, each behind its number of tokens (two bytes where it is above 127); a name's first letter is its type."""
    found, at = [], 0
    try:
        for _ in range(count):
            length = data[at]
            at += 1
            if length & 0x80:
                length, at = length & 0x7F | data[at] << 7, at + 1
            found.append("".join([tokens[token] for token in data[at : at + length]])[1:])
            at += length
    except IndexError:
        raise Wrong("the names of the kernel's symbols end before the last one") from None
    return found
