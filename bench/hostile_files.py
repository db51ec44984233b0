"""Lists, events and memory files that are made to take much time or memory, and the machine that all hostile files are for.
Each kind writes its file in a folder, of so many times its least size, and answers its name and the words of a command."""
import os
import shutil
import struct
import sys

TOP = os.path.dirname(os.path.dirname(os.path.realpath(__file__)))
sys.path.append(f"{TOP}/scripts")
from companion.memory_files import write_memory
from companion.numbers import PAGE
from companion.records import record_bytes
from companion.written import to_write

# the last page below the limit of addresses, whose address is the longest in a line
LAST_PAGE = (1 << 34) - 1
MOST_BYTES = 16 + 131072 * (8 + PAGE)


def make_machine(folder):
    """A map of 16 GiB, the largest pool, and the memory and the kernel of the first example."""
    with to_write(f"{folder}/map", True) as out:
        out.write("00000000-3ffffffff : System RAM\n")
    with to_write(f"{folder}/pool", True) as out:
        out.write("200000-23ffff\n")
    shutil.copy(f"{TOP}/examples/first/memory.kxmem", f"{folder}/memory")
    shutil.copy(f"{TOP}/examples/first/kernel", f"{folder}/kernel")


def dump(folder, times):
    """Link pages full of destination words, 8,192 of them and more; the done word is the last word of the last page."""
    pages = 8192 * times
    first = LAST_PAGE - pages
    words = struct.pack("<Q", LAST_PAGE * PAGE | 1) * 511
    last = first + pages - 1
    write_memory(f"{folder}/list", (
        (page, words + struct.pack("<Q", 4 if page == last else (page + 1) * PAGE | 2)) for page in range(first, last + 1)))
    with to_write(f"{folder}/record") as out:
        out.write(record_bytes(first * PAGE | 2, 0x1000, [(0x2000, b"kernel")]))
    return "list", ["dump", "list", "record"]


def events(text, count):
    """A kind of events: this text so many times and more."""

    def write(folder, times):
        with to_write(f"{folder}/events", True) as out:
            out.write(text * (count * times))
        return "events", ["drill", "--map", "map", "memory", "pool", "/dev/null", "events"]

    return write


def zeros(count):
    """A kind of memory files: so many bytes of zeros and more."""

    def write(folder, times):
        with to_write(f"{folder}/zeros") as out:
            out.truncate(count * times)
        return "zeros", ["trace", "zeros", "/dev/null", "4", "1"]

    return write


PAGE_LOAD = "open 1 normal\nadd 1 100000 1000 6b\nwrite 1\n"
WIDE_LOAD = "open 1 normal\nadd 1 100000000 10000000 -\nwrite 1\n"
KINDS = {
    "dump": dump,
    "cancelled": events(f"{PAGE_LOAD}cancel 1\n", 5000),
    "installed": events(f"{PAGE_LOAD}install 1\n", 4500),
    "unloaded": events(f"{PAGE_LOAD}install 1\nunload 1 normal\n", 3750),
    "wide": events(f"{WIDE_LOAD}cancel 1\n", 1),
    "long": zeros(5 << 30),
    "unmarked": zeros(MOST_BYTES // 4),
}
