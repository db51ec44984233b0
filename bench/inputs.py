"""The inputs of the measurements: memory files, raw kernels, pools and memory maps."""
import itertools
import os
import struct
import sys

sys.path.append(f"{os.path.dirname(os.path.dirname(os.path.realpath(__file__)))}/scripts")
from companion import memory_files
from companion.numbers import PAGE
from companion.written import to_write


def page_bytes(number):
    """A page that is not all zeros, told by its number."""
    return struct.pack("<Q", number * 2654435761 + 1) * (PAGE // 8)


def write_memory(file, pages):
    """A memory file of these pages, given in rising order."""
    memory_files.write_memory(file, ((number, page_bytes(number)) for number in pages))


def write_dumped(file, headers, first, pages):
    """A memory file of so many pages from the first on, and below them the page of the headers of a crash kernel: those of
    an ELF64 core file for x86-64 with one PT_LOAD, which has these pages."""
    start, size = first * PAGE, pages * PAGE
    ident = b"\x7fELF\x02\x01\x01" + bytes(9)
    head = struct.pack("<16sHHIQQQIHHHHHH", ident, 4, 62, 1, 0, 64, 0, 0, 64, 56, 1, 0, 0, 0)
    load = struct.pack("<IIQQQQQQ", 1, 7, start, 0xFFFF888000000000 + start, start, size, size, 0)
    memory_files.write_memory(file, itertools.chain([(headers, head + load)], (
        (number, page_bytes(number)) for number in range(first, first + pages))))


def write_kernel(file, pages):
    """A raw kernel of so many pages, each of other bytes."""
    with to_write(file) as out:
        for number in range(pages):
            out.write(page_bytes(number ^ 0x5A5A5A5A))


def write_resident(folder, first, sources):
    """A memory, a raw kernel for the pages from `first` on, and the pairs of its pages: page first + k is to have what lies at
    first + sources[k]. Where that is None no page of memory has it; of such pages each 256th is zeros, as a memory file has
    no room for all sources and destinations of the largest kernel and for its list."""
    places = sorted(place for place in sources if place is not None)
    write_memory(f"{folder}/memory", [first + place for place in places])
    with to_write(f"{folder}/kernel") as kernel, to_write(f"{folder}/pairs", True) as pairs:
        for number, place in enumerate(sources):
            if place is None:
                kernel.write(page_bytes(number ^ 0x5A5A5A5A) if number % 256 else bytes(PAGE))
            else:
                kernel.write(page_bytes(first + place))
                pairs.write(f"{first + number:x} {first + place:x}\n")


def write_pool(file, pages):
    with to_write(file, True) as out:
        out.writelines(f"{number:x}\n" for number in pages)


def need(pages, segments=1):
    """How many pool pages a plain load of so many segments takes."""
    return pages + -(-(segments + pages) // 511) + 1


def exchange_pool(pages, first):
    """The pool in which each page but the first is loaded by an exchange with the page before it."""
    pool, links = [0x10, 0x11, 0x12], 0x20
    for k in range(1, pages):
        if (k + 1) % 511 == 0:
            pool.append(links)
            links += 1
        pool.append(first + k - 1)
    return pool
