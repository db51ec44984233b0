"""The files that are written of an image: its memory, its record, and the map of the machine."""
import os

from companion import maps
from companion.memory_files import MOST_PAGES, Writer
from companion.numbers import PAGE
from companion.records import record_bytes
from companion.refusals import Wrong
from companion.written import to_write


def record_of(found, is_copies):
    """The bytes of the load record of what was found."""
    image = found.image
    numbers = {"entry": image.start, "kind": int(image.is_crash)}
    if found.is_mode_kept(is_copies):
        if image.swap is None:
            raise Wrong("the image has no swap page, by which this kernel runs a list: give --copies")
        numbers["swap"] = image.swap * PAGE
    if found.purgatory:
        numbers.update(regions=found.purgatory.table, digest=found.purgatory.digest)
    segments = [(row.mem, one, row.memsz) for row, one in zip(found.segments, found.data)]
    return record_bytes(image.head, 0 if image.is_crash else image.control * PAGE, segments, **numbers)


def write_memory(path, physical, pages):
    """Writes the memory file of these pages, and answers how many of them are not all zeros and how many the dump lacks."""
    writer, lacking = Writer(f"{path}.new"), 0
    try:
        for number in sorted(pages):
            if physical.has(number * PAGE):
                writer.add(number, physical.page(number))
            else:
                lacking += 1
        writer.end()
        if writer.count > MOST_PAGES:
            raise Wrong(f"{writer.count} pages are not all zeros, and a memory file has at most {MOST_PAGES} (512 MiB): leave "
                        "out --all, or load a smaller initrd")
        os.rename(f"{path}.new", path)
    finally:
        if os.path.exists(f"{path}.new"):
            os.remove(f"{path}.new")
    return writer.count, lacking


def write(folder, kernel, found, rows, is_all=False, is_copies=False):
    """Writes the three files into a folder, and answers how many pages the memory file has and how many the dump lacks."""
    record = record_of(found, is_copies)
    os.makedirs(folder, exist_ok=True)
    pages = found.kept() | (set(found.wanted()) if is_all else set())
    counts = write_memory(f"{folder}/memory.kxmem", kernel.physical, pages)
    with to_write(f"{folder}/record") as out:
        out.write(record)
    maps.write_map(f"{folder}/map", rows)
    return counts
