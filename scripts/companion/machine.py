"""kernelyet machine: makes the memory map, the pool and the memory file of a machine, as the program takes them."""
import os
import struct

from companion import dumps, maps, pools
from companion.memory_files import MOST_PAGES, NONE, Writer
from companion.numbers import PAGE, common, counted, number_of, size_of, size_text, span
from companion.parsers import Parser
from companion.progress import Progress, bar
from companion.refusals import Wrong, WrongWords
from companion.written import write_text

# KPF_BUDDY, KPF_HWPOISON, KPF_OFFLINE of linux/kernel-page-flags.h
BUDDY, POISON, OFFLINE = 1 << 10, 1 << 19, 1 << 23
TEXT = """Makes the memory map, the pool and the memory file of a machine, as the
program takes them: of this machine (as root), of a guest by its map and a dump
of its memory (--map with --core or --raw), or of a made-up PC (--ram). With
--check it names the pool pages that are not free RAM of a map.

Files in FOLDER:
  map            the memory map
  pool           free pages of RAM from 1 MiB on, never one that the map takes
                 from RAM, nor one of the crash area; at most 262144. The
                 highest memory comes first, in ranges of at most 2 MiB whose
                 pages rise. Of this machine: the pages that Linux's page
                 allocator has free. Of a guest: the pages that are all zeros.
  memory.kxmem   of a guest: the pages that are not all zeros, at most 131072.
                 Else no page: a load does not depend on what RAM holds.
  notes          of this machine: where the notes of each processor and
                 vmcoreinfo lie, for load-panic --notes"""
EPILOG = """Status 0; 1 where an input is refused, and then the file in question was not
made, or where --check finds pages; 2 where the words are refused."""


def parser():
    words = Parser("machine", "[OPTIONS] FOLDER", TEXT, EPILOG)
    words.word_of("FOLDER", "where the files are put; with --check: POOL MAP", nargs="+")
    words.option("map", "the map of the machine: the text of /proc/iomem, read as root", "FILE")
    words.option("core", "the memory of a guest as an ELF core file, as QEMU's dump-guest-memory and virsh dump "
                 "--memory-only make it", "FILE")
    words.option("raw", "the memory of a guest as bytes, as QEMU's pmemsave makes it", "FILE")
    words.option("ram", "a made-up PC with so much RAM, as 8G; up to 63T", "SIZE")
    words.option("crash", "with a crash area of this size in the made-up PC, as 256M", "SIZE")
    words.option("pages", "keep these pages alone of the guest's memory, hexadecimal page numbers; may be given several "
                 "times", "FIRST-LAST", action="append", default=[])
    words.option("lowest", "take the lowest free pages first, in place of the highest")
    words.option("check", "name the pages of POOL that are not free RAM of MAP")
    words.option("flags", "read in place of /proc/kpageflags", "FILE", default="/proc/kpageflags")
    words.option("sysfs", "read in place of /sys", "FOLDER", default="/sys")
    return words


def keeps_of(words):
    """The runs of pages of --pages."""
    keeps = []
    for word in words:
        first, _, last = word.partition("-")
        keeps.append((number_of(first, 16, "FIRST of --pages"), number_of(last or first, 16, "LAST of --pages")))
    return keeps


class Sorting:
    """Sorts the pages of a dump: those that are not all zeros into a memory file, of the others the runs."""

    def __init__(self, path, keeps):
        self.writer, self.keeps, self.zeros, self.held = Writer(path), keeps, [], []

    def add(self, number, data):
        if data == NONE:
            grow(self.zeros, number)
        elif not self.keeps or any(first <= number <= last for first, last in self.keeps):
            grow(self.held, number)
            self.writer.add(number, data)

    def end(self):
        """Ends the file, and answers how many pages it has."""
        self.writer.end()
        kept = self.writer.count
        if kept > MOST_PAGES:
            longest = sorted(self.held, key=lambda run: run[0] - run[1])[:5]
            most = ", ".join(f"{first:#x}-{end - 1:#x}" for first, end in longest)
            raise Wrong(f"{kept} pages are not all zeros, and a memory file has at most {MOST_PAGES}: choose by --pages "
                        f"FIRST-LAST; the longest runs are {most}. For a load alone, no page is needed")
        return kept


def grow(runs, number):
    """Adds a page behind the last of some rising runs [first, end]."""
    if runs and runs[-1][1] == number:
        runs[-1][1] += 1
    else:
        runs.append([number, number + 1])


def write_pages(path, reader, keeps):
    """Writes the memory file, and answers how many pages it has and the runs (first, end) of pages of zeros."""
    sorting = Sorting(path, keeps)
    for number, data in reader.pages() if reader else ():
        sorting.add(number, data)
    return sorting.end(), [(first, end) for first, end in sorting.zeros]


def buddy_runs(runs, path):
    """Of these runs of pages, those that the page allocator has free."""
    found = []
    with open(path, "rb", buffering=0) as file:
        for first, end in runs:
            for at in range(first, end, 1 << 16):
                data = os.pread(file.fileno(), 8 * min(end - at, 1 << 16), 8 * at)
                for i, (flags,) in enumerate(struct.iter_unpack("<Q", data[: len(data) & -8])):
                    if flags & BUDDY and not flags & (POISON | OFFLINE):
                        grow(found, at + i)
    return [(first, end) for first, end in found]


def note_lines(sysfs):
    """The lines of a note file, and what sysfs does not show of them: it has the size of a processor's notes in decimal, and 0x
    before vmcoreinfo's place."""
    folder, lines, lacking, why = f"{sysfs}/devices/system/cpu", [], [], ""
    numbers = sorted(int(name[3:]) for name in os.listdir(folder) if name[:3] == "cpu" and name[3:].isdigit())
    for number in numbers:
        try:
            with open(f"{folder}/cpu{number}/crash_notes") as place, open(f"{folder}/cpu{number}/crash_notes_size") as size:
                lines.append(f"{int(place.read(), 16):x} {int(size.read()):x}\n")
        except OSError as error:
            lacking.append(number)
            why = error.strerror
    found = []
    if lacking:
        whose = "any processor" if lacking == numbers else f"processor {', '.join(map(str, lacking))}"
        found.append(f"{folder} shows no crash_notes of {whose} ({why}): a core file will lack their registers")
    try:
        with open(f"{sysfs}/kernel/vmcoreinfo") as file:
            place, size = file.read().split()
            lines.append(f"{int(place, 16):x} {int(size, 16):x}\n")
    except OSError as error:
        found.append(f"{sysfs}/kernel/vmcoreinfo is not shown ({error.strerror}): what reads a core file will lack its symbols")
    return lines, found


def check(pool_path, map_path):
    """Prints the pool pages that are not free RAM."""
    pool, (_, rows) = pools.read_pool(pool_path), maps.read_map(map_path)
    found = pools.check_pool(pool, rows)
    for first, last, why in found:
        print(f"{first:#x}-{last:#x}: {counted(last - first + 1, 'page')}, {why}")
    pages, wrong = (sum(last - first + 1 for first, last, *_ in runs) for runs in (pool, found))
    print(f"{wrong} of {counted(pages, 'page')} of the pool are not free RAM")
    return 1 if wrong else 0


def make_memory(given, free):
    """Makes the memory file, and answers the pages for the pool, and which these are."""
    path = f"{given.folder}/memory.kxmem"
    reader = dumps.Reader(given.core, dumps.core_parts(given.core)) if given.core else None
    reader = dumps.Reader(given.raw, dumps.raw_parts(given.raw)) if given.raw else reader
    try:
        with Progress(f"reading {reader.path}" if reader else "", reader and (lambda: bar(reader.done, reader.whole))):
            kept, zeros = write_pages(f"{path}.new", reader, given.pages)
        os.rename(f"{path}.new", path)
    finally:
        if os.path.exists(f"{path}.new"):
            os.remove(f"{path}.new")
    print(f"{path}: {counted(kept, 'page')} that are not all zeros")
    if reader:
        return common(free, zeros), "pages of RAM that are all zeros"
    if given.ram or given.map:
        return free, "each page of RAM from 1 MiB on"
    with Progress(f"reading {given.flags}"):
        return buddy_runs(free, given.flags), "pages that the page allocator has free"


def made_up(ram, crash):
    """The rows of a made-up PC, in which a crash area lies as `plan --crash` lays it."""
    rows = maps.made_up(ram)
    if not crash:
        return rows
    with_area = maps.with_crash(rows, crash)
    if with_area is None:
        raise WrongWords(f"--crash: a PC with {size_text(ram)} of RAM has no place below 4 GiB for {size_text(crash)}")
    return with_area


def make(given):
    if given.ram:
        rows = made_up(given.ram, given.crash)
        text = maps.text_of(rows)
    else:
        text, rows = maps.read_map(given.map or "/proc/iomem")
    for dump, parts in ((given.core, dumps.core_parts), (given.raw, dumps.raw_parts)):
        if dump:
            # refused before anything is made
            parts(dump)
    os.makedirs(given.folder, exist_ok=True)
    write_text(f"{given.folder}/map", text)
    ram, area = maps.free_runs(rows), maps.crash_area(rows)
    print(f"{given.folder}/map: {len(rows)} lines, {size_text(PAGE * sum(end - first for first, end in ram))} of free RAM, "
          + (f"crash area {span(area[0], area[1] - 1)}" if area else "no crash area"))
    free, which = make_memory(given, maps.from_1_mib(ram))
    if not free:
        raise Wrong(f"there is no free page for the pool: it takes {which}")
    lines, count = pools.write_pool(f"{given.folder}/pool", free, not given.lowest)
    print(f"{given.folder}/pool: {counted(count, 'page')} in {counted(lines, 'line')}: {which}, "
          f"the {'lowest' if given.lowest else 'highest'} memory first")
    if not (given.ram or given.map):
        notes, lacking = note_lines(given.sysfs)
        write_text(f"{given.folder}/notes", "".join(notes))
        print(f"{given.folder}/notes: {counted(len(notes), 'note')}")
        for what in lacking:
            print(f"warning: {what}")
    return 0


def main(arguments):
    words = parser()
    given = words.parse_args(arguments)
    if given.check:
        if len(given.folder) != 2:
            words.error("--check takes two files, POOL and MAP")
        return check(*given.folder)
    if len(given.folder) != 1:
        words.error(f"{given.folder[1]!r} is one argument too many: give one FOLDER")
    if (given.core or given.raw) and not given.map:
        words.error("a guest's memory needs its map too: --map FILE, the text of its /proc/iomem, read as root")
    if (given.core and given.raw) or (given.ram and given.map):
        words.error("give one of --core and --raw, and one of --ram and --map")
    if given.crash and not given.ram:
        words.error("--crash is for a made-up PC (--ram): the map of a machine has its own crash area")
    given.folder, given.pages = given.folder[0], keeps_of(given.pages)
    given.ram, given.crash = given.ram and size_of(given.ram, "--ram"), given.crash and size_of(given.crash, "--crash")
    return make(given)
