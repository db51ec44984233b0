"""Memory maps, the text of /proc/iomem: docs/FORMATS.md has their format."""
from companion.numbers import END, PAGE, UNITS, size_text, without
from companion.refusals import Wrong, WrongWords
from companion.written import write_text

RAM, CRASH, RESERVED = "System RAM", "Crash kernel", "Reserved"
# Rows that take pages from RAM, also where they stand inside a row of it.
TAKEN = {RESERVED, "reserved", "ACPI Tables", "ACPI Non-volatile Storage", CRASH}
MOST_TEXT = 1 << 20
MIB = 1 << UNITS["M"]
DIGITS = set("0123456789abcdefABCDEF")
# the RAM of a made-up PC below 4 GiB, where it has more
LOW_RAM = 3 << 30
# the least and the most RAM of one, which ends well below 2^46: a part that ends there would be refused
LEAST_RAM, MOST_RAM = 4 << 20, 63 << 40


def is_number(text):
    """Whether a text of a file is a number: hexadecimal digits alone, as all files of the program have them."""
    return 1 <= len(text) <= 16 and set(text) <= DIGITS


def lines_of(text):
    """The lines of a text with their numbers; the last newline may be missing."""
    lines = text.split("\n")
    return enumerate(lines[:-1] if lines[-1] == "" else lines, 1)


def rows_of(text, name):
    """The rows (first, last, what) of a memory map, as bytes with both included."""
    rows = []
    for number, line in lines_of(text):
        span, colon, what = line.lstrip(" ").partition(" : ")
        first, _, last = span.partition("-")
        if not colon or not is_number(first) or not is_number(last):
            raise Wrong(f"{name}: line {number} of the memory map is not 'first-last : name' in hexadecimal")
        if int(last, 16) < int(first, 16):
            raise Wrong(f"{name}: the end of line {number} of the memory map is below its start")
        rows.append((int(first, 16), int(last, 16), what))
    return rows


def read_map(path):
    """The text of a memory map and its rows; a map of zeros is refused."""
    with open(path, encoding="utf-8", errors="surrogateescape", newline="") as file:
        text = file.read()
    if "\r\n" in text:
        raise Wrong(f"{path} has lines that end in CR LF, and a memory map has LF alone: convert it")
    rows = rows_of(text, path)
    if not any(last for _, last, what in rows if what == RAM):
        raise Wrong(f"{path} shows no System RAM: Linux shows zeros for all addresses to any user but root, and nothing "
                    "in a container")
    if len(text) > MOST_TEXT:
        raise Wrong(f"{path} has {len(text)} bytes, and a memory map has at most {MOST_TEXT}")
    return text, rows


def text_of(rows):
    """The text of rows (first, last, what), or (first, last, what, blanks before them). Without these a crash area has two,
    as in a row of RAM it has."""
    return "".join(f"{' ' * sum(deep or [2 * (what == CRASH)])}{first:08x}-{last:08x} : {what}\n"
                   for first, last, what, *deep in rows)


def write_map(path, rows):
    write_text(path, text_of(rows))


def ram_runs(rows):
    """The runs (first, end) of pages that lie wholly in RAM, as the rows stand."""
    return [(-(-first // PAGE), min(last + 1, END) // PAGE) for first, last, what in rows if what == RAM]


def free_runs(rows):
    """The runs (first, end) of pages that lie wholly in RAM and that no other row takes, rising."""
    taken = ((first // PAGE, last // PAGE + 1) for first, last, what in rows if what in TAKEN)
    return without(sorted(ram_runs(rows)), taken)


def from_1_mib(runs):
    """The parts of runs of pages from 1 MiB on."""
    return [(max(first, MIB // PAGE), end) for first, end in runs if end > MIB // PAGE]


def crash_area(rows):
    """The run of whole pages of the last crash area, or None."""
    areas = [(-(-first // PAGE), (last + 1) // PAGE) for first, last, what in rows if what == CRASH]
    return areas[-1] if areas and areas[-1][0] < areas[-1][1] else None


def ranges_outside_crash_areas(rows):
    """The System RAM outside the crash areas, in the order of the lines: start and end of each range in bytes."""
    areas = [(first, last + 1) for first, last, what in rows if what == CRASH]
    found = []
    for first, last, what in rows:
        if what != RAM:
            continue
        parts = [(first, last + 1)]
        for start, end in areas:
            parts = [piece for a, b in parts for piece in ((a, min(b, start)), (max(a, end), b)) if piece[0] < piece[1]]
        found += parts
    return found


def place_for_crash(rows, size):
    """Where Linux would reserve an area of so many bytes: as high as it goes below 4 GiB in free RAM, at a multiple of
    16 MiB; the area's first byte, or None where there is none."""
    others = [row for row in rows if row[2] != CRASH]
    for first, end in reversed(free_runs(others)):
        start = (min(end * PAGE, 1 << 32) - size) & -(16 * MIB)
        if start >= max(first * PAGE, 16 * MIB):
            return start
    return None


def with_crash(rows, size):
    """The map with a crash area of so many bytes in place of its own; None where there is no room for it."""
    start = place_for_crash(rows, size)
    if start is None:
        return None
    others = [row for row in rows if row[2] != CRASH]
    at = next(i for i, (first, last, what) in enumerate(others) if what == RAM and first <= start <= last)
    return [*others[: at + 1], (start, start + size - 1, CRASH), *others[at + 1 :]]


def made_up(ram):
    """The rows of a PC with so many bytes of RAM: a hole below 4 GiB where there are more than 3 GiB."""
    if ram < LEAST_RAM:
        raise WrongWords(f"--ram: a made-up PC has {size_text(LEAST_RAM)} of RAM or more")
    if ram > MOST_RAM:
        raise WrongWords(f"--ram: a made-up PC has {size_text(MOST_RAM)} of RAM or less, as addresses lie below 2^46")
    low = min(ram, LOW_RAM)
    rows = [(0, 0xFFF, RESERVED), (0x1000, 0x9FBFF, RAM), (0x9FC00, 0xFFFFF, RESERVED),
            (0x100000, low - 0x21001, RAM), (low - 0x21000, low - 0x1001, "ACPI Tables"),
            (low - 0x1000, low - 1, "ACPI Non-volatile Storage"), (0xFEC00000, 0xFEC003FF, "IOAPIC 0"),
            (0xFFFC0000, 0xFFFFFFFF, RESERVED)]
    if ram > low:
        rows.append((1 << 32, (1 << 32) + ram - low - 1, RAM))
    return rows
