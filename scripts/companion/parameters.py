"""kernelyet parameters: the boot parameters in the load record of a Linux kernel, read apart from the program (The Linux/x86
Boot Protocol; Documentation/arch/x86/zero-page)."""
import struct

from companion import reports
from companion.numbers import PAGE, size_text
from companion.parsers import Parser
from companion.records import Record, initrd_of
from companion.refusals import Wrong

KINDS = {1: "System RAM", 2: "Reserved", 3: "ACPI Tables", 4: "ACPI Non-volatile Storage"}
# type of struct setup_data whose bytes are further rows of the memory map
E820_EXTENSION = 1
TEXT = """Reads the boot parameters out of a load record of a Linux kernel, apart from the
program: the zero page's fields, its E820 rows and those of its setup_data, the
command line, and where the initrd lies."""
EPILOG = "Status 0; 1 where an input is refused or something is not as it must be."


def parser():
    words = Parser("parameters", "[OPTIONS] RECORD", TEXT, EPILOG)
    words.word_of("RECORD", "the load record")
    words.option("initrd", "compare the bytes at the initrd's address with this file", "FILE")
    words.option("kernel", "compare the kernel's segment with the protected-mode part of this file", "FILE")
    reports.option_json(words)
    return words


def zero_page_rows(page):
    """The E820 rows (start, size, kind) in a zero page."""
    return [struct.unpack_from("<QQI", page, 0x2D0 + 20 * i) for i in range(min(page[0x1E8], 128))]


def field(page, at, width):
    return int.from_bytes(page[at : at + width], "little")


class Parameters:
    """The boot parameters of a load."""

    def __init__(self, record):
        found = [segment for segment in record.segments if segment.is_parameters()]
        if not found:
            raise Wrong(f"{record.path}: no segment has boot parameters: is it the load record of a bzImage?")
        self.segment, page = found[-1], found[-1].data
        self.page, self.mem = page, found[-1].mem
        self.protocol = (page[0x207], page[0x206])
        self.loader, self.setup_data = page[0x210], field(page, 0x250, 8)
        self.command_at = field(page, 0x228, 4) | field(page, 0x0C8, 4) << 32
        inside = self.mem <= self.command_at < self.mem + len(page)
        self.command = page[self.command_at - self.mem :].split(b"\0")[0] if inside else None
        self.initrd_at, self.initrd_size = initrd_of(page)
        self.initrd = next((it for it in record.segments if self.initrd_at and it.mem == self.initrd_at), None)

    def command_text(self):
        return "(outside)" if self.command is None else self.command.decode(errors="replace")

    def is_command_whole(self):
        """Whether the command stands behind the zero page, and a NUL behind it."""
        return (self.command is not None and self.command_at == self.mem + PAGE
                and self.page[PAGE + len(self.command) : PAGE + len(self.command) + 1] == b"\0")

    def rows(self):
        """The E820 rows in the zero page, and those of the records of type SETUP_E820_EXT (struct setup_data)."""
        rows = zero_page_rows(self.page)
        at, seen = self.setup_data, set()
        while at and at not in seen and self.mem <= at <= self.mem + len(self.page) - 16:
            seen.add(at)
            head = at - self.mem
            at, kind, length = struct.unpack_from("<QII", self.page, head)
            if kind == E820_EXTENSION:
                data = self.page[head + 16 : head + 16 + length]
                rows += struct.iter_unpack("<QQI", data[: len(data) // 20 * 20])
        return rows


def comparisons(given, record, found):
    """What is compared with files: its name, and whether it is the file."""
    if given.initrd:
        with open(given.initrd, "rb") as file:
            wanted = file.read()
        yield "initrd", found.initrd is not None and found.initrd.data == wanted and found.initrd_size == len(wanted)
    if given.kernel:
        with open(given.kernel, "rb") as file:
            wanted = file.read()
        start = ((wanted[0x1F1] if len(wanted) > 0x1F1 else 0) or 4) * 512 + 512
        yield "kernel", record.segments[0].data == wanted[start:]


def lines_of(record, found, same):
    yield f"parameters at {found.mem:#x}, {size_text(len(found.page))} in {size_text(found.segment.memsz)}"
    major, minor = found.protocol
    yield f"boot protocol {major}.{minor:02d}, loader type {found.loader:#x}, setup_data {found.setup_data:#x}"
    yield f"command at {found.command_at:#x}: {found.command_text()}"
    if not found.is_command_whole():
        yield "the command does not stand behind the page, or has no NUL"
    for start, size, kind in found.rows():
        yield f"E820 {start:#014x}-{start + size - 1:#014x} {KINDS.get(kind, kind)}"
    yield f"initrd at {found.initrd_at:#x}, {size_text(found.initrd_size)}" if found.initrd_at else "no initrd"
    for name, is_same in same:
        what = "the file" if name == "initrd" else "the file's protected-mode part"
        yield f"the {name} is {'' if is_same else 'NOT '}{what}"
    yield f"entry {record.entry:#x} rsi {record.rsi:#x}; the kernel at {record.segments[0].mem:#x}"


def object_of(record, found, same):
    initrd = {"start": found.initrd_at, "bytes": found.initrd_size} if found.initrd_at else None
    return {"start": found.mem, "protocol": "{}.{:02d}".format(*found.protocol), "loader_type": found.loader,
            "setup_data": found.setup_data, "command_start": found.command_at, "command": found.command_text(),
            "is_command_whole": found.is_command_whole(), "initrd": initrd, "entry": record.entry, "rsi": record.rsi,
            "kernel_start": record.segments[0].mem,
            "rows": [{"start": start, "end": start + size, "kind": kind, "name": KINDS.get(kind)}
                     for start, size, kind in found.rows()],
            "same": {name: is_same for name, is_same in same}}


def main(arguments):
    given = parser().parse_args(arguments)
    record = Record(given.record)
    found = Parameters(record)
    same = list(comparisons(given, record, found))
    reports.show(given, "parameters", object_of(record, found, same), lines_of(record, found, same))
    return 0 if found.is_command_whole() and all(is_same for _, is_same in same) else 1
