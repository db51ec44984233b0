"""kernelyet try: boots a memory file in a virtual machine, and shows what its serial line says."""
import re
import socket
import sys
import tempfile

from companion import qemu
from companion.memory_files import Memory
from companion.numbers import PAGE, counted, span
from companion.parameters import zero_page_rows
from companion.parsers import Parser, integer, mebibytes
from companion.program import tool
from companion.progress import Progress
from companion.refusals import NothingTried, Wrong
from companion.words import name_called
from companion.written import write_text

TEXT = """Boots a memory file that `boot`, `exec` or `load-panic` wrote in a virtual
machine, and shows what its serial line says.

  kernelyet exec loaded.kxmem loaded.record after.kxmem | kernelyet try after.kxmem

A stub does what is left of a kexec: memory is mapped to itself, interrupts are
off, the segments are those of the 64-bit boot protocol, and the entry is jumped
to with the registers of the line `start`, as the command printed it. Just
before the jump the pages of the file are laid into the machine's memory, so
that the firmware's work there does not count. The stub itself lies in pages
that the file does not have. Where memory at the jump differs from the file,
that is said: pages for which the machine has no RAM, and pages of zeros in which
the firmware left bytes."""
EPILOG = """It needs qemu-system-x86_64, gcc and binutils. It ends when the machine turns
itself off or resets itself, when its kernel says that it panicked or halted, or
after the time. Status 0 where the machine turned itself off; 2 where the words
are refused, or a tool or MEMORY is missing; else 1."""

STUB_PAGES = 4
# kinds of E820 rows: ACPI Tables, ACPI Non-volatile Storage
ACPI = (3, 4)
# A Multiboot kernel: 1 GiB pages that map the first 512 GiB to themselves. It says on the second serial line that it is
# there, waits for a byte, and jumps. TABLES is the address of its two pages of tables.
STUB = r"""
        .code32
        .globl _start
_start: jmp     1f
        .balign 4
        .long   0x1badb002, 0, -0x1badb002
1:      cli
        cld
        xorl    %eax, %eax
        movl    $TABLES, %edi
        movl    $0x800, %ecx
        rep stosl
        movl    $TABLES + 0x1003, TABLES
        movl    $TABLES + 0x1000, %edi
        movl    $0x83, %eax
        xorl    %edx, %edx
2:      movl    %eax, (%edi)
        movl    %edx, 4(%edi)
        addl    $0x40000000, %eax
        adcl    $0, %edx
        addl    $8, %edi
        cmpl    $TABLES + 0x2000, %edi
        jb      2b
        movw    $0x2f8, %dx
        movb    $'J', %al
        outb    %al, %dx
        movw    $0x2fd, %dx
4:      inb     %dx, %al
        testb   $1, %al
        jz      4b
        movl    $TABLES, %eax
        movl    %eax, %cr3
        movl    %cr4, %eax
        orl     $0x20, %eax
        movl    %eax, %cr4
        movl    $0xc0000080, %ecx
        rdmsr
        orl     $0x100, %eax
        wrmsr
        movl    %cr0, %eax
        orl     $0x80000001, %eax
        movl    %eax, %cr0
        lgdt    limit
        ljmp    $0x10, $3f
        .code64
3:      movl    $0x18, %ecx
        movl    %ecx, %ds
        movl    %ecx, %es
        movl    %ecx, %ss
        movabs  $RAX, %rax
        movabs  $RBX, %rbx
        movabs  $RSI, %rsi
        movabs  $ENTRY, %rcx
        xorl    %edi, %edi
        xorl    %ebp, %ebp
        movl    $TABLES - 8, %esp
        jmp     *%rcx
        .balign 8
table:  .quad   0, 0, 0x00af9a000000ffff, 0x00cf92000000ffff
limit:  .word   31
        .long   table
"""


def place_of_stub(memory, ram):
    """Pages of RAM from 1 MiB on that the file does not have: behind its last page, else the first gap."""
    end = min(ram << 20, qemu.LOW_END) // PAGE
    low = [page for page in memory.place if page < end]
    places = [max(low, default=0) + 1 + (16 << 20) // PAGE, *(page + 1 for page in sorted(low)), 0x100]
    for first in places:
        if first >= 0x100 and first + STUB_PAGES <= end and not any(first + i in memory.place for i in range(STUB_PAGES)):
            return first
    raise Wrong("the file leaves no four pages between 1 MiB and 3 GiB free, and the stub needs them")


def text_of(given):
    """The text with the line `start`. It is read before the memory, which the command on the other side of a pipe has only
    written when it ends; who types at a terminal has piped nothing in."""
    return given.start or ("" if sys.stdin.isatty() else sys.stdin.read())


def memory_of(path):
    """The memory file; where there is none, nothing is tried."""
    try:
        return Memory(path)
    except FileNotFoundError as error:
        raise NothingTried(f"{path}: {error.strerror}") from None


def start_of(text):
    """The entry and the registers of the line `start`."""
    found = re.search(" ".join(rf"{name} (?:0x)?([0-9a-f]+)" for name in ("entry", "rax", "rbx", "rsi")), text)
    if not found:
        raise Wrong("there is no line 'start entry .. rax .. rbx .. rsi ..': give it by --start, or the command's output "
                    "on standard input")
    return found.groups()


def make_stub(folder, start, first):
    write_text(f"{folder}/stub.S", STUB)
    names = [f"-D{name}=0x{value}" for name, value in zip(["ENTRY", "RAX", "RBX", "RSI"], start)]
    names.append(f"-DTABLES={(first + STUB_PAGES - 2) * PAGE:#x}")
    tool(["gcc", "-m32", *names, "-c", "-o", "stub.o", "stub.S"], folder)
    tool(["ld", "-m", "elf_i386", f"-Ttext={first * PAGE:#x}", "-z", "noexecstack", "-o", "stub", "stub.o"], folder)
    return ["-kernel", f"{folder}/stub"]


def say_differences(missing, foreign, stub):
    """Says where memory at the jump is not the file."""
    for pages, what in ((missing, "have no RAM in this machine, and are left out"),
                        (foreign, "are zeros in the file, and have bytes of the firmware")):
        if pages:
            print(f"{name_called()}: {counted(len(pages), 'page')} {what}: {qemu.spans_text(pages)}", file=sys.stderr)
    print(f"{name_called()}: the stub is at {span(stub, stub + STUB_PAGES - 1)}; every other page is the file's",
          file=sys.stderr)


def parser():
    words = Parser("try", "[OPTIONS] MEMORY", TEXT, EPILOG)
    words.word_of("MEMORY", "the memory file")
    words.option("start", "the line `start entry .. rax .. rbx .. rsi ..`; standard input without it", "LINE")
    words.option("ram", "the machine's RAM, as 2G; well above the highest page of the file without it", "SIZE",
                 type=mebibytes)
    words.option("seconds", "how long the machine may run; 300 without it", "N", type=integer, default=300)
    return words


def ram_of(given, memory):
    """The MiB of the machine's RAM, of which the pages of the file need some."""
    needed = qemu.ram_for(memory)
    if not given.ram or given.ram >= needed:
        return given.ram or needed
    lost = [page for page in memory.place if qemu.offset_of(page, given.ram) is None and page >= 0x100]
    if lost:
        raise Wrong(f"{given.ram} MiB are too few: {counted(len(lost), 'page')} of the file have no RAM there: "
                    f"{qemu.spans_text(lost)}; {needed} MiB are enough")
    return given.ram


def boot(machine, memory, stub, seconds):
    """Lets the stub jump into the memory that is laid, and answers why the machine did not end as it should, or None."""
    jump = machine.connect("jump")
    jump.settimeout(seconds)
    try:
        is_there = jump.recv(1) == b"J"
    except (socket.timeout, ConnectionError):
        is_there = False
    if not is_there:
        raise Wrong("the stub did not start: the machine's firmware did not load it")
    with Progress("laying the memory"):
        found = machine.lay(memory, range(stub, stub + STUB_PAGES))
    say_differences(*found, stub)
    try:
        jump.send(b"G")
    except ConnectionError:
        raise Wrong("the machine went away before the jump") from None
    fault = machine.wait_for_end(seconds)
    machine.silence.end()
    return fault


def likely_cause(memory, rsi):
    """What may be behind a machine that did not turn itself off: a Linux kernel finds the machine's ACPI tables, by which it
    would do so, in the rows of the map that it was handed."""
    page = memory.bytes_at(rsi, PAGE)
    is_linux = page[0x202:0x206] == b"HdrS"
    if not is_linux or any(kind in ACPI for _, _, kind in zero_page_rows(page)):
        return ""
    return ("; a likely cause: the map with which the kernel was loaded has no ACPI Tables, and without these Linux turns no "
            "machine off")


def main(arguments):
    given = parser().parse_args(arguments)
    text = text_of(given)
    memory = memory_of(given.memory)
    start = start_of(text)
    ram = ram_of(given, memory)
    stub = place_of_stub(memory, ram)
    with tempfile.TemporaryDirectory(prefix="kernelyet-try-") as folder:
        words = make_stub(folder, start, stub)
        words += ["-chardev", f"socket,id=jump,path={folder}/jump,server=on,wait=off", "-serial", "chardev:jump"]
        with qemu.Machine(folder, ram, words) as machine:
            fault = boot(machine, memory, stub, given.seconds)
    if fault:
        print(f"\n{name_called()}: {fault}{likely_cause(memory, int(start[3], 16))}", file=sys.stderr)
    return 1 if fault else 0
