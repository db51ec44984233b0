"""Tests of how `kernelyet try` ends, for test-scripts: of the words in which an ending is told, and where there is QEMU, of small
kernels that end in each way."""
import shutil
import struct

from companion import endings, qemu, trial
from companion.memory_files import Memory, memory_bytes
from companion.numbers import PAGE

KERNELYET = "scripts/kernelyet"
PANIC = b"up\r\n[    0.5] Kernel panic - not syncing: no init found\r\n[    0.6] Call Trace\r\n"
# x86 code: waits for the serial line (port 0x3f8) and says a byte; stops for good; resets the machine (port 0xcf9)
SAY, FIRST = b"\x66\xba\xfd\x03\xec\xa8\x20\x74\xf7\x66\xba\xf8\x03\xb0%c\xee", 0x200
STOP = b"\xf4\xeb\xfd"
RESET = b"\x66\xba\xf9\x0c\xb0\x06\xee" + STOP


def test_endings(tests):
    ended = b"\r\n[    0.7] ---[ end Kernel panic - not syncing: no init found ]---\r\n"
    tests.same("a panic", (endings.panic_of(PANIC), endings.is_over(PANIC), endings.is_over(PANIC + ended)),
               ("the kernel panicked: no init found", False, True))
    tests.same("words about a panic are none", endings.panic_of(b"the log has: Kernel panic - not syncing: x\r\n"), None)
    halted = b"[    9.1] reboot: Power off not available: System halted instead\r\n"
    tests.same("a halt", (endings.is_halted(halted), endings.is_halted(b"echo reboot: System halted\r\n")), (True, False))
    for said, reasons, wanted in (
        (b"", ["guest-shutdown"], None),
        (b"", ["guest-reset"], "the machine reset itself, before it said a word on its serial line"),
        (b"up", ["guest-reset"], "the machine reset itself"),
        (PANIC, ["guest-reset"], "the kernel panicked: no init found"),
        (b"up", [], "QEMU ended"),
    ):
        tests.same(f"an ending by {reasons}", endings.by_reason(said, reasons), wanted)


def zero_page(*kinds):
    """A zero page with an E820 row of each kind."""
    page = bytearray(PAGE)
    page[0x202:0x206], page[0x1E8] = b"HdrS", len(kinds)
    for i, kind in enumerate(kinds):
        struct.pack_into("<QQI", page, 0x2D0 + 20 * i, i * PAGE, PAGE, kind)
    return bytes(page)


def test_likely_cause(tests):
    tests.write("handed", memory_bytes({1: zero_page(1, 2), 2: zero_page(1, 3), 3: b"no zero page"}))
    memory = Memory(f"{tests.folder}/handed")
    tests.same("maps without ACPI are named as the likely cause", ["no ACPI" in trial.likely_cause(memory, PAGE * page)
                                                                  for page in (1, 2, 3, 4)], [True, False, False, False])


def test_small_kernels(tests):
    """Kernels that end in each way: each is told at once, and not after the time."""
    if not all(map(shutil.which, (qemu.QEMU, "gcc", "ld"))):
        return
    start = f"start entry {FIRST * PAGE:x} rax 0 rbx 0 rsi 0"
    for text, end, wanted in ((b"[    1.2] reboot: System halted\r\n", STOP, "the kernel halted the machine"),
                              (b"up\r\n", RESET, "the machine reset itself"), (PANIC, STOP, "the kernel panicked: no init found")):
        code = b"".join(SAY % byte for byte in text) + end
        tests.write("ending", memory_bytes({FIRST + i: code[PAGE * i :][:PAGE] for i in range(-(-len(code) // PAGE))}))
        status, out, said = tests.run(KERNELYET, "try", "--seconds", "200", "--start", start, "ending")
        tests.same(f"a kernel that ends so: {wanted}", (status, out, f"kernelyet: {wanted}" in said.splitlines()[-1]),
                   (1, text.decode().replace("\r\n", "\n"), True))


ALL = (test_endings, test_likely_cause, test_small_kernels)
