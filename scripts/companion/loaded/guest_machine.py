"""A guest in QEMU that loads a next kernel: its gdb stub, its processors, and its memory."""
import os
import re
from typing import NamedTuple

from companion import qemu
from companion.loaded.gdb_stub import Stub
from companion.loaded.physical import Physical

# the ways of loading that need an area for a crash kernel
CRASHES = ("crash", "crash-file", "vmcore")
# Where QEMU gets too little time, Linux finds that the timer "doesn't work", and panics; a guest that panics ends at once.
STEADY = ("no_timer_check", "panic=-1")


class Cpu(NamedTuple):
    """What the monitor says of a processor."""

    rip: int
    cr3: int
    level: int


class Guest(qemu.Machine):
    """A guest. `given` has its kernel, way, RAM, processors and more, as the command line gives it. It waits for a line on
    its second serial line before it leaves its kernel."""

    def __init__(self, folder, given, initrd):
        words = [
            "-cpu", given.cpu, "-smp", str(given.processors), "-kernel", given.kernel, "-initrd", initrd,
            "-append", command_line(given), "-gdb", f"unix:{folder}/gdb,server=on,wait=off",
            "-chardev", f"socket,id=go,path={folder}/go,server=on,wait=off", "-serial", "chardev:go",
        ]
        super().__init__(folder, given.ram, words, False)
        self.line = self.connect("go")

    def text(self):
        return self.said.decode(errors="replace").replace("\r", "")

    def hold(self):
        """Lets the guest stand still, and answers its gdb stub."""
        return Stub(self.connect("gdb"))

    def leave(self):
        """Lets the guest leave its kernel, once it goes on."""
        self.line.sendall(b"go\n")

    def cpus(self):
        """Each processor, while the guest stands still."""
        told = self.ask("human-monitor-command", **{"command-line": "info registers -a"})
        found = zip(*(re.findall(form, told) for form in ("RIP=([0-9a-f]+)", "CR3=([0-9a-f]+)", "CPL=([0-9])")))
        return [Cpu(int(rip, 16), int(cr3, 16), int(level)) for rip, cr3, level in found]

    def physical(self):
        """The guest's memory, as it is."""
        return physical(self.memory)


def physical(path):
    """Memory, over a file of a guest's RAM."""
    size = os.path.getsize(path)
    low = min(size, qemu.LOW_END)
    return Physical(path, [(0, 0, low, low)] + [(qemu.HIGH, low, size - low, size - low)] * (size > low))


def command_line(given):
    """The command line of the guest's kernel."""
    words = ["console=ttyS0", "quiet", f"way={given.way}", *STEADY]
    words += ["inside=yes"] * given.inside + [f"crashkernel={given.area}M"] * (given.way in CRASHES)
    return " ".join(words + ["nokaslr"] * given.nokaslr + given.append.split())
