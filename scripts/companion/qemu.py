"""A virtual machine of QEMU: its console, its monitor, its memory as a file."""
import json
import os
import socket
import subprocess
import sys
import threading
import time

from companion import endings
from companion.numbers import PAGE, runs, span
from companion.progress import Silence
from companion.refusals import NothingTried, Wrong
from companion.written import to_write

QEMU = "qemu-system-x86_64"
# This machine has no RAM between 3 and 4 GiB, and none that can be laid between 640 KiB and 1 MiB.
LOW_END, HIGH, HOLE = 3 << 30, 1 << 32, (0xA0000, 0x100000)
MIB = 1 << 20


def ram_for(memory):
    """The MiB of RAM of a machine that has RAM well above the highest page of a memory file."""
    ends = [(page + 1) * PAGE for page in memory.place]
    ends = [end if end <= LOW_END else end - HIGH + LOW_END for end in ends if end <= LOW_END or end > HIGH]
    return max(512, (max(ends, default=0) // (64 * MIB) + 3) * 64)


def offset_of(page, ram):
    """Where a page lies in the file of a machine's memory of so many MiB; None where it is not RAM."""
    address = page * PAGE
    low = min(ram * MIB, LOW_END)
    if address < low:
        return None if HOLE[0] <= address < HOLE[1] else address
    high = address - HIGH + LOW_END
    return high if address >= HIGH and high < ram * MIB else None


class Machine:
    """A machine that runs until it is closed or turns itself off. What its serial line says is kept, and passed on."""

    def __init__(self, folder, ram, words, is_told=True):
        self.folder, self.ram, self.is_told, self.said = folder, ram, is_told, b""
        self.silence = Silence()
        self.memory, self.reason = f"{folder}/ram", None
        with to_write(self.memory) as file:
            file.truncate(ram * MIB)
        words = [
            QEMU, "-cpu", "max", "-m", str(ram), "-machine", "pc,memory-backend=ram,max-ram-below-4g=3G",
            "-object", f"memory-backend-file,id=ram,size={ram}M,mem-path={self.memory},share=on",
            "-display", "none", "-monitor", "none", "-nic", "none", "-no-reboot",
            "-chardev", "stdio,id=console,signal=off", "-serial", "chardev:console",
            "-qmp", f"unix:{folder}/qmp,server=on,wait=off", *words,
        ]
        try:
            self.run = subprocess.Popen(words, stdin=subprocess.DEVNULL, stdout=subprocess.PIPE, stderr=subprocess.PIPE)
        except OSError:
            raise NothingTried(f"there is no {QEMU}: Debian's package qemu-system-x86 has it") from None
        self.reader = threading.Thread(target=self._read, daemon=True)
        self.reader.start()
        self.events, self.answers = [], self.connect("qmp").makefile("rw", encoding="utf-8")
        self.answers.readline()
        self.ask("qmp_capabilities")

    def __enter__(self):
        return self

    def __exit__(self, *_):
        self.run.kill()
        self.run.wait()
        self.reader.join(5)

    def _read(self):
        for data in iter(lambda: self.run.stdout.read1(4096), b""):
            self.said += data
            if self.is_told:
                self.silence.end()
                sys.stdout.buffer.write(data)
                sys.stdout.buffer.flush()

    def connect(self, name):
        """Connects to a socket of the machine, which may not be there yet."""
        for _ in range(600):
            line = socket.socket(socket.AF_UNIX)
            try:
                line.connect(f"{self.folder}/{name}")
                return line
            except OSError:
                line.close()
                if self.run.poll() is not None:
                    raise Wrong(f"{QEMU} ended: {self.run.stderr.read().decode(errors='replace').strip()}") from None
                time.sleep(0.1)
        raise Wrong(f"{QEMU} does not answer")

    def ask(self, command, **arguments):
        """Gives the monitor a command, and waits for its answer."""
        try:
            json.dump({"execute": command, "arguments": arguments}, self.answers)
            self.answers.flush()
            for line in self.answers:
                answer = json.loads(line)
                if "error" in answer:
                    raise Wrong(f"QEMU's {command}: {answer['error']['desc']}")
                if "return" in answer:
                    return answer["return"]
                self.events.append(answer)
        except ConnectionError:
            pass
        raise Wrong(f"QEMU went away in {command}")

    def wait_for(self, text, seconds):
        """Waits until the serial line has said a text; whether it has."""
        end = time.monotonic() + seconds
        while text.encode() not in self.said:
            if time.monotonic() > end or self.run.poll() is not None:
                return text.encode() in self.said
            time.sleep(0.2)
        return True

    def wait_for_end(self, seconds):
        """Waits until the machine has ended, or its kernel has said that it goes no further: None where it turned itself off,
        else why not."""
        end, seen = time.monotonic() + seconds, 0
        while self.run.poll() is None:
            # what was said last may be the end of a line that began before
            new, seen = self.said[max(0, seen - 1024) :], len(self.said)
            if endings.is_halted(new):
                return "the kernel halted the machine, and did not turn it off"
            if endings.is_over(new):
                return endings.panic_of(self.said) or "the kernel panicked"
            if endings.panic_of(new):
                end = min(end, time.monotonic() + endings.AFTER_PANIC)
            if time.monotonic() > end:
                silent = "" if self.said else (", and said nothing on its serial line: a Linux kernel does so where its "
                                               "command line has no console=ttyS0")
                return endings.panic_of(self.said) or f"the machine did not turn itself off in {seconds} seconds{silent}"
            self.silence.tell(self.said)
            time.sleep(0.2)
        self.reader.join(5)
        found = [json.loads(line) for line in self.answers if line.strip()]
        reasons = [event["data"]["reason"] for event in [*self.events, *found] if event.get("event") == "SHUTDOWN"]
        return endings.by_reason(self.said, reasons)

    def lay(self, memory, keep):
        """Lays the pages of a memory file into the machine's memory. Answers the pages for which it has no RAM or that
        are kept, and those that the firmware wrote though the file has none of them."""
        missing, foreign = [], []
        with open(self.memory, "r+b") as ram:
            for page in memory.place:
                offset = offset_of(page, self.ram)
                if offset is None or page in keep:
                    missing.append(page)
                else:
                    ram.seek(offset)
                    ram.write(memory.page(page))
            ram.flush()
            for page in pages_with_data(ram):
                if page not in memory.place and page not in keep and offset_of(page, self.ram) is not None:
                    foreign.append(page)
        return missing, foreign


def pages_with_data(file):
    """The pages of a machine's memory that are not all zeros."""
    at, none = 0, bytes(PAGE)
    while True:
        try:
            at = os.lseek(file.fileno(), at, os.SEEK_DATA)
        except OSError:
            return
        end = os.lseek(file.fileno(), at, os.SEEK_HOLE)
        for offset in range(at // PAGE * PAGE, end, PAGE):
            if os.pread(file.fileno(), PAGE, offset) != none:
                yield (offset if offset < LOW_END else offset + HIGH - LOW_END) // PAGE
        at = end


def spans_text(pages):
    """Runs of pages, the first few of them."""
    found = [span(first, last) for first, last in runs(pages)]
    return ", ".join(found[:6]) + f" and {len(found) - 6} more runs" * (len(found) > 6)
