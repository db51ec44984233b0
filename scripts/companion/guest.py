"""kernelyet guest: the way from a guest to its vmcore, in QEMU, from nothing."""
import glob
import hashlib
import itertools
import json
import os
import re
import shutil
import struct
import subprocess
import sys
import tempfile

from companion import core_readers, maps, program, qemu
from companion.guest_initrd import make_initrd, said_between
from companion.loaded import experiment
from companion.numbers import size_text
from companion.parsers import Parser, integer, mebibytes
from companion.progress import Progress, growth
from companion.records import Record
from companion.refusals import NothingTried
from companion.words import name_called
from companion.written import to_write

# On a busy machine the timer of an emulated one may come late, which is no fault of its interrupt controller.
COMMAND = "console=ttyS0 no_timer_check"
# this command itself, whose words the story runs
SELF = os.path.realpath(sys.argv[0])
TEXT = """Follows a guest from its panic to its vmcore, in QEMU, from nothing. A guest
boots with an area reserved by crashkernel=, and panics; its map, notes and
memory are taken out. Then

1. `machine` makes map, pool and memory of them;
2. `load` and `exec` put the next kernel into that memory, and `try` boots it;
3. `load-panic` puts a crash kernel into the reserved area, with the command line
   that `plan --crash` fills in; the machine crashes by being started there, and
   the crash kernel shows /proc/vmcore of the old system;
4. `core` writes the core file at once, and what reads core files reads it:
   readelf, eu-readelf, gdb, makedumpfile, crash. Each line of the guest's serial
   line is in its log, and its last range of memory is the bytes that the crash
   kernel showed."""
EPILOG = """KERNEL is a bzImage with a serial console, initrd and crash dump support built
in, as Debian's linux-image-amd64 has it. Nothing is kept, but in --keep FOLDER.
Where a reader of core files is missing, that is said, and its step is skipped.
Each line says a step and what it showed. Status 0 where no step failed, else 1;
2 where nothing was tried, for want of QEMU, gcc, ld or a file."""


def parser():
    words = Parser("guest", "[OPTIONS]", TEXT, EPILOG)
    words.option("kernel", "the kernel of all; the newest /boot/vmlinuz-* without it", "FILE",
                 default=max(glob.glob("/boot/vmlinuz-*"), default=""))
    words.option("vmlinux", "the same kernel with its debugging information, which crash needs to read the log", "FILE")
    words.option("busybox", "a static busybox; /bin/busybox without it", "FILE", default="/bin/busybox")
    words.option("ram", "the guest's RAM; 512M without it", "SIZE", type=mebibytes, default=512)
    words.option("crash", "its crash area; 160M without it", "SIZE", type=mebibytes, default=160)
    words.option("seconds", "how long one machine may run; 600 without it", "N", type=integer, default=600)
    words.option("keep", "keep all files in this folder", "FOLDER")
    words.option("loaded", "let a guest run a list that its own kexec loaded, and compare its memory with OUT of exec: "
                 "another story, with options of its own (guest --loaded --help)")
    return words


class Story:
    def __init__(self, given, folder):
        self.given, self.folder, self.failed, self.console = given, folder, 0, ""
        shutil.copyfile(given.kernel, f"{folder}/vmlinuz")
        make_initrd(f"{folder}/initrd", given.busybox)

    def say(self, what, is_good=True):
        self.failed += not is_good
        print(f"{name_called()} guest: {what if is_good else f'FAILED: {what}'}", flush=True)
        return is_good

    def run(self, words, given=None, is_quiet=False):
        """Runs a word of this command in the folder; whether it ended well, and what it printed."""
        with Progress(" ".join(words[:2])):
            ended = subprocess.run([SELF, *words], cwd=self.folder, input=given or "", capture_output=True, text=True,
                                   errors="replace")
        lines = (ended.stderr if is_quiet else ended.stdout + ended.stderr).splitlines()
        print("".join(f"    {line}\n" for line in lines
                      if words[0] != "try" or "STORY" in line or line.startswith(name_called())), end="")
        return self.say(f"{' '.join(words)}: status {ended.returncode}", ended.returncode == 0), ended.stdout

    def take_guest(self):
        """Boots the guest until it panics, and takes its map, notes and memory."""
        # no KASLR, and 4-level paging: makedumpfile and gdb go by the addresses in the crash headers
        command = f"{COMMAND} crashkernel={self.given.crash}M nokaslr no5lvl story=guest panic=0"
        words = ["-kernel", f"{self.folder}/vmlinuz", "-initrd", f"{self.folder}/initrd", "-append", command]
        with tempfile.TemporaryDirectory(dir=self.folder) as place:
            with qemu.Machine(place, self.given.ram, words, False) as guest:
                with Progress("the guest boots, and panics"):
                    is_down = guest.wait_for("end Kernel panic", self.given.seconds)
                if not is_down:
                    self.say(f"the guest did not panic: {guest.said[-300:].decode(errors='replace')}", False)
                    return False
                for name in ("map", "notes"):
                    with to_write(f"{self.folder}/guest-{name}", True) as out:
                        out.write(said_between(guest.said, name))
                self.console = guest.said.decode(errors="replace").replace("\r", "")
                guest.ask("stop")
                dump = f"{self.folder}/guest.core"
                with Progress("dumping its memory", growth([dump], self.given.ram << 20)):
                    guest.ask("dump-guest-memory", paging=False, protocol=f"file:{dump}")
        lines = {name: open(f"{self.folder}/guest-{name}").read().count("\n") for name in ("map", "notes")}
        return self.say(f"the guest panicked: {lines['map']} lines of its map, {lines['notes']} notes, its memory has "
                        f"{size_text(os.path.getsize(f'{self.folder}/guest.core'))}")

    def boot_next(self):
        command = f"{COMMAND} story=next panic=-1"
        loaded, _ = self.run(["load", "--map", "guest/map", "--initrd", "initrd", "--command", command,
                              "guest/memory.kxmem", "guest/pool", "loaded.kxmem", "loaded.record", "vmlinuz"])
        if not loaded:
            return
        self.run(["look", "record", "loaded.record"])
        ran, start = self.run(["exec", "loaded.kxmem", "loaded.record", "after.kxmem"])
        if ran:
            _, said = self.run(["try", "--seconds", str(self.given.seconds), "after.kxmem"], start)
            self.say("the next kernel came up", "STORY next kernel runs" in said)

    def crash(self):
        """Loads the crash kernel and starts it in the memory of the guest. Answers the address of its headers, and the digest
        of the last range of memory in /proc/vmcore."""
        first, end = maps.ranges_outside_crash_areas(self.rows())[-1]
        done, said = self.run(["plan", "--json", "--crash", "--map", "guest/map", "--notes", "guest-notes", "--command",
                               f"{COMMAND} story=crash last={end - first} panic=-1", "vmlinuz", "initrd"], is_quiet=True)
        if not done:
            return None
        command = json.loads(said)["command"]
        done, start = self.run(["load-panic", "--map", "guest/map", "--notes", "guest-notes", "--initrd", "initrd",
                                "--command", command, "guest/memory.kxmem", "crash.kxmem", "crash.record", "vmlinuz"])
        if not done:
            return None
        _, said = self.run(["try", "--seconds", str(self.given.seconds), "crash.kxmem"], start)
        self.say("the crash kernel came up", "STORY crash kernel runs" in said)
        self.say("the crash kernel shows a vmcore of the guest", "STORY vmcore OSRELEASE" in said)
        record = Record(f"{self.folder}/crash.record")
        digest = re.search("STORY vmcore ends in ([0-9a-f]*)", f"{said}STORY vmcore ends in")[1]
        return record.named("crash headers").mem, digest

    def rows(self):
        return maps.read_map(f"{self.folder}/guest-map")[1]

    def read_core(self, headers, digest):
        """Writes the core file, and lets its readers read it."""
        if not self.run(["core", "crash.kxmem", "vmcore", f"{headers:x}"])[0]:
            return
        with open(f"{self.folder}/vmcore", "rb") as core:
            head = core.read(1 << 20)
            place, _, _, size = struct.unpack_from("<4Q", head, 64 + 8)
            told, rows = core_readers.information(head[place:]), core_readers.wanted_rows(self.rows(), size)
            core.seek(rows[-1][1])
            last = hashlib.sha256(core.read()).hexdigest()
        self.say("the last range of memory is as the crash kernel showed it", last == digest)
        vmlinux = self.given.vmlinux and os.path.abspath(self.given.vmlinux)
        for what, fault in itertools.chain(
            core_readers.rows(self.folder, "vmcore", rows),
            core_readers.release(self.folder, "vmcore", told),
            core_readers.messages(self.folder, "vmcore", self.console),
            core_readers.crash_release(self.folder, "vmcore", told),
            core_readers.crash_log(self.folder, "small-core", told, self.console, vmlinux),
        ):
            self.say(f"{what}: {fault or 'as it must be'}", fault is None)


def tell(given):
    with tempfile.TemporaryDirectory(prefix="kernelyet-guest-") as folder:
        story = Story(given, folder)
        if story.take_guest() and story.run(["machine", "--map", "guest-map", "--core", "guest.core", "guest"])[0]:
            story.boot_next()
            crashed = story.crash()
            if crashed:
                story.read_core(*crashed)
        if given.keep:
            shutil.copytree(folder, given.keep, dirs_exist_ok=True)
    print(f"{name_called()} guest: {story.failed} steps failed")
    return 1 if story.failed else 0


def main(arguments):
    if "--loaded" in arguments:
        return experiment.main([word for word in arguments if word != "--loaded"])
    given = parser().parse_args(arguments)
    lacks = [tool for tool in (qemu.QEMU, "gcc", "ld") if not shutil.which(tool)]
    named = [("kernel", given.kernel), ("busybox", given.busybox), ("vmlinux", given.vmlinux)]
    lacks += [f"{what} {file or ''}".rstrip() + f" (--{what})" for what, file in named
              if file is not None and not os.path.isfile(file)]
    if lacks:
        raise NothingTried(f"nothing was tried: there is no {', no '.join(lacks)}")
    program.ready()
    return tell(given)
