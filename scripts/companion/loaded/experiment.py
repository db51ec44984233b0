"""kernelyet guest --loaded: a guest loads a next kernel; its list is read, judged and run here, the guest runs it too, and
each destination page is compared at the first instruction of the new image."""
import glob
import hashlib
import os
import re
import shutil
import tempfile

from companion import program, qemu
from companion.loaded import comparison, findings, guest_disk, many_runs, output, sources, spoils, tell
from companion.loaded.guest_machine import Guest
from companion.memory_files import Memory
from companion.numbers import PAGE, address, counted
from companion.parsers import Parser, integer
from companion.refusals import NothingTried, Wrong
from companion.written import to_write

TEXT = """Boots a guest in QEMU, which loads a next kernel by kexec. The guest stands
still; its memory is dumped, and `loaded` reads the image from the dump; `check`
and `exec` of the program judge and run it. Then the guest runs it, by kexec -e
or by a panic, and stops at the first instruction of the new image. Each page
of its memory that the image is to have is compared with OUT of `exec`."""
EPILOG = """Each line says a step and what it showed; the last line is the row of a table.
Status 0 where the list is accepted, no page differs, and each spoiled word was
told; else 1."""


def parser():
    words = Parser("guest --loaded", "[OPTIONS]", TEXT, EPILOG)
    words.option("kernel", "the guest's kernel, a bzImage with a serial console built in (the newest /boot/vmlinuz-*)",
                 "FILE", default=max(glob.glob("/boot/vmlinuz-*"), default=""))
    words.option("next", "the kernel that the guest loads (its own)", "FILE")
    words.option("module", "with --way multiboot: the kernel that Xen starts (the guest's own)", "FILE")
    words.option("way", "load: kexec -c -l; file: kexec -s -l; crash: kexec -c -p; crash-file: kexec -s -p; multiboot: kexec "
                 "-c -l of a Multiboot kernel; vmcore: kexec -c -l and -c -p, and the crash kernel reads from /proc/vmcore "
                 "what the guest had loaded", "WAY", default="load", choices=list(guest_disk.LOADS))
    words.option("nokaslr", "start the guest's kernel with nokaslr")
    words.option("append", "more words for the guest's kernel", "TEXT", default="")
    for name, what, usual in (("ram", "MiB of RAM", 512), ("area", "MiB of the area for a crash kernel", 160),
                              ("processors", "how many processors", 1), ("noise", "MiB of noise in the next initrd", None),
                              ("seconds", "how long the guest may take for a step", 600)):
        words.option(name, f"{what} ({usual or 'none'})", "N", type=integer, default=usual or 0)
    words.option("cpu", "the processor, as QEMU names it (max, with which page tables have 5 levels)", "CPU", default="max")
    words.option("loader", "the program kexec (/sbin/kexec)", "FILE", default="/sbin/kexec")
    words.option("busybox", "a static busybox (/bin/busybox)", "FILE", default="/bin/busybox")
    words.option("makedumpfile", "with --way vmcore: let the crash kernel read what this program makes of its /proc/vmcore too",
                 "FILE")
    words.option("inside", "let the guest read its own memory too, by /proc/kcore, and compare the files")
    words.option("whole", "compare all of RAM too, from the moment at which no other code of the old kernel runs")
    words.option("spoil", "spoil the list in the guest's memory first, by one word after another, and say what tells it")
    words.option("on", "let the next kernel come up")
    words.option("keep", "keep the files, but for the guest's RAM", "FOLDER")
    words.option("runs", "make many runs: each line of the file has the options of one; their table is printed behind them",
                 "FILE")
    words.option("together", "with --runs: how many at once (1)", "N", type=integer, default=1)
    return words


class Story:
    """One guest, from its start to the first instruction of the image."""

    def __init__(self, given, folder, guest):
        self.given, self.folder, self.guest = given, folder, guest
        self.is_crash = given.way in ("crash", "crash-file")

    def load(self):
        """Waits until the guest has loaded the image; its memory stands still from then on."""
        if not self.guest.wait_for("STORY ready", self.given.seconds):
            raise Wrong(f"the guest is not ready: {self.guest.text()[-400:]}")
        self.stub = self.guest.hold()
        told = re.search("STORY kexec status (.*)", self.guest.text())[1]
        tell.step(f"the guest has loaded by kexec {guest_disk.LOADS[self.given.way].partition(' /')[0]}: status {told}")
        if not told.startswith("0 "):
            raise Wrong(f"kexec failed in the guest: {self.guest.text().partition('STORY kexec')[0][-400:].strip()}")

    def read(self):
        """Dumps the guest's memory, and reads the image from the dump as `loaded` does."""
        self.guest.ask("dump-guest-memory", paging=False, protocol=f"file:{self.folder}/guest.core")
        self.kernel, rows = sources.of_dump(sources.Dump(core=f"{self.folder}/guest.core"))
        self.found = findings.find(self.kernel, self.is_crash, self.given.loader)
        output.write(f"{self.folder}/loaded", self.kernel, self.found, rows)
        tell.findings(self.kernel, self.found, False)
        for number, page, what in self.found.touched:
            tell.step(f"word {number} touches page {address(page * PAGE)}, {what}")

    def compare_maps(self):
        said = self.guest.text().partition("BEGIN map\n")[2].partition("END map\n")[0]
        with open(f"{self.folder}/loaded/map") as file:
            is_same = file.read() == said
        tell.step(f"the map from its memory is {'the text' if is_same else 'NOT the text'} of its /proc/iomem")

    def compare_files(self, where, what):
        """Compares the files with those that were made in the guest; whether they are the same."""
        text, own = self.guest.text(), []
        status = re.findall(f"STORY {where} status ([0-9]+)", text)
        if status != ["0"]:
            # 137 is that of a reader that the kernel has killed, for want of memory
            tell.step(f"{what}: NOT READ, status {' '.join(status) or 'unknown'}")
            return False
        for name in ("memory.kxmem", "record", "map"):
            with open(f"{self.folder}/loaded/{name}", "rb") as file:
                own.append(hashlib.sha256(file.read()).hexdigest())
        is_same = re.search(f"STORY {where} digests (.*)", text)[1].split() == own
        tell.step(f"{what}: {'the same three files, byte for byte' if is_same else 'OTHER FILES'}")
        return is_same

    def spoil(self):
        """Spoils the list in the guest's memory, by one word after another; whether each was told. The list is whole again
        behind it."""
        memory, folder, are_told = self.guest.physical(), f"{self.folder}/spoiled", True
        for row in spoils.spoils_of(self.found, memory):
            before = memory.word(row.place)
            spoils.write(self.guest.memory, row.place, row.value)
            kernel = self.kernel.over(self.guest.physical())
            found = findings.find(kernel, self.is_crash, self.given.loader)
            output.write(folder, kernel, found, ())
            told = comparison.fault_of(folder, found)
            spoils.write(self.guest.memory, row.place, before)
            tell.step(f"spoiled: {row.what}: {told or 'NOT TOLD'}")
            are_told = are_told and bool(told)
        return are_told

    def panic(self):
        """Lets the guest panic, and its crash kernel read what the guest had loaded; whether it reads the same."""
        self.guest.leave()
        self.stub.go()
        if not self.guest.wait_for("STORY next kernel ends", self.given.seconds):
            raise Wrong(f"the crash kernel did not come up: {self.guest.text()[-400:]}")
        is_same = self.compare_files("vmcore", "read in the crash kernel from /proc/vmcore")
        if self.given.makedumpfile:
            is_same &= self.compare_files("makedumpfile", "read there from what makedumpfile -c -d 31 makes of it")
        return is_same

    def judge(self):
        """Lets the program check the list and run it; whether it is accepted, and with the regions that it must have."""
        place = f"{self.folder}/loaded"
        is_accepted, told = comparison.run("check", f"{place}/memory.kxmem", f"{place}/record")
        if not is_accepted:
            return False
        is_done, told = comparison.run("exec", f"{place}/memory.kxmem", f"{place}/record", f"{self.folder}/out.kxmem")
        return is_done and "regions differ" not in told

    def is_entered(self):
        """Whether a processor is at the first instruction of the image: in the kernel, with the image's page tables."""
        image = self.found.image
        return any(cpu.rip == image.start and cpu.level == 0 and cpu.cr3 // PAGE == image.top for cpu in self.guest.cpus())

    def run(self):
        """Lets the guest run the list up to the first instruction of the image, and compares; how many pages differ."""
        wanted, out = self.found.wanted(), Memory(f"{self.folder}/out.kxmem")
        before = comparison.differing(self.guest.physical(), wanted, out)
        self.guest.leave()
        moment = comparison.Moment(self) if self.given.whole else None
        self.stub.go_to(self.found.image.start, self.is_entered, self.given.seconds)
        tell.step(f"the guest is at the first instruction of the image, {address(self.found.image.start)}")
        differ = comparison.differing(self.guest.physical(), wanted, out)
        tell.step(f"{counted(len(wanted), 'destination page')} compared with OUT of exec: {len(differ)} differ (before the "
                  f"run {len(before)} did)" + "".join(f"; {address(page * PAGE)}" for page in differ[:8]))
        whole = moment.compare() if moment else None
        self.row(len(before), len(differ), len(wanted), whole)
        return len(differ)

    def row(self, before, differ, wanted, whole):
        """Prints the row of a table of runs."""
        given, found = self.given, self.found
        size = sum(row.bufsz for row in found.segments) >> 20
        how = {True: "exchanges", False: "copies", None: "-"}[found.is_exchange]
        words = [self.kernel.release, given.way, f"{given.ram} MiB", "no" if given.nokaslr else "yes", self.kernel.levels,
                 f"{len(found.segments)}, {size} MiB", how, len(found.words), before, wanted, differ,
                 "-" if whole is None else f"{whole[0]}, {whole[1]}"]
        print(f"| {' | '.join(map(str, words))} |", flush=True)

    def go_on(self):
        """Lets the next kernel come up."""
        self.stub.go()
        did = self.guest.wait_for("STORY next kernel runs", self.given.seconds)
        tell.step("the next kernel came up" if did else f"the next kernel did NOT come up: {self.guest.text()[-200:]!r}")
        return did


def tell_story(given, folder):
    """Follows one guest; whether all was as it must be."""
    inner = guest_disk.next_initrd(given)
    with to_write(f"{folder}/initrd") as out:
        out.write(guest_disk.initrd(given, inner))
    with Guest(folder, given, f"{folder}/initrd") as guest:
        try:
            return follow(Story(given, folder, guest), given)
        finally:
            with to_write(f"{folder}/console", True) as out:
                out.write(guest.text())


def follow(story, given):
    """The steps of a story."""
    story.load()
    story.read()
    story.compare_maps()
    is_good = not given.inside or story.compare_files("kcore", "read inside the guest from /proc/kcore")
    is_good = (not given.spoil or story.spoil()) and is_good
    is_good = story.judge() and is_good
    if given.way == "vmcore":
        return story.panic() and is_good
    return is_good and story.run() == 0 and (not given.on or story.go_on())


def main(arguments):
    words = parser()
    given = words.parse_args(arguments)
    if given.runs:
        common = [f"--loader={given.loader}", f"--busybox={given.busybox}", f"--seconds={given.seconds}"]
        return 0 if many_runs.tell(given.runs, common, given.together) else 1
    given.next = given.next or given.kernel
    given.module = (given.module or given.kernel) if given.way == "multiboot" else None
    files = [("kernel (--kernel)", given.kernel), ("next kernel (--next)", given.next), ("kexec (--loader)", given.loader),
             ("static busybox (--busybox)", given.busybox)]
    lacks = [qemu.QEMU] * (not shutil.which(qemu.QEMU)) + [what for what, path in files if not os.path.isfile(path)]
    if lacks:
        raise NothingTried(f"nothing was tried: there is no {', no '.join(lacks)}")
    program.ready()
    with tempfile.TemporaryDirectory(prefix="kernelyet-loaded-") as folder:
        try:
            is_good = tell_story(given, folder)
        finally:
            if given.keep:
                left_out = shutil.ignore_patterns("qmp", "gdb", "go", "ram")
                shutil.copytree(folder, given.keep, dirs_exist_ok=True, ignore=left_out)
    return 0 if is_good else 1
