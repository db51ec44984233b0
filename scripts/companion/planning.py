"""A load over an empty memory, by the proved program, in a temporary folder: what `plan` and `picture` ask of."""
import os
import re
import shutil
import tempfile

from companion import maps, pools, program
from companion.initrds import Unpacked
from companion.kernels import Kernel, front_of, kind_of
from companion.memory_files import write_memory
from companion.numbers import END, PAGE, common, counted, number_of, size_of, size_text
from companion.progress import Progress
from companion.records import Record
from companion.refusals import Wrong

IOMEM = "/proc/iomem"
MADE_UP = 4 << 30
# the only memory below 1 MiB that a crash kernel is told of
LOW_MEMORY = "memmap=0x9e000@0x1000"
# What a refusal of the program says of this very command, and where it is one for want of a place.
OF_PLAN = "; for a Linux kernel, kernelyet plan "
OF_PLACES = ("there is no place for", "cannot be placed")
# The exit statuses of the program that say: no plan, too few pages.
NO_PLAN, NO_PAGES = 8, 9


# What a plan has in place of options of kexec(8).
COUNTERPARTS = {"--append": "--command", "--command-line": "--command", "--initrd": "INITRD, the file behind KERNEL",
                "--ramdisk": "INITRD, the file behind KERNEL", "-p": "--crash", "--load-panic": "--crash"}


def options(words):
    """The options of a plan."""
    words.counterparts = COUNTERPARTS
    words.word_of("KERNEL", "the Linux kernel, a bzImage, as /boot/vmlinuz-*")
    words.word_of("INITRD", "its initial RAM disk", nargs="?")
    words.option("map", "the map of the machine, the text of /proc/iomem read as root; this machine's without it", "FILE")
    words.option("ram", "a made-up PC with so much RAM, up to 63T, in place of a map", "SIZE")
    words.option("crash", "as a crash kernel: in the crash area of the map, or in one of SIZE that crashkernel=SIZE would "
                 "reserve", "SIZE", nargs="?", const="")
    words.option("command", "the command line of the kernel", "TEXT", default="")
    words.option("pool", "the free pages; without it all free RAM from 1 MiB on, the highest first", "FILE")
    words.option("notes", "the notes of the running kernel, with --crash", "FILE")
    words.option("purgatory", "the purgatory, an object of your own", "FILE")
    words.option("below", "take only pages of the pool below this address", "ADDRESS")


def marked(arguments):
    """The arguments, in which a --crash that no size follows is one without a value."""
    found = []
    for at, word in enumerate(arguments):
        follows = arguments[at + 1] if at + 1 < len(arguments) else ""
        is_bare = word == "--crash" and not re.fullmatch(r"\d+[KMGTkmgt]?(iB)?", follows)
        found.append("--crash=" if is_bare else word)
    return found


def check_options(words, given):
    """Refuses options that do not go together."""
    if given.map and given.ram:
        words.error("--map cannot be given with --ram: a machine has one memory")
    is_crash = given.crash is not None
    if is_crash and (given.pool or given.below):
        words.error("a crash kernel takes no pages of a pool: leave --pool and --below out")
    if given.notes and not is_crash:
        words.error("--notes is for a crash kernel: add --crash")


class Machine:
    """The machine of a plan: its map and where it is from."""

    def __init__(self, given):
        self.source = given.map or IOMEM
        if given.ram:
            self.make_up(size_of(given.ram, "--ram"), f"a made-up PC with {size_text(size_of(given.ram))} of RAM")
        elif given.map:
            self.rows = maps.read_map(given.map)[1]
        else:
            try:
                self.rows = maps.read_map(IOMEM)[1]
                self.source = f"this machine ({IOMEM})"
            except (OSError, Wrong):
                self.make_up(MADE_UP, f"a made-up PC with {size_text(MADE_UP)} of RAM, since the map of this machine is "
                             "shown to root alone")

    def make_up(self, ram, source):
        self.rows, self.source = maps.made_up(ram), source

    def with_crash(self, size):
        """Gives the map a crash area of this size, in place of its own."""
        rows = maps.with_crash(self.rows, size)
        if rows is None:
            raise Wrong(f"there is no free RAM below 4 GiB for a crash area of {size_text(size)}: --crash takes less here")
        self.rows = rows


def read_kernel(path):
    """The kernel of a plan; what is not one is refused by what it is."""
    kind = kind_of(front_of(path))
    if kind != "bzimage":
        what = kind or "no kernel that is known"
        more = ", and an initrd is given behind the kernel" * what.startswith(("compressed by", "a cpio archive"))
        raise Wrong(f"{path} is {what}: give a bzImage for x86-64, the vmlinuz of a distribution{more}")
    return Kernel(path)


class Plan:
    """A load of a Linux kernel over an empty memory: what came of it."""

    def __init__(self, given, machine, folder):
        self.given, self.machine, self.folder = given, machine, folder
        self.is_crash, self.command = given.crash is not None, given.command
        self.limit = number_of(given.below, 16, "--below") if given.below else END
        self.kernel = read_kernel(given.kernel)
        with Progress("unpacking the initrd, to count its bytes"):
            self.initrd = Unpacked(given.initrd) if given.initrd else None
        self.record = self.refusal = self.pool = None
        self.status = 0

    def prepare(self):
        """Lays the map, the pool and an empty memory into the folder."""
        maps.write_map(f"{self.folder}/map", self.machine.rows)
        write_memory(f"{self.folder}/memory.kxmem")
        if self.is_crash:
            return
        if self.given.pool:
            self.pool = pools.read_pool(self.given.pool)
            shutil.copyfile(self.given.pool, f"{self.folder}/pool")
            return
        free = maps.from_1_mib(maps.free_runs(self.machine.rows))
        pools.write_pool(f"{self.folder}/pool", common(free, [(0, self.limit // PAGE)]), True)
        self.pool = pools.read_pool(f"{self.folder}/pool")

    def words(self):
        """The words of the load."""
        given = self.given
        words = ["load-panic"] if self.is_crash else ["load", "--type", "bzimage"]
        words += ["--map", "map"]
        for name in ("initrd", "notes", "purgatory"):
            if getattr(given, name):
                words += [f"--{name}", os.path.abspath(getattr(given, name))]
        words += ["--below", f"{self.limit:x}"] if given.below else []
        words += [f"--command={self.command}"] if self.command else []
        pool = [] if self.is_crash else ["pool"]
        return [*words, "memory.kxmem", *pool, "loaded.kxmem", "loaded.record", os.path.abspath(given.kernel)]

    def names(self):
        """What the user calls the files by whose names the program is called; those that were not given, by what they are or
        where they lie."""
        given = self.given
        names = {name: f"{self.folder}/{name}" for name in ("memory.kxmem", "loaded.kxmem", "loaded.record")}
        names.update(map=self.machine.source, pool=given.pool or "all free RAM from 1 MiB on")
        names.update({os.path.abspath(path): path for path in (given.initrd, given.notes, given.purgatory, given.kernel) if path})
        return names

    def refusal_of(self, said):
        """The sentence of a refusal, in which the files have the names that were given."""
        sentence = program.sentence(said).partition(OF_PLAN)[0]
        quoted = {f'"{name}"': f'"{known}"' for name, known in self.names().items()}
        return re.sub("|".join(map(re.escape, quoted)), lambda found: quoted[found[0]], sentence)

    def load_once(self):
        with Progress("loading the kernel into an empty memory"):
            self.status, _, said = program.run(self.words(), self.folder)
        if self.status == 0:
            self.record = Record(f"{self.folder}/loaded.record")
            return
        self.record, self.refusal = None, self.refusal_of(said)
        is_for_places = self.status == NO_PLAN and any(text in self.refusal for text in OF_PLACES)
        if self.status != NO_PAGES and not is_for_places:
            raise Wrong(self.refusal)

    def headers_words(self):
        """The words of the command line by which the headers of this load are no memory of the crash kernel."""
        headers = self.record.named("crash headers")
        if headers is None:
            raise Wrong("the load record has no crash headers")
        return f"memmap=4K${headers.mem:#x}"

    def load(self):
        """Loads the kernel; a crash kernel once more with the words that its headers ask for."""
        self.prepare()
        self.load_once()
        if self.record is None or not self.is_crash:
            return
        added = self.headers_words()
        self.command = f"{self.given.command} {LOW_MEMORY} {added}".strip()
        self.load_once()
        if self.record is not None and self.headers_words() != added:
            raise Wrong("the crash headers moved with the longer command: add its words by hand")

    def notes(self):
        """How many notes a crash kernel's headers have."""
        if not self.given.notes:
            return 0
        with open(self.given.notes, encoding="utf-8", errors="replace") as notes:
            return len(notes.read().splitlines())

    def wrong_pool(self):
        """The pages (first, last, why) of the pool that are not free RAM."""
        return [] if self.pool is None else pools.check_pool(self.pool, self.machine.rows)

    def warnings(self):
        """What the load does not refuse, and is wrong all the same."""
        missing = self.kernel.missing()
        if missing:
            yield (f"{self.kernel.path} is cut off: its header counts {size_text(self.kernel.syssize * 16)} behind the setup, "
                   f"and {size_text(missing)} of them are not in the file; it would load, and not run")
        if self.initrd and not self.initrd.bytes:
            yield f"{self.given.initrd} is empty: the kernel would find no initrd in it"
        elif self.initrd and not self.initrd.is_archive:
            yield f"{self.given.initrd} does not begin with an archive that Linux unpacks: is it an initrd?"
        for first, last, why in self.wrong_pool():
            yield f"the pool has {counted(last - first + 1, 'page')} {first:#x}-{last:#x} that are not free RAM: {why}"

    def keep(self, folder):
        """Keeps what the load read and wrote, in a folder with the usual rights."""
        os.makedirs(folder, exist_ok=True)
        for name in os.listdir(self.folder):
            shutil.copyfile(f"{self.folder}/{name}", f"{folder}/{name}")


def temporary_folder():
    return tempfile.TemporaryDirectory(prefix="kernelyet-")
