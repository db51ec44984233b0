"""kernelyet loaded: the image that a running Linux has loaded, read from its memory as the program takes it."""
import os

from companion.loaded import findings, output, sources, tell
from companion.numbers import PAGE, address, counted
from companion.parsers import Parser
from companion.progress import Progress

TEXT = """Reads the image that Linux has loaded by kexec -l, and not run yet, from the
machine's memory, as the program takes it: `check` judges its list, `dump`
prints it, `exec` runs it, and look, picture and try show the result. Of this
machine (as root), or of a dump of another: QEMU's dump-guest-memory,
/proc/vmcore of a crash kernel, or what makedumpfile makes of them.

Files in FOLDER:
  memory.kxmem   the control page, the list pages and the source pages; of a
                 crash image the pages of its segments
  record         the load record, with what the list brings as segments
  map            the memory map, as /proc/iomem has it"""
EPILOG = """A dump is enough by itself: symbols, types and map are read from its memory.
Linux before 6.14 runs each list by exchanges through a swap page, also where no
context is to be preserved. Then the record is one with context preserved, in
which `check` refuses what such a kernel would run wrongly, as a source that
stands twice. Whether it is so, the kernel's code says. LOADED.md, one of the
documents, has more.
Status 0; 1 where an input is refused, nothing is loaded, or the list touches a
page that Linux needs to run it; 2 where the words are refused."""


def parser():
    words = Parser("loaded", "[OPTIONS] FOLDER", TEXT, EPILOG)
    words.word_of("FOLDER", "where the files are put")
    words.option("crash", "the crash kernel, loaded by kexec -p, in place of the next one")
    words.option("all", "put the destination pages, as they are now, into the memory file too")
    words.option("copies", "write a record of a plain load, also for a kernel that runs lists by exchanges")
    words.option("core", "read this dump in place of this machine: an ELF core file, or one in kdump's compressed format",
                 "FILE")
    words.option("raw", "read this dump, the bytes of memory from address 0 on", "FILE")
    words.option("map", "the map of the dump's machine, in place of the one in its memory", "FILE")
    words.option("symbols", "the symbols of the dump's kernel, in place of those in its memory: its System.map, vmlinux, or "
                 "the text of /proc/kallsyms", "FILE")
    words.option("btf", "the types of the kernel: a vmlinux with a section .BTF, or the bytes of this section", "FILE")
    words.option("loader", "the program kexec that loaded the image, in which its purgatory is looked for", "FILE")
    words.option("proc", "read in place of /proc", "FOLDER", default="/proc")
    words.option("sysfs", "read in place of /sys", "FOLDER", default="/sys")
    return words


def loader_of(given):
    """The program kexec in which the purgatory is looked for: on this machine, the one that is installed."""
    if given.loader or given.core or given.raw:
        return given.loader
    return next((path for path in ("/sbin/kexec", "/usr/sbin/kexec") if os.path.isfile(path)), None)


def main(arguments):
    words = parser()
    given = words.parse_args(arguments)
    if given.core and given.raw:
        words.error("give one of --core and --raw")
    if (given.map or given.symbols) and not (given.core or given.raw):
        words.error("--map and --symbols are for a dump: give --core or --raw")
    with Progress("reading the image"):
        if given.core or given.raw:
            kernel, rows = sources.of_dump(given)
        else:
            kernel, rows = sources.of_machine(given.proc, given.sysfs, given.btf)
        found = findings.find(kernel, given.crash, loader_of(given))
        kept, lacking = output.write(given.folder, kernel, found, rows, given.all, given.copies)
    tell.findings(kernel, found, given.copies)
    print(f"{given.folder}/memory.kxmem: {counted(kept, 'page')} that are not all zeros"
          + (f"; {counted(lacking, 'page')} of the list are not in the dump, and are zeros" if lacking else ""))
    for number, page, what in found.touched:
        print(f"word {number} touches page {address(page * PAGE)}, {what}, without which Linux cannot run the list")
    return 1 if found.touched else 0
