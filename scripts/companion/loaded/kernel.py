"""A running kernel, found in memory: its page tables, its symbols, its types, and the pages behind its struct pages."""
from companion.loaded import kallsyms, symbols as symbol_files, vmcoreinfo
from companion.loaded.btf import Btf
from companion.loaded.elf import Elf
from companion.loaded.paging import Virtual
from companion.refusals import Wrong

# Where x86-64 maps the kernel's own text and data (Documentation/arch/x86/x86_64/mm.rst).
KERNEL_MAP = 0xFFFFFFFF80000000
# Where struct pages and the direct map begin without CONFIG_RANDOMIZE_MEMORY, by the levels of the page tables.
VMEMMAP = {4: 0xFFFFEA0000000000, 5: 0xFFD4000000000000}
# The kernels, by their first two numbers, whose lists were read: docs/LOADED.md.
TRIED = ("6.1", "6.12", "6.16", "6.17", "6.18", "6.19", "7.1", "7.3")


class Kernel:
    """The kernel that a VMCOREINFO tells of. `symbols` and `btf` come from files where these are given, and else from
    memory."""

    def __init__(self, physical, note, symbols=None, btf=None):
        self.physical, self.note, self.release = physical, note, note.release
        self.base = note.number("phys_base")
        top = note.symbol("init_top_pgt") or note.symbol("swapper_pg_dir")
        if self.base is None or not top:
            raise Wrong(f"VMCOREINFO of {note.release or 'this kernel'} does not say where its page tables lie (phys_base, "
                        "init_top_pgt): it is no kernel for x86-64, or one before 4.19")
        self.levels = 5 if note.number("pgtable_l5_enabled") else 4
        encrypted = note.number("sme_mask") or 0
        self.virtual = Virtual(physical, self.place_of_image(top), self.levels, encrypted)
        self.symbols = symbol_files.moved(symbols, note) if symbols else kallsyms.read(self.virtual, note)
        self._is_this()
        self.vmemmap = self._word("vmemmap_base", VMEMMAP[self.levels])
        self.btf = btf or Btf(self._btf(), "the kernel's memory")
        self.page_struct = self.btf.struct("page")

    def place_of_image(self, address):
        """The place in memory of a symbol of the kernel."""
        return address - KERNEL_MAP + self.base

    def symbol(self, name):
        """The address of a symbol that must be there."""
        if not self.symbols.get(name):
            raise Wrong(f"Linux {self.release} has no symbol {name}: it is built without CONFIG_KEXEC or without "
                        "CONFIG_KALLSYMS_ALL, or the symbols are another kernel's")
        return self.symbols[name]

    def _is_this(self):
        """Whether memory, symbols and VMCOREINFO are of one kernel: its banner says its release."""
        banner = self.virtual.text(self.symbol("linux_banner"))
        if not banner.startswith(f"Linux version {self.release} "):
            raise Wrong(f"VMCOREINFO is of Linux {self.release}, and at linux_banner memory has {banner[:40]!r}: the symbols "
                        "are another kernel's, or memory is")

    def _word(self, name, without):
        return self.virtual.word(self.symbols[name]) if name in self.symbols else without

    def _btf(self):
        first, end = (self.symbols.get(name, 0) for name in ("__start_BTF", "__stop_BTF"))
        if end <= first:
            raise Wrong(f"Linux {self.release} has no BTF, which says how its structs lie (CONFIG_DEBUG_INFO_BTF): give "
                        "--btf FILE, a vmlinux of this kernel with a section .BTF, or the bytes of this section")
        return self.virtual.read(first, end - first)

    def number_of_page(self, address):
        """The number of the page that a struct page stands for."""
        number, rest = divmod(address - self.vmemmap, self.page_struct.size)
        if rest or not 0 <= number < 1 << 40:
            raise Wrong(f"the layout of this kernel is not known: {address:#x} is no place of a struct page")
        return number

    def pages_of_list(self, head):
        """The pages of a list of struct pages, which are linked by their lru; behind each its order, which `private` says."""
        lru, private = self.page_struct["lru"].place, self.page_struct["private"]
        at, found = self.virtual.word(head), []
        while at != head:
            page = at - lru
            first = self.number_of_page(page)
            order = private.of(self.virtual.read(page, self.page_struct.size))
            if order > 10 or len(found) > 1 << 16:
                raise Wrong(f"the layout of this kernel is not known: a list of its pages goes on without end at {at:#x}")
            found += range(first, first + (1 << order))
            at = self.virtual.word(at)
        return found

    def over(self, physical):
        """The same kernel in a later state of its memory."""
        return Kernel(physical, self.note, self.symbols, self.btf)

    def is_tried(self):
        return ".".join(self.release.split(".")[:2]) in TRIED

    def direct(self, address):
        """The place in memory of an address of the kernel, as of a page that it has allocated."""
        return self.virtual.place(address)[0]


def of_dump(physical, notes, symbols=None, btf=None):
    """The kernel of a dump: by the VMCOREINFO among its notes, or by one that stands in its memory, the first that is of the
    kernel that lies there."""
    found = list(vmcoreinfo.of_notes(notes)) or list(vmcoreinfo.of_memory(physical))
    if not found:
        raise Wrong(f"{physical.path} has no VMCOREINFO, neither as a note nor in memory: it is no dump of a whole Linux, or "
                    "its kernel has no CONFIG_VMCORE_INFO (CONFIG_CRASH_CORE before 6.9)")
    refusals = []
    for note in found:
        try:
            return Kernel(physical, note, symbols, btf)
        except Wrong as wrong:
            refusals.append(wrong)
    raise refusals[-1]


def btf_of_file(path):
    """The types in a file: a vmlinux with a section .BTF, or the bytes of this section, as /sys/kernel/btf/vmlinux has
    them."""
    with open(path, "rb") as file:
        data = file.read()
    if data[:4] == b"\x7fELF":
        data = Elf(data, path).section(".BTF") or b""
    return Btf(data, path)
