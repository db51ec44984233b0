"""Where the loaded image is read: the running machine, or a dump of another."""
import errno
import os
from typing import NamedTuple, Optional

from companion import maps
from companion.loaded import kdump, kernel as kernels, physical, resources, symbols, vmcoreinfo
from companion.refusals import Wrong


def of_machine(proc, sysfs, btf_path=None):
    """The kernel of this machine, and the rows of its map."""
    core = f"{proc}/kcore"
    try:
        memory, notes = physical.of_core(core)
    except OSError as error:
        raise Wrong(why_not(core, error)) from None
    found = next(vmcoreinfo.of_notes(notes), None)
    if found is None:
        raise Wrong(f"{core} has no note VMCOREINFO: this kernel is older than 4.19, or has no CONFIG_VMCORE_INFO "
                    "(CONFIG_CRASH_CORE before 6.9), without which it has no kexec")
    own = f"{sysfs}/kernel/btf/vmlinux"
    if not btf_path and not os.path.exists(own):
        raise Wrong(f"this kernel has no BTF ({own}, CONFIG_DEBUG_INFO_BTF), which says how its structs lie: give --btf "
                    "FILE, a vmlinux of this kernel with a section .BTF, or the bytes of this section")
    btf = kernels.btf_of_file(btf_path or own)
    kernel = kernels.Kernel(memory, found, symbols.of_file(f"{proc}/kallsyms"), btf)
    return kernel, with_blanks(maps.read_map(f"{proc}/iomem")[0])


def why_not(path, error):
    """Why the memory of this machine cannot be read."""
    if error.errno == errno.EACCES:
        return f"{path} is for root alone: read it as root (sudo), or give --core FILE, a dump of the machine"
    if error.errno == errno.EPERM:
        return (f"{path} is locked down (kernel_lockdown(7)): this kernel shows its memory to nobody, not even to root. "
                "Start it without lockdown=confidentiality, or read a dump of the machine: --core FILE")
    if error.errno == errno.ENOENT:
        return f"there is no {path}: this kernel has no CONFIG_PROC_KCORE; read a dump of the machine: --core FILE"
    return f"{path}: {error.strerror}"


def with_blanks(text):
    """The rows of a map's text, with the blanks before each."""
    blanks = [len(line) - len(line.lstrip(" ")) for _, line in maps.lines_of(text)]
    return [(*row, deep) for row, deep in zip(maps.rows_of(text, "the map"), blanks)]


class Dump(NamedTuple):
    """The files of a dump, as the command line gives them."""

    core: Optional[str] = None
    raw: Optional[str] = None
    map: Optional[str] = None
    symbols: Optional[str] = None
    btf: Optional[str] = None


def of_dump(given):
    """The kernel of a dump, and the rows of its map: from the dump, but for what is given."""
    if given.raw:
        memory, notes = physical.of_raw(given.raw)
    else:
        memory, notes = kdump.of_file(given.core) if kdump.is_one(given.core) else physical.of_core(given.core)
    found = symbols.of_file(given.symbols) if given.symbols else None
    kernel = kernels.of_dump(memory, notes, found, kernels.btf_of_file(given.btf) if given.btf else None)
    rows = with_blanks(maps.read_map(given.map)[0]) if given.map else resources.rows(kernel)
    return kernel, rows
