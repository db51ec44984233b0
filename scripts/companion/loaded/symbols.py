"""Where a kernel's symbols lie: the text of its /proc/kallsyms, its System.map, or the symbol table of its vmlinux."""
import re

from companion.loaded.elf import Elf
from companion.refusals import Wrong

LINE = re.compile(r"([0-9a-f]{8,16}) \S (\S+)(?:\t\[(\S+)\])?$")


def of_file(path):
    """The symbols of a file, by name; the first of a name counts, and those of modules are left out."""
    with open(path, "rb") as file:
        data = file.read()
    found = {}
    if data[:4] == b"\x7fELF":
        for name, section, value in Elf(data, path).symbols():
            if section:
                found.setdefault(name, value)
    else:
        for line in data.decode(errors="replace").split("\n"):
            parts = LINE.match(line)
            if parts and not parts[3]:
                found.setdefault(parts[2], int(parts[1], 16))
    if not found:
        raise Wrong(f"{path} has no symbols: it is neither the text of /proc/kallsyms or of a System.map nor a vmlinux with "
                    "its symbol table (Debian's package linux-image-..-dbg has both)")
    if not any(found.values()):
        raise Wrong(f"{path} has zeros for all addresses, as Linux shows them to any user but root, and where "
                    "/proc/sys/kernel/kptr_restrict is 2: read it as root, with kptr_restrict 0 or 1")
    return found


def moved(symbols, note):
    """The symbols of a System.map or vmlinux, where KASLR has moved the kernel: VMCOREINFO says where _stext lies."""
    stext = note.symbol("_stext")
    if "_stext" not in symbols or stext is None:
        raise Wrong("the symbols or VMCOREINFO do not have _stext: where the kernel lies cannot be told")
    shift = stext - symbols["_stext"]
    return {name: address + shift for name, address in symbols.items()} if shift else symbols
