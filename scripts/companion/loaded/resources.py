"""The memory map of a kernel as /proc/iomem shows it, from its tree of resources in memory (kernel/resource.c of Linux)."""
from companion.refusals import Wrong

MOST_DEPTH, MOST_ROWS = 5, 4096


def rows(kernel):
    """The rows of the map: first, last, name, and the blanks before them."""
    members = kernel.btf.struct("resource")
    value = lambda data, name: members[name].of(data)
    found = []

    def add(at, depth):
        while at:
            if len(found) > MOST_ROWS:
                raise Wrong("the kernel's memory map goes on without end: give --map FILE, the text of /proc/iomem")
            data = kernel.virtual.read(at, members.size)
            name = value(data, "name")
            text = kernel.virtual.text(name) if name else "<BAD>"
            found.append((value(data, "start"), value(data, "end"), text, 2 * min(depth, MOST_DEPTH)))
            add(value(data, "child"), depth + 1)
            at = value(data, "sibling")

    root = kernel.virtual.read(kernel.symbol("iomem_resource"), members.size)
    add(value(root, "child"), 0)
    return found
