"""What lies in the memory of a machine: its map, the parts of a load, the pages of its list, as pieces that do not overlap."""
from typing import NamedTuple

from companion import maps
from companion.lists import address_of, kind_of, walk
from companion.numbers import PAGE, runs
from companion.refusals import Wrong

# The kinds of pieces: what each is in a legend. Those of the map first.
KINDS = {
    "free": "free RAM", "taken": "taken by the firmware", "crash": "crash area, free", "hole": "no RAM",
    "kernel": "kernel", "initrd": "initrd", "parameters": "boot parameters", "purgatory": "purgatory",
    "headers": "crash headers", "segment": "segment", "link": "link pages", "control": "control page",
    "swap": "swap page", "source": "sources of the list",
}
# the kinds that the map has, without a load
OF_MAP = {"free", "taken", "crash", "hole"}
# a hole of more bytes than this is not drawn to scale
BREAK = 64 << 20
OF_NAMES = {"kernel": "kernel", "initrd": "initrd", "boot parameters": "parameters", "purgatory": "purgatory",
            "crash headers": "headers", "setup data": "segment", "": "segment"}


class Piece(NamedTuple):
    """Bytes from start up to end, and what they are."""

    start: int
    end: int
    kind: str
    name: str

    def size(self):
        return self.end - self.start

    def is_broken(self):
        """Whether it is a hole that is drawn short."""
        return self.kind == "hole" and self.size() > BREAK


def painted(pieces, over):
    """Pieces with one more laid over them; all rise."""
    found = []
    for piece in pieces:
        if piece.end <= over.start or over.end <= piece.start:
            found.append(piece)
            continue
        if piece.start < over.start:
            found.append(piece._replace(end=over.start))
        if over.end < piece.end:
            found.append(piece._replace(start=over.end))
    return sorted([*found, over])


def of_map(rows):
    """The pieces of a memory map, from address 0 up to the end of its RAM; what no row names is a hole."""
    free = [(first * PAGE, end * PAGE) for first, end in maps.free_runs(rows)]
    pieces = [Piece(first, end, "free", "free RAM") for first, end in free]
    end_of_ram = max(last + 1 for _, last, what in rows if what == maps.RAM)
    taken = [Piece(first, min(last + 1, end_of_ram), "crash" if what == maps.CRASH else "taken",
                   "crash area" if what == maps.CRASH else what)
             for first, last, what in rows if what in maps.TAKEN and first < end_of_ram]
    for piece in taken:
        pieces = painted(pieces, piece)
    at, found = 0, []
    for piece in pieces:
        if at < piece.start:
            found.append(Piece(at, piece.start, "hole", "no RAM"))
        found.append(piece)
        at = piece.end
    return found


def page_pieces(numbers, kind, name):
    """Pieces of runs of pages."""
    for first, last in runs(numbers):
        yield Piece(first * PAGE, (last + 1) * PAGE, kind, name)


def of_list(memory, record):
    """The pages of a list: link pages, control and swap page, and the sources that are not in their place."""
    words = list(walk(memory, record.head))
    sources = {address_of(word) // PAGE for _, _, word in words if kind_of(word) == "source"}
    destinations = {page for segment in record.segments for page in range(segment.mem // PAGE,
                                                                           (segment.mem + segment.memsz) // PAGE)}
    links = {address_of(word) // PAGE for _, _, word in words if kind_of(word) == "link"}
    yield from page_pieces(sources - destinations, "source", "sources")
    yield from page_pieces(links, "link", "link pages")
    for name, address in (("control", record.control), ("swap", record.swap)):
        if address:
            yield Piece(address, address + PAGE, name, f"{name} page")


def of_segments(record):
    for i, (segment, name) in enumerate(zip(record.segments, record.names())):
        if segment.memsz:
            yield Piece(segment.mem, segment.mem + segment.memsz, OF_NAMES[name], name or f"segment {i}")


def is_left(piece, before):
    """Whether a piece is what a load leaves of a crash area."""
    return piece.kind == "crash" and piece not in before


def joined(pieces):
    """The pieces, in which those of one kind and name that meet are one."""
    found = []
    for piece in pieces:
        if found and (found[-1].end, found[-1].kind, found[-1].name) == (piece.start, piece.kind, piece.name):
            found[-1] = found[-1]._replace(end=piece.end)
        else:
            found.append(piece)
    return found


def scene_of(rows, record, memory=None):
    """All pieces, rising. Without a map only the pages of the load are known, and what lies between them is a hole."""
    overs = [*of_segments(record), *(of_list(memory, record) if memory and not record.kind else [])]
    if not rows and not overs:
        raise Wrong(f"{record.path}: no segment of the load has a page, and without a map there is nothing to draw: give --map")
    before = of_map(rows) if rows else [Piece(0, max(piece.end for piece in overs), "hole", "not known")]
    pieces, end = list(before), before[-1].end
    for over in overs:
        if over.start > end:
            pieces.append(Piece(end, over.start, "hole", "no RAM"))
        pieces, end = painted(pieces, over), max(end, over.end)
    return joined(piece._replace(name=KINDS["crash"]) if is_left(piece, before) else piece for piece in pieces)
