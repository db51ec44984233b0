"""A machine's memory to scale, for a terminal."""
from companion.numbers import counted, size_text
from companion.scene import OF_MAP

LETTERS = {"free": ".", "taken": "x", "crash": "c", "hole": " ", "kernel": "K", "initrd": "I", "parameters": "P",
           "purgatory": "U", "headers": "H", "segment": "S", "link": "L", "control": "C", "swap": "W",
           "source": "s"}
# These are shown before all else: they are single pages, or few.
FEW = ("control", "swap", "parameters", "headers", "purgatory")


def cell_kind(pieces, start, end):
    """What a cell of a terminal shows: what a load brings before what the map has, and else what has the most of it."""
    met = [(min(piece.end, end) - max(piece.start, start), piece.kind) for piece in pieces
           if piece.start < end and start < piece.end]
    kinds = {kind for _, kind in met}
    few = [kind for kind in FEW if kind in kinds]
    brought = [it for it in met if it[1] not in OF_MAP]
    return few[0] if few else max(brought or met, default=(0, "hole"))[1]


def cells(pieces, columns, rows):
    """The size of a cell, a power of two of pages, so that all fits; and the lines (start, letters)."""
    whole = sum(piece.size() for piece in pieces if not piece.is_broken())
    size = 4096
    while whole > size * columns * rows:
        size *= 2
    found, at, end, near = [], 0, pieces[-1].end, list(pieces)
    while at < end:
        while near and near[0].end <= at:
            near.pop(0)
        line = [piece for piece in near if piece.start < at + size * columns]
        if len(line) == 1 and line[0].is_broken():
            found.append((at, None, line[0]))
            at = max(at + size * columns, line[0].end // (size * columns) * size * columns)
            continue
        starts = range(at, min(at + size * columns, end), size)
        found.append((at, "".join(LETTERS[cell_kind(line, start, start + size)] for start in starts), None))
        at += size * columns
    return size, found


def as_text(pieces, title, columns=64, rows=28):
    """The picture for a terminal: a letter for each cell of memory, and a legend with the sizes."""
    size, lines = cells(pieces, columns, rows)
    yield title
    yield f"one letter is {size_text(size)}; a line is {size_text(size * columns)}"
    for at, letters, hole in lines:
        yield f"{at:#14x} " + (f"|{letters}|" if letters is not None else f"~ {size_text(hole.size())} without RAM ~")
    yield ""
    kinds = {}
    for piece in pieces:
        kinds.setdefault((piece.kind, piece.name), []).append(piece)
    for (kind, name), some in kinds.items():
        if kind == "hole":
            continue
        places = ", ".join(f"{piece.start:#x}-{piece.end - 1:#x}" for piece in some[:3])
        more = f" and {counted(len(some) - 3, 'more run')}" * (len(some) > 3)
        yield f"  {LETTERS[kind]}  {name}: {size_text(sum(piece.size() for piece in some))}: {places}{more}"
