"""A machine's memory to scale, as an SVG: the whole of it as a bar, and beside it a bar for each part of it in which a load
lies, magnified."""
from companion import svg
from companion.numbers import counted, size_text
from companion.scene import KINDS, OF_MAP

COLOURS = {
    "free": "#e8f3e4", "taken": "#c9c9c9", "crash": "#fbe6c8", "hole": "#f4f4f4", "kernel": "#4f86c6",
    "initrd": "#8e6bbf", "parameters": "#d24d57", "purgatory": "#a0724a", "headers": "#d97fb0", "segment": "#5aa6a6",
    "link": "#e3b505", "control": "#222222", "swap": "#7a7a00", "source": "#a9cdf0",
}
# Of these there are many runs, which have one label together.
MANY = {"source", "link"}
# Parts of a load that lie no further from each other than this are magnified together.
NEAR = 64 << 20
TOP, LEFT, WIDTH, HEIGHT, STEP = 90, 130, 110, 640, 560
LABEL, BROKEN, MOST_LABELS = 34, 26, 8


class Bar:
    """Memory as a bar: bytes are to scale, long holes are not."""

    def __init__(self, pieces, left, top, height):
        self.pieces, self.left, self.top = pieces, left, top
        whole = sum(piece.size() for piece in pieces if not piece.is_broken())
        breaks = sum(piece.is_broken() for piece in pieces)
        self.bytes = whole / (height - BROKEN * breaks)
        self.places, at = [], top
        for piece in pieces:
            high = BROKEN if piece.is_broken() else piece.size() / self.bytes
            self.places.append((piece, at, high))
            at += high
        self.end = at

    def place_of(self, address):
        """Where an address of a piece stands."""
        return next(top + (address - piece.start) * high / piece.size() for piece, top, high in self.places
                    if piece.start <= address <= piece.end)

    def shapes(self):
        """The memory itself, and the addresses beside it where there is room for them."""
        # the thin ones are laid over the others
        for piece, top, high in sorted(self.places, key=lambda it: it[2] < 1.5):
            yield from self.shapes_of(piece, top, high)
        before, kind = -100.0, None
        for piece, top, _ in self.places:
            if top - before >= 14 and not {kind, piece.kind} <= MANY:
                yield svg.text(self.left - 8, top + 4, f"{piece.start:#x}", 11, colour="#666", anchor="end", has_edge=True)
                before = top
            kind = piece.kind
        if self.end - before >= 14:
            last = f"{self.pieces[-1].end - 1:#x}"
            yield svg.text(self.left - 8, self.end + 4, last, 11, colour="#666", anchor="end", has_edge=True)
        yield svg.rectangle(self.left, self.top, WIDTH, self.end - self.top, "none", "#555")

    def shapes_of(self, piece, top, high):
        title = f"{piece.name}: {size_text(piece.size())}, {piece.start:#x}-{piece.end - 1:#x}"
        if piece.is_broken():
            yield svg.rectangle(self.left, top, WIDTH, high, "#fff", "", title=title)
            middle, step = top + high / 2, WIDTH / 10
            yield svg.path([(self.left + i * step, middle + (-4 if i % 2 else 4)) for i in range(11)], "#888")
        else:
            # what is too small to be seen is a thin line, unless there are many of it
            seen = high if piece.kind in MANY else max(high, 1.5)
            yield svg.rectangle(self.left, top, WIDTH, seen, COLOURS[piece.kind], "", title=title)

    def labels(self, told=()):
        """The labels of what has none elsewhere, with the middle of each: of each kind that a load brings the largest
        pieces, of the map those that can be seen; what is left out of a kind has one label together."""
        found, kinds = [], {}
        for piece, top, high in self.places:
            is_seen = piece.kind not in OF_MAP or high >= 9 or piece.kind == "crash"
            if is_seen and not any(piece in some for some in told):
                kinds.setdefault(piece.kind, []).append((piece, top + high / 2))
        for kind, some in kinds.items():
            some.sort(key=lambda it: -it[0].size())
            single = 0 if kind in MANY and len(some) > 1 else MOST_LABELS
            found += [(middle, piece.name, f"{size_text(piece.size())} at {piece.start:#x}", kind)
                      for piece, middle in some[:single]]
            if some[single:]:
                found.append(label_of_many(kind, some[single:]))
        return sorted(found)


def label_of_many(kind, some):
    """One label for many pieces, beside the largest of them."""
    pieces = sorted(piece for piece, _ in some)
    size = size_text(sum(piece.size() for piece in pieces))
    where = f"{size} from {pieces[0].start:#x} to {pieces[-1].end - 1:#x}"
    return some[0][1], f"{KINDS[kind]}, {counted(len(some), 'run')}", where, kind


def spread(labels, top, bottom):
    """Places of labels, near their pieces and none over another."""
    tops, at = [], top - 14
    for middle, *_ in labels:
        at = max(at, middle - LABEL / 2)
        tops.append(at)
        at += LABEL
    low = max(bottom, top - 14 + LABEL * len(labels))
    for i in range(len(tops) - 1, -1, -1):
        tops[i] = min(tops[i], low - LABEL)
        low = tops[i]
    return tops


def label_shapes(bar, labels):
    """The labels of a bar, and where the last one ends."""
    right, shapes = bar.left + WIDTH, []
    tops = spread(labels, bar.top, bar.end + 14)
    for (middle, name, size, kind), top in zip(labels, tops):
        shapes.append(svg.path([(right, middle), (right + 26, top + LABEL / 2), (right + 44, top + LABEL / 2)], "#999"))
        shapes.append(svg.rectangle(right + 46, top + 4, 12, LABEL - 10, COLOURS[kind], "#777"))
        shapes.append(svg.text(right + 66, top + 15, name, 13, "bold", has_edge=True))
        shapes.append(svg.text(right + 66, top + 28, size, 11, colour="#555", has_edge=True))
    return shapes, max([bar.end, *(top + LABEL for top in tops)])


def clusters(pieces):
    """The parts of memory in which a load lies: runs of pieces that begin and end with one that the load brings."""
    found = []
    for i, piece in enumerate(pieces):
        if piece.kind in OF_MAP:
            continue
        if found and piece.start - pieces[found[-1][1]].end <= NEAR:
            found[-1][1] = i
        else:
            found.append([i, i])
    return [pieces[first : last + 1] for first, last in found]


def magnified(bar, pieces):
    """The clusters that are too small in a bar for their parts to be seen."""
    found = []
    for cluster in clusters(pieces):
        high = bar.place_of(cluster[-1].end) - bar.place_of(cluster[0].start)
        if len(cluster) > 1 and high < (bar.end - bar.top) / 3:
            found.append(cluster)
    return found


def as_svg(pieces, title):
    """The picture: low addresses stand above."""
    whole = Bar(pieces, LEFT, TOP, HEIGHT)
    found = magnified(whole, pieces)
    labels, bottom = label_shapes(whole, whole.labels(found))
    dashes, shapes, top = [], [*whole.shapes(), *labels], TOP
    for cluster in found:
        bar = Bar(cluster, LEFT + STEP, top, HEIGHT / len(found) - 60 * (len(found) > 1))
        # from the part in the whole to its magnified bar
        for address, place in ((cluster[0].start, bar.top), (cluster[-1].end, bar.end)):
            dashes.append(svg.path([(LEFT + WIDTH, whole.place_of(address)), (bar.left, place)], "#bbb", dashes="4 4"))
        size = size_text(cluster[-1].end - cluster[0].start)
        shapes.append(svg.text(bar.left, bar.top - 10, f"magnified: {size}", 11, colour="#666"))
        more, end = label_shapes(bar, bar.labels())
        shapes += [*bar.shapes(), *more]
        bottom, top = max(bottom, end), end + 60
    head = [svg.text(20, 28, title, 15, "bold"),
            svg.text(20, 48, "to scale, but for long holes; what is too small to be seen is a thin line", 11, colour="#666")]
    return svg.document(LEFT + STEP * (1 + bool(found)), bottom + 24, [*head, *dashes, *shapes])
