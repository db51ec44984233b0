"""The list of page copies that `dump` printed, as an SVG."""
from companion import printed, svg
from companion.lists import KINDS, merged, pairs
from companion.numbers import PAGE, counted
from companion.refusals import Wrong

ROW, EDGE, GAP = 24, 20, 70
# runs behind these are not drawn one by one, but counted by segment; a load of Linux has some dozens
MOST_ROWS = 4096
LETTER = 8  # the width of a letter of 13 pixels, rather more than it has
COLOURS = {"destination": "#d8ead2", "source": "#d6e4f2", "both": "#e8dcf0", "link page": "#f4ead0", "link": "#f4ead0"}


class List:
    """The words of a list, as `dump` prints them, and what follows from them."""

    def __init__(self, text, names=()):
        self.words, self.fault, self.segments = [], None, []  # a word is (kind, address or None)
        for line, parts in zip(text.splitlines(), printed.read(text, "dump")):
            if parts["line"] == "segment":
                name = names[len(self.segments)] if names else ""
                self.segments.append((parts["start"], parts["memsz"], name or f"segment {len(self.segments)}"))
            elif parts["line"] == "fault":
                self.fault = line
            elif parts["line"] == "word" and parts["word"] == len(self.words) and parts["kind"] in KINDS.values():
                self.words.append((parts["kind"], parts.get("address")))
            else:
                raise Wrong(f"line {len(self.words) + 1} is not one that dump prints in this place: {line!r}")
        self.runs = list(self.joined(merged(pairs(self.words))))
        self.links = [address for kind, address in self.words if kind == "link"]

    def segment_of(self, address):
        """The number of the segment that has an address; None where none has."""
        return next((i for i, (start, size, _) in enumerate(self.segments) if start <= address < start + size), None)

    def joined(self, found):
        """Runs (first number, destination, source, pages, last number): those that go on behind a link word, in the same
        segment, are one."""
        run = None
        for number, to, source, count in found:
            goes_on = run and (run[1] + PAGE * run[3], run[2] + PAGE * run[3], run[4] + 2) == (to, source, number)
            is_link = goes_on and self.words[number - 1][0] == "link"
            if is_link and self.segment_of(to) == self.segment_of(run[1]):
                run[3], run[4] = run[3] + count, number + count - 1
                continue
            if run:
                yield tuple(run)
            run = [number, to, source, count, number + count - 1]
        if run:
            yield tuple(run)

    def place_of(self, address):
        """Which segment an address lies in, and where."""
        i = self.segment_of(address)
        if i is None:
            return "no segment"
        start, _, name = self.segments[i]
        return name if address == start else f"{name} +{address - start:#x}"

    def rows(self):
        """The rows of the list: name, kind and text."""
        by_number = {run[0]: run for run in self.runs}
        inside = {number for first, _, _, count, last in self.runs for number in range(first, last + 1)}
        for number, (kind, address) in enumerate(self.words):
            name = "head" if number == 0 else f"word {number}"
            if number in by_number:
                first, to, source, count, last = by_number[number]
                name = f"words {first}-{last}" if count > 1 else name
                yield name, kind, f"source {pages_text(source, count)} to {self.place_of(to)}"
            elif number not in inside or kind == "done":
                yield name, kind, kind if address is None else f"{kind} {address:#x}"


def cuts_of(runs, links):
    """Where the runs of pages begin and end; a cut inside a run of destinations cuts its run of sources too, and so on."""
    spans = [(address, 1) for address in links]
    spans += [span for _, to, source, count, _ in runs for span in ((to, count), (source, count))]
    cuts, before = {at + edge * PAGE for at, count in spans for edge in (0, count)}, None
    while before != len(cuts):
        before = len(cuts)
        for _, to, source, count, _ in runs:
            ends = count * PAGE
            cuts |= {at - to + source for at in cuts if to < at < to + ends}
            cuts |= {at - source + to for at in cuts if source < at < source + ends}
    return sorted(cuts)


def pieces(told):
    """The runs of pages with one part each: {first page: (count, parts)}; and the moves between them, (source,
    destination)."""
    links = [run * PAGE for run in sorted({address // PAGE for address in told.links})]
    cuts = cuts_of(told.runs, links)
    boxes, moves = {}, []

    def add(first, end, part):
        edges = [first, *(at for at in cuts if first < at < end), end]
        for low, high in zip(edges, edges[1:]):
            boxes.setdefault(low, ((high - low) // PAGE, []))[1].append(part)
        return edges[:-1]

    for _, to, source, count, _ in told.runs:
        moves += zip(add(source, source + count * PAGE, "source"), add(to, to + count * PAGE, "destination"))
    for address in links:
        add(address, address + PAGE, "link page")
    return boxes, moves


def pages_text(first, count):
    return f"{first:#x}" if count == 1 else f"{first:#x}-{first + count * PAGE - 1:#x}"


def box(left, top, width, colour, words, note=""):
    shapes = [svg.rectangle(left, top, width, ROW - 4, colour, radius=3), svg.text(left + 8, top + 15, words)]
    if note:
        shapes.append(svg.text(left + width - 8, top + 15, note, 11, colour="#555", anchor="end"))
    return shapes


def width_of(rows, least):
    """The width of boxes in which no text meets its note."""
    return max([least, *(LETTER * (len(words) + len(note) + 4) for words, note in rows)])


def draw_words(rows, fault, width):
    """The list: each link word begins the box of the page that it leads to."""
    shapes, top = [svg.text(EDGE, 30, "the list", weight="bold")], 44
    for name, kind, words in rows[:MOST_ROWS]:
        left = EDGE if name == "head" else EDGE + 16
        shapes += box(left, top, EDGE + width - left, COLOURS.get(kind, "#eee"), words, name)
        top += ROW
    if len(rows) > MOST_ROWS:
        shapes.append(svg.text(EDGE + 16, top + 15, f"and {len(rows) - MOST_ROWS} more rows"))
        top += ROW
    if fault:
        shapes.append(svg.text(EDGE + 16, top + 15, fault, weight="bold", colour="#b00020"))
        top += ROW
    return shapes, top


def draw_pages(boxes, left, width, title):
    shapes, top = [svg.text(left, 30, title, weight="bold")], 44
    for words, note, parts in boxes:
        key = "both" if {"destination", "source"} <= set(parts) else parts[0]
        shapes += box(left, top, width, COLOURS[key], words, note)
        top += ROW
    return shapes, top


def box_texts(told, found, shown):
    """The address, what it is, and the parts of each box that is shown."""
    for first in shown:
        count, parts = found[first]
        order = [part for part in ("destination", "source", "link page") if part in parts]
        name = f", {told.place_of(first)}" if "destination" in parts and told.segments else ""
        yield pages_text(first, count), ", ".join(order) + name + f", {counted(count, 'page')}" * (count > 1), order


def draw(told, is_kept):
    """The picture of a list."""
    found, moves = pieces(told)
    shown = sorted(found)[:MOST_ROWS]
    place = {first: 44 + ROW * row + (ROW - 4) // 2 for row, first in enumerate(shown)}
    boxes, rows = list(box_texts(told, found, shown)), list(told.rows())
    list_width = width_of([(words, name) for name, _, words in rows[:MOST_ROWS]], 220)
    page_width = width_of([(words, note) for words, note, _ in boxes], 190)
    before_left = EDGE + list_width + GAP
    after_left = before_left + page_width + 2 * GAP
    shapes, words_end = draw_words(rows, told.fault, list_width)
    before, pages_end = draw_pages(boxes, before_left, page_width, "memory before the run")
    shapes += before + draw_pages(boxes, after_left, page_width, "memory after the run")[0]
    if is_kept:
        moves += [(to, source) for source, to in moves if to != source]
    shapes += [svg.path([(before_left + page_width, place[source]), (after_left - 4, place[to])], marker="head")
               for source, to in moves if source in place and to in place]
    if len(found) > len(shown):
        shapes.append(svg.text(before_left, pages_end + 15, f"and {len(found) - len(shown)} more runs of pages"))
        pages_end += ROW
    height, width = max(words_end, pages_end) + 10, after_left + page_width + EDGE
    for start, size, name in told.segments:
        shapes.append(svg.text(EDGE, height + 14, f"{name} at {pages_text(start, max(1, -(-size // PAGE)))}", size=12))
        height += 20
    return svg.document(width, height + 10, shapes)
