"""The slow program beside `drill`: the table of events in docs/FORMATS.md, line by line, over plain lists and dictionaries."""
import struct

from kexec_files import PAGE

# how many pages of System RAM there are, from page 0 on
RAM = 0x100
SLOTS = 511


class Segment:
    def __init__(self, mem, memsz, data):
        self.mem, self.memsz, self.data = mem, memsz, data

    def stop(self):
        return self.mem + self.memsz

    def pages(self):
        return range(self.mem // PAGE, self.mem // PAGE + self.memsz // PAGE)


def filled(data):
    return data + bytes(PAGE - len(data))


def wanted(segments):
    """The bytes that each page of the segments is to have, in the order of the segments."""
    found = {}
    for segment in segments:
        for page in segment.pages():
            start = page * PAGE - segment.mem
            found[page] = filled(segment.data[start : start + PAGE])
    return found


def refusal(segments, area, crash):
    """The name of the first rule that refuses the segments, or None."""
    if not segments:
        return "NoSegments"
    if len(segments) > 16:
        return "TooMany"
    if any(s.mem % PAGE or s.stop() % PAGE or s.stop() >= 1 << 46 for s in segments):
        return "BadAddress"
    for i, s in enumerate(segments):
        if any(r.mem < s.stop() and s.mem < r.stop() for r in segments[:i]):
            return "Overlap"
    if any(len(s.data) > s.memsz for s in segments):
        return "TooFull"
    ram = set(range(RAM)) - set(area or [])
    total = sum(s.memsz // PAGE for s in segments)
    if total > len(ram) // 2:
        return "HalfOfMemory"
    if crash:
        if any(s.mem < area[0] * PAGE or s.stop() > (area[-1] + 1) * PAGE for s in segments):
            return "OutsideReserved"
    elif any(page not in ram for s in segments for page in s.pages()):
        return "NotRam"
    return None


class Taking:
    """How a load takes its pages from the pool."""

    def __init__(self, pool, destinations):
        self.left, self.destinations = list(pool), destinations
        self.filed, self.pairs = set(), []

    def take(self, page):
        if page in self.filed:
            self.filed.remove(page)
            return page
        while True:
            drawn = self.left.pop(0)
            if drawn == page or drawn not in self.destinations:
                return drawn
            for pair in self.pairs:
                if pair[0] == drawn:
                    source, pair[1] = pair[1], drawn
                    return source
            self.filed.add(drawn)


class Image:
    """A load over the pool: its pages, its pairs, and what its list and its sources have."""

    def __init__(self, segments, kept, pool, need):
        self.segments, self.kept, self.pages = segments, kept, pool[:need]
        self.bytes = wanted(segments)
        taking = Taking(pool, self.bytes)
        taking.take(None)
        self.swap = taking.take(None) if kept else None
        links, places = [], []
        at = 0
        for segment in segments:
            for page in [None, *segment.pages()]:
                if at % SLOTS == 0:
                    links.append(taking.take(None))
                if page is None:
                    places.append((segment.mem + 1, None))
                else:
                    taking.pairs.append([page, taking.take(page)])
                    places.append((None, len(taking.pairs) - 1))
                at += 1
        self.pairs = taking.pairs
        words = [word if place is None else self.pairs[place][1] * PAGE + 8 for word, place in places] + [4]
        self.laid = {}
        for k, link in enumerate(links):
            here = words[SLOTS * k : SLOTS * (k + 1)]
            if k + 1 < len(links):
                here.append(links[k + 1] * PAGE + 2)
            elif len(words) > SLOTS * (k + 1):
                # the done word follows in the last slot
                here.append(4)
            self.laid[link] = filled(struct.pack(f"<{len(here)}Q", *here))
        for page, source in self.pairs:
            self.laid[source] = self.bytes[page]


class Table:
    """The slots, and what each event does."""

    def __init__(self, memory, pool, area):
        self.memory, self.pool, self.area = dict(memory), list(pool), area
        self.load = self.normal = self.crash = None
        self.gone = False

    def at(self, page):
        return self.memory.get(page, bytes(PAGE))

    def touches(self, page):
        stands = [self.normal] if self.normal else []
        crash = [self.crash] if self.crash else []
        if self.load and self.load["written"]:
            (crash if self.load["kind"] == "crash" else stands).append(self.load["written"])
        return any(page in image.pages for image in stands) or any(page in wanted(segments) for segments in crash)

    def open(self, caller, kind):
        if self.load:
            return "opened"
        if kind == "crash" and not self.area:
            return "no-area"
        self.load = {"caller": caller, "kind": kind, "segments": [], "written": None}
        return "done"

    def add(self, _, mem, memsz, data):
        if not self.load:
            return "not-open"
        if self.load["written"]:
            return "written"
        self.load["segments"].append(Segment(mem, memsz, data))
        return "done"

    def write(self, _):
        if not self.load:
            return "not-open"
        if self.load["written"]:
            return "written"
        load, self.load = self.load, None
        segments, kind = load["segments"], load["kind"]
        fault = refusal(segments, self.area, kind == "crash")
        if fault:
            return f"segments {fault}"
        if kind == "crash":
            self.memory.update(wanted(segments))
            self.crash = None
            load["written"] = segments
        else:
            pages = sum(len(segment.pages()) for segment in segments)
            need = pages + -(-(len(segments) + pages) // SLOTS) + (2 if kind == "kept" else 1)
            if len(self.pool) < need:
                return f"no-pages {len(self.pool)} {need}"
            load["written"] = Image(segments, kind == "kept", self.pool, need)
            self.memory.update(load["written"].laid)
            self.pool = self.pool[need:]
        self.load = load
        return "done"

    def install(self, _):
        if not self.load:
            return "not-open"
        if not self.load["written"]:
            return "not-written"
        if self.load["kind"] == "crash":
            self.crash = self.load["written"]
        else:
            if self.normal:
                self.pool += self.normal.pages
            self.normal = self.load["written"]
        self.load = None
        return "done"

    def cancel(self, _):
        if not self.load:
            return "not-open"
        if self.load["written"] and self.load["kind"] != "crash":
            self.pool += self.load["written"].pages
        self.load = None
        return "done"

    def unload(self, _, kind):
        if kind == "crash":
            if not self.crash:
                return "no-image"
            self.crash = None
        else:
            if not self.normal:
                return "no-image"
            self.pool += self.normal.pages
            self.normal = None
        return "done"

    def store(self, page, data):
        if self.touches(page):
            return f"touched {page:x}"
        self.memory[page] = filled(data)
        return "done"

    def exec(self, _):
        if not self.normal:
            return "no-image"
        before, image = dict(self.memory), self.normal
        if image.kept:
            for page, source in image.pairs:
                self.memory[page] = before.get(source, bytes(PAGE))
                self.memory[source] = before.get(page, bytes(PAGE))
            if image.pairs:
                self.memory[image.swap] = before.get(image.pairs[-1][1], bytes(PAGE))
        else:
            self.memory.update(image.bytes)
        self.gone = True
        return "done"

    def panic(self):
        if not self.crash:
            return "no-image"
        self.gone = True
        return "done"

    def reply(self, event):
        name, *parts = event
        if self.gone:
            return "gone"
        if name not in ("store", "panic") and self.load and self.load["caller"] != parts[0]:
            return f"busy {self.load['caller']}"
        return getattr(self, name)(*parts)


def memory_file(pages):
    held = [(page, data) for page, data in sorted(pages.items()) if any(data)]
    return b"KXMEM001" + struct.pack("<Q", len(held)) + b"".join(struct.pack("<Q", page) + data for page, data in held)
