"""Load records: docs/FORMATS.md has their format."""
import hashlib
import struct

from companion.numbers import END, PAGE, up
from companion.refusals import Wrong

# The bytes of a segment's numbers in a load record, and of its digest, by the record's first eight bytes.
NUMBERS = 24
DIGESTS = {b"KXREC001": 0, b"KXREC002": 32}
MOST_SEGMENTS, MOST_SEGMENT_PAGES = 16, 65536
# the first word of a Multiboot header, which is sought in so many bytes; the sum of its three words is 0
MULTIBOOT, MULTIBOOT_PLACE = 0x1BADB002, 8192
# in boot parameters: the address of a list of setup_data
SETUP_DATA = slice(0x250, 0x258)


class Segment:
    """A segment of a load record."""

    def __init__(self, mem, memsz, data):
        self.mem, self.memsz, self.data = mem, memsz, data

    def __contains__(self, address):
        return self.mem <= address < self.mem + self.memsz

    def bytes_at(self, address, size):
        """So many bytes of memory from an address on, which are the segment's."""
        place = address - self.mem
        return self.data[place : place + size].ljust(min(size, self.memsz - place), b"\0")

    def is_parameters(self):
        """Whether it has the boot parameters of Linux, as the program, kexec-tools and Linux write them (type_of_loader 0xd.
        of hdr)."""
        return len(self.data) > PAGE and self.data[0x202:0x206] == b"HdrS" and self.data[0x210] >> 4 == 0xD

    def has_multiboot_header(self):
        """Whether it has a Multiboot header where a kernel of this kind has one (Multiboot 0.6.96, 3.1)."""
        data = self.data[:MULTIBOOT_PLACE]
        words = struct.unpack_from(f"<{len(data) // 4}I", data)
        return any(word == MULTIBOOT and sum(words[i : i + 3]) % (1 << 32) == 0 for i, word in enumerate(words))

    def is_crash_headers(self):
        """Whether it has the headers of a core file."""
        return self.data[:4] == b"\x7fELF" and self.data[16:18] == b"\4\0"


def is_record(path):
    """Whether a file begins as a load record."""
    with open(path, "rb") as file:
        return file.read(8) in DIGESTS


def segments_of(record):
    """The segments of a load record, each as the bytes of its numbers and its own."""
    if record[:8] not in DIGESTS or len(record) < 96:
        raise Wrong("this is not a load record: it does not begin with KXREC002 or KXREC001 and its numbers")
    (count,) = struct.unpack_from("<Q", record, 88)
    if count == 0:
        raise Wrong("the load record has no segments, and a load needs at least one")
    if count > MOST_SEGMENTS:
        raise Wrong(f"the load record has {count} segments, and at most {MOST_SEGMENTS} are allowed")
    at = 96
    for i in range(count):
        numbers = record[at : at + NUMBERS]
        if len(numbers) < NUMBERS:
            raise Wrong(f"the load record is cut off in segment {i}")
        (size,) = struct.unpack_from("<Q", numbers, 16)
        at += NUMBERS
        digest = record[at : at + DIGESTS[record[:8]]]
        at += DIGESTS[record[:8]]
        found = record[at : at + size]
        if at + size > len(record):
            raise Wrong(f"the load record is cut off in segment {i}")
        if digest and hashlib.sha256(found).digest() != digest:
            raise Wrong(f"the digest of segment {i} of the load record is not that of its bytes")
        yield numbers, found
        at += size
    if at < len(record):
        raise Wrong(f"the load record goes on after its last segment, at byte {at}")


def refuse_numbers(kind, mode, pages):
    """Refuses kind, mode, and the addresses of control and swap page, as the program does."""
    if kind > 1:
        raise Wrong(f"the kind at byte 8 of the load record is {kind}, and must be 0 (normal) or 1 (crash)")
    if mode > 1 - kind:
        raise Wrong(f"the mode at byte 12 of the load record is {mode}, and must be 0 (plain), or 1 (context preserved) where "
                    "the kind is 0")
    for place, page, is_there in zip((24, 32), pages, (kind == 0, mode == 1)):
        if page % PAGE or page >= (END if is_there else 1):
            raise Wrong(f"the address of a page at byte {place} of the load record is {page:#x}, and must be "
                        + (f"a multiple of {PAGE:#x} below {END:#x}" if is_there else "0, as there is no such page"))


def refuse_segments(segments):
    """Refuses segments that break a rule of docs/FORMATS.md, in the order of these rules."""
    for i, segment in enumerate(segments):
        if segment.mem % PAGE or segment.memsz % PAGE or segment.mem + segment.memsz >= END:
            raise Wrong(f"the memory of segment {i} of the load record does not begin and end at a multiple of {PAGE:#x} below "
                        f"{END:#x}")
    for i, segment in enumerate(segments):
        for j, other in enumerate(segments[:i]):
            if segment.mem < other.mem + other.memsz and other.mem < segment.mem + segment.memsz:
                raise Wrong(f"the memory of segment {i} of the load record overlaps that of segment {j}")
    for i, segment in enumerate(segments):
        if len(segment.data) > segment.memsz:
            raise Wrong(f"segment {i} of the load record has more bytes than memory to put them in")
    pages = sum(segment.memsz for segment in segments) // PAGE
    if pages > MOST_SEGMENT_PAGES:
        raise Wrong(f"the segments of the load record have {pages} pages together, and at most {MOST_SEGMENT_PAGES} are "
                    "allowed")


class Record:
    """A load record; what the program refuses as one is refused here too."""

    def __init__(self, path):
        with open(path, "rb") as file:
            data = file.read()
        self.path, self.segments = path, []
        try:
            self.read(data)
        except Wrong as wrong:
            raise Wrong(f"{path}: {wrong}") from None

    def read(self, data):
        segments = list(segments_of(data))
        self.version = data[7] - ord("0")
        self.kind, self.mode = struct.unpack_from("<II", data, 8)
        self.head, self.control, self.swap = struct.unpack_from("<QQQ", data, 16)
        self.entry, self.rax, self.rbx, self.rsi, self.regions, self.digest = struct.unpack_from("<6Q", data, 40)
        refuse_numbers(self.kind, self.mode, (self.control, self.swap))
        for numbers, own in segments:
            mem, memsz, _ = struct.unpack("<QQQ", numbers)
            self.segments.append(Segment(mem, memsz, own))
        refuse_segments(self.segments)

    def pages(self):
        return sum(segment.memsz for segment in self.segments) // PAGE

    def part(self, page):
        """The number of the segment that has a page, and the page's place in it; two Nones where none has it."""
        for i, segment in enumerate(self.segments):
            if page * PAGE in segment:
                return i, page * PAGE - segment.mem
        return None, None

    def wanted(self, page):
        """What a page is to have; None where nothing is wanted of it."""
        i, _ = self.part(page)
        return None if i is None else self.segments[i].bytes_at(page * PAGE, PAGE)

    def names(self):
        """What each segment is, as far as its bytes and the other numbers show."""
        names = names_of(self.segments, self.regions)
        if "kernel" not in names:
            # the program's own load puts the kernel first
            for i, segment in enumerate(self.segments):
                if not names[i] and (self.entry in segment or (i == 0 and self.regions)):
                    names[i] = "kernel"
        return names

    def named(self, name):
        """The first segment of this name; None without one."""
        return next((segment for segment, own in zip(self.segments, self.names()) if own == name), None)


def names_of(segments, regions):
    """What each segment is, as far as the bytes show, and the address of a purgatory's table of regions: purgatory, boot
    parameters, crash headers, a Multiboot kernel, and what the boot parameters point to. The kernel of boot parameters is
    the largest segment that has no other name. Empty where it is not known."""
    names, parameters = {}, None
    for i, segment in enumerate(segments):
        if regions and regions in segment:
            names[i] = "purgatory"
        elif segment.is_parameters():
            names[i], parameters = "boot parameters", segment.data
        elif segment.is_crash_headers():
            names[i] = "crash headers"
        elif segment.has_multiboot_header():
            names[i] = "kernel"
    if parameters:
        name_by_parameters(segments, names, parameters)
    return [names.get(i, "") for i in range(len(segments))]


def name_by_parameters(segments, names, parameters):
    """Names what boot parameters point to, and their kernel (The Linux/x86 Boot Protocol)."""
    places = {"initrd": initrd_of(parameters)[0], "setup data": int.from_bytes(parameters[SETUP_DATA], "little")}
    for i, segment in enumerate(segments):
        names.update((i, what) for what, at in places.items() if at and at in segment and i not in names)
    rest = [(segment.memsz, i) for i, segment in enumerate(segments) if i not in names]
    if rest:
        names[max(rest)[1]] = "kernel"


def initrd_of(page):
    """The address and the length of the initrd in boot parameters (ramdisk_image, ext_ramdisk_image and their sizes)."""
    return tuple(int.from_bytes(page[low : low + 4], "little") | int.from_bytes(page[high : high + 4], "little") << 32
                 for low, high in ((0x218, 0xC0), (0x21C, 0xC4)))


def record_bytes(head, control, segments, **numbers):
    """The bytes of a load record, version 2: the segments are (address, bytes), zero-filled to whole pages, or (address, bytes,
    memsz); `swap`, `entry` and the registers are numbers. With a swap page its context is preserved."""
    value = lambda name: numbers.get(name, 0)
    entry = numbers.get("entry", segments[0][0])
    record = b"KXREC002" + struct.pack("<II", value("kind"), 1 if "swap" in numbers else 0)
    record += struct.pack("<10Q", head, control, value("swap"), entry, value("rax"), value("rbx"), value("rsi"),
                          value("regions"), value("digest"), len(segments))
    parts = [record]
    for at, data, *memory in segments:
        (size,) = memory or (up(len(data), PAGE),)
        parts += [struct.pack("<QQQ", at, size, len(data)), hashlib.sha256(data).digest(), data]
    return b"".join(parts)


def without_digests(record):
    """The load record in the older version, in which no segment has a digest."""
    return b"KXREC001" + record[8:96] + b"".join(numbers + data for numbers, data in segments_of(record))
