"""What is said of an image that was read."""
import time

from companion import records
from companion.loaded import copying, findings as found_words, purgatory
from companion.numbers import PAGE, address, counted, size_text

STARTED = time.monotonic()


def step(text):
    """A step of the experiment, behind the seconds since its start."""
    print(f"[{time.monotonic() - STARTED:5.1f}] {text}", flush=True)


def findings(kernel, found, is_copies):
    _kernel(kernel)
    _image(found)
    if not found.image.is_crash:
        _mode(found, is_copies)


def _kernel(kernel):
    code = address(kernel.place_of_image(kernel.symbol("_text")))
    print(f"Linux {kernel.release}, {kernel.levels} levels of page tables, its code from {code} on"
          + ("" if kernel.is_tried() else "; this version was not tried"))


def _image(found):
    image = found.image
    way = "kexec_file_load (kexec -s)" if image.is_by_file else "kexec_load (kexec -c)"
    print(f"{'crash' if image.is_crash else 'next'} kernel, loaded by {way}: entry {address(image.start)}, "
          f"{counted(len(image.segments), 'segment')}")
    segments = [records.Segment(row.mem, row.memsz, data) for row, data in zip(found.segments, found.data)]
    for row, name in zip(found.segments, records.names_of(segments, found.purgatory and found.purgatory.table)):
        print(f"  segment {address(row.mem)} memsz {size_text(row.memsz)} bufsz {counted(row.bufsz, 'byte')} {name}".rstrip())
    for row in image.segments:
        if row.is_in_place:
            print(f"  segment {address(row.mem)} was loaded in its place, which no list has: it is left out")
    if not image.is_crash:
        print(f"list: {counted(len(found.words), 'word')}, {counted(len(found.links()), 'link page')}, "
              f"{counted(len(found.pairs), 'pair')}")
    if found.lacking:
        print(f"pages of the segments that no pair brings: {found.lacking}; check names the first")
    print(f"pages of the image's own: {found_words.own_text(image.own)}")
    places = found.purgatory
    if places:
        print(f"purgatory: table of regions at {address(places.table)}, digest at {address(places.digest)}, found {places.how}")
        if purgatory.is_right(found.segments, found.data, places):
            print("  the digest is that of the bytes")
        else:
            print("  the digest is NOT that of the bytes: they are not those that were loaded")
    else:
        print("purgatory: its table of regions was not found: the record has none, and exec says nothing of regions")


def _mode(found, is_copies):
    """In which mode the record is, and why."""
    how = {True: "this kernel runs each list by exchanges through the swap page", None: copying.UNKNOWN,
           False: "this kernel copies each page"}[found.is_exchange]
    if found.is_mode_kept(is_copies):
        why = "the context is to be preserved" if found.image.is_kept else how
        print(f"record: with context preserved, swap page {address(found.image.swap * PAGE)}: {why}")
    else:
        print(f"record: plain: {how}" + " (--copies is given)" * (found.is_exchange is not False))
