"""Tests of `loaded` over made-up machines, which need no QEMU and no root: `tests` is what scripts/test-scripts makes."""
import errno
import os
import re
import socket
import struct
import threading
from types import SimpleNamespace
from unittest import mock

import made_up_machine
from companion import memory_files, program, records
from companion.loaded import comparison, copying, findings, guest_machine, many_runs, output, sources, spoils
from companion.loaded.gdb_stub import Stub
from companion.refusals import Wrong
from made_up_machine import COPIES, DESTINATION, EXCHANGES, PAGE, SOURCE, Machine, filled

# of the list of a made-up machine: its words with the head and the done word, its list pages, its pairs
FILES = ("memory.kxmem", "record", "map")
LIST = "accepted words 20 links 2 pairs 14\n"
# What tells each way to spoil a list; where it is not the same, with exchanges and with copies.
TOLD = {
    "a byte of a source": "exec says regions differ",
    "a word has no flag": "check says word [0-9]+: Flags",
    "a word has two flags": "check says word [0-9]+: Flags",
    "a word has the source of an earlier word": ("check says word [0-9]+: PairsMeet", "exec says regions differ"),
    "a word has the source of the next word": ("check says word [0-9]+: PairsMeet", "exec says regions differ"),
    "a word has an earlier destination as its source": "check says word [0-9]+: SourceSpoiled",
    "a word has the control page as its source": "check says word [0-9]+: ControlTouched",
    "a word has the top of the page tables as its source": "loaded says word [0-9]+ touches the top of the page tables",
    "a word has a source that is not below 2^46": "check says word [0-9]+: PastLimit",
    "a word is a destination in place of a source": "check says word [0-9]+: NotWanted",
    "a word ends the list": "check says word [0-9]+: Missing",
    "the last word does not end the list": "check says word [0-9]+: (NotWanted|Flags|TwiceWritten)",
    "a word has the swap page as its source": ("check says word [0-9]+: SwapTouched",
                                               "loaded says word [0-9]+ touches the swap page"),
    "a word links to the page of an earlier link": "check says word [0-9]+: LinkAgain",
}


def laid_out(tests, name, machine):
    """A machine's files, as the folder of a running machine and as a dump."""
    for place, data in ((f"{name}/proc/kcore", machine.core(True)), (f"{name}/proc/kallsyms", machine.kallsyms()),
                        (f"{name}/proc/iomem", machine.map), (f"{name}/sys/kernel/btf/vmlinux", machine.types.data),
                        (f"{name}/core", machine.core())):
        os.makedirs(f"{tests.folder}/{os.path.dirname(place)}", exist_ok=True)
        tests.write(place, data)


def loaded(tests, *words):
    """Runs the word: its status, and what it printed."""
    status, out, said = tests.run("scripts/kernelyet", "loaded", *words)
    return status, out + said


def running(name, *words):
    return ("--proc", f"{name}/proc", "--sysfs", f"{name}/sys", *words)


def memory_of(tests, path):
    """The pages of a memory file."""
    data = tests.read(path)
    return {struct.unpack_from("<Q", data, at)[0]: data[at + 8 : at + 4104] for at in range(16, len(data), 4104)}


def record_of(tests, path):
    """Kind, mode, head, control, swap, entry, table and digest of a load record, and its segments."""
    data = tests.read(path)
    kind, mode, head, control, swap, entry, _, _, _, table, digest, count = struct.unpack_from("<II10Q", data, 8)
    at, segments = 96, []
    for _ in range(count):
        mem, memsz, size = struct.unpack_from("<QQQ", data, at)
        segments.append((mem, memsz, data[at + 56 : at + 56 + size]))
        at += 56 + size
    return (data[:8], kind, mode, head, control, swap, entry, table, digest), segments


def test_machines(tests):
    """Each kind of image, by both layouts and both depths of page tables: from a running machine and from a dump the same
    files."""
    for way, is_apart, levels, code in (
        ("load", False, 4, EXCHANGES), ("file", False, 5, EXCHANGES), ("load", True, 5, COPIES),
        ("file", True, 4, EXCHANGES), ("crash", False, 4, EXCHANGES),
    ):
        machine = Machine(way, is_apart, code, levels)
        laid_out(tests, "one", machine)
        words = ["--crash"] * (way == "crash")
        status, told = loaded(tests, *running("one"), *words, "here")
        tests.same(f"loaded of a running machine, {way}",
                   (status, "not in the dump" in told, "the digest is that of the bytes" in told), (0, False, True))
        tests.same(f"loaded of a dump, {way}", loaded(tests, "--core", "one/core", *words, "there")[0], 0)
        for name in FILES:
            tests.same(f"{name}, {way}: of a running machine and of its dump", tests.read(f"here/{name}"),
                       tests.read(f"there/{name}"))
        tests.same(f"the map, {way}", tests.read("there/map").decode(), machine.map)
        tests.write("one/kdump", machine.kdump())
        loaded(tests, "--core", "one/kdump", *words, "packed")
        tests.same(f"of a dump in kdump's format, {way}", [tests.read(f"packed/{name}") for name in FILES],
                   [tests.read(f"here/{name}") for name in FILES])
        look_at(tests, machine, way, code is EXCHANGES and way != "crash")


def look_at(tests, machine, way, is_kept):
    """The files are what the machine has, and the program accepts them."""
    is_crash = way == "crash"
    numbers, segments = record_of(tests, "here/record")
    wanted = (b"KXREC002", int(is_crash), int(is_kept), machine.head, 0 if is_crash else machine.control * PAGE,
              machine.swap * PAGE if is_kept else 0, machine.start, machine.table, machine.digest)
    tests.same(f"the record, {way}", numbers, wanted)
    tests.same(f"its segments, {way}", segments, machine.segments)
    if is_crash:
        pages = {page for mem, size, _ in machine.segments for page in range(mem // PAGE, (mem + size) // PAGE)}
    else:
        sources_of = {machine.word(at) // PAGE for at in machine.places if machine.word(at) & 0xFFF == SOURCE}
        pages = {machine.control, *machine.list_pages, *sources_of}
    held = {page: bytes(machine.pages[page]) for page in pages if any(machine.pages[page])}
    tests.same(f"the memory, {way}", memory_of(tests, "here/memory.kxmem"), held)
    told = tests.run("kexec", "check", "here/memory.kxmem", "here/record")[1]
    tests.same(f"check, {way}", told, "accepted crash pages 14\n" if is_crash else LIST)
    told = tests.run("kexec", "exec", "here/memory.kxmem", "here/record", "out.kxmem")[1]
    tests.same(f"the regions, {way}", [line for line in told.split("\n") if line.startswith("regions")], ["regions same"])


def put(machine, number, word):
    """Sets a word of the list, by its number."""
    machine.write(machine.places[number - 1], struct.pack("<Q", word))


def spoiled_by(way):
    """What a list is told whose eighth word, or fifth of the second page, is another."""
    source = lambda machine, number: machine.word(machine.places[number - 1])
    return {
        "twice": lambda m: put(m, 4, source(m, 3)),
        "flag": lambda m: put(m, 4, source(m, 4) & -PAGE),
        "destination": lambda m: put(m, 4, source(m, 4) & -PAGE | DESTINATION),
        "done": lambda m: put(m, 4, 4),
        "byte": lambda m: m.write((source(m, 3) & -PAGE) + 8, b"\xff"),
    }[way]


def test_spoiled(tests):
    """One wrong word of a list is told by check, with its number and the reason; a wrong byte of a source by the regions."""
    for way, code, wanted in (("twice", EXCHANGES, "word 4: PairsMeet\n"), ("twice", COPIES, LIST),
                              ("flag", EXCHANGES, "word 4: Flags\n"), ("destination", EXCHANGES, "word 5: NotWanted\n"),
                              ("done", COPIES, "word 4: Missing 402000\n"), ("byte", COPIES, LIST)):
        laid_out(tests, "bad", Machine("load", True, code, spoil=spoiled_by(way)))
        tests.same(f"a list that is spoiled is read: {way}", loaded(tests, "--core", "bad/core", "bad/out")[0], 0)
        told = tests.run("kexec", "check", "bad/out/memory.kxmem", "bad/out/record")[1]
        tests.same(f"check of a list that is spoiled: {way}", told, wanted)


def test_loader(tests):
    """The purgatory of kexec-tools is found in its program, also where its digest is wrong."""
    machine = Machine("load", True, COPIES, spoil=spoiled_by("byte"))
    laid_out(tests, "bad", machine)
    tests.write("bad/loader", b"\x7fELF the program" + bytes(999) + machine.purgatory.file)
    loaded(tests, "--core", "bad/core", "--loader", "bad/loader", "bad/out")
    numbers, _ = record_of(tests, "bad/out/record")
    tests.same("table and digest by the symbols", numbers[-2:], (machine.table, machine.digest))
    told = tests.run("kexec", "exec", "bad/out/memory.kxmem", "bad/out/record", "out.kxmem")[1]
    tests.same("a byte of a source is told by the regions", "regions differ" in told, True)
    told = loaded(tests, "--core", "bad/core", "--loader", "bad/loader", "bad/out")[1]
    tests.same("and by loaded", "the digest is NOT that of the bytes" in told, True)
    loaded(tests, "--core", "bad/core", "bad/out")
    numbers, _ = record_of(tests, "bad/out/record")
    tests.same("without the program they are left out", numbers[-2:], (0, 0))


def test_touched(tests):
    """A list that touches a page of the image's own is named: the program knows one of them, and Linux has more."""
    for what, page in (("the top of the page tables", "top"), ("a page table", "own_table"), ("the swap page", "swap")):
        plain = Machine("load")
        number = getattr(plain, page)
        laid_out(tests, "bad", Machine("load", spoil=lambda m: put(m, 4, number * PAGE | SOURCE)))
        status, told = loaded(tests, "--core", "bad/core", "bad/out")
        wanted = f"word 4 touches page {number * PAGE:#x}, {what}, without which Linux cannot run the list"
        tests.same(f"a source that is {what}", (status, wanted in told), (1, True))


def test_in_place(tests):
    """A segment that was loaded in its place is left out of the record, since no list has it."""
    machine = Machine("load", True, COPIES, in_place=1)
    laid_out(tests, "one", machine)
    status, told = loaded(tests, "--core", "one/core", "here")
    tests.same("a segment in its place", (status, "segment 0x400000 was loaded in its place" in told), (0, True))
    tests.same("the others", record_of(tests, "here/record")[1], machine.segments[1:])
    told = tests.run("kexec", "check", "here/memory.kxmem", "here/record")[1]
    tests.same("check of the others", told, "accepted words 13 links 2 pairs 8\n")
    laid_out(tests, "one", Machine("load", True, COPIES, in_place=3))
    tests.refuses("it has no list to be checked", "scripts/kernelyet", "loaded", "--core", "one/core", "here")


def test_options(tests):
    """--copies, --all, --raw, and symbols, types and map from files."""
    machine = Machine("load")
    laid_out(tests, "one", machine)
    loaded(tests, "--core", "one/core", "--copies", "--all", "here")
    numbers, _ = record_of(tests, "here/record")
    tests.same("--copies", numbers[1:3], (0, 0))
    before = filled(99)
    machine.write(0x400000, before)
    tests.write("core", machine.core())
    loaded(tests, "--core", "core", "--all", "here")
    tests.same("--all has the destinations as they are", memory_of(tests, "here/memory.kxmem").get(0x400), before)
    moved = "".join(f"{at - made_up_machine.SHIFT:016x} D {name}\n" for name, at in machine.listed.items())
    tests.write("System.map", moved)
    tests.write("map", machine.map)
    tests.write("raw", raw_of(machine))
    given = ("--symbols", "System.map", "--map", "map", "--btf", "one/sys/kernel/btf/vmlinux")
    tests.same("a dump of bytes, with files", loaded(tests, "--raw", "raw", *given, "there")[0], 0)
    loaded(tests, "--core", "core", "here")
    for name in FILES:
        tests.same(f"{name} of both", tests.read(f"there/{name}"), tests.read(f"here/{name}"))


def test_refusals(tests):
    """Each refusal is one sentence that says what to do."""
    for changes, sentence in (
        ({"nothing": 1}, "no next kernel is loaded (kexec_image is 0): kexec -l loads one"),
        ({"no_btf": 1}, "has no BTF, which says how its structs lie (CONFIG_DEBUG_INFO_BTF): give --btf FILE"),
        ({"no_note": 1}, "has no VMCOREINFO, neither as a note nor in memory"),
        ({"without": "control_pages"},
         "the layout of this kernel is not known: its struct kimage has no member control_pages"),
        ({"count": 17}, "the layout of this kernel is not known: its struct kimage has 17 segments"),
        ({"memsz": 128 << 20}, "and a load record has at most 65536 (256 MiB)"),
    ):
        laid_out(tests, "bad", Machine("load", **changes))
        tests.refuses(sentence, "scripts/kernelyet", "loaded", "--core", "bad/core", "bad/out")
    laid_out(tests, "one", Machine("crash"))
    tests.refuses("a crash kernel is: give --crash", "scripts/kernelyet", "loaded", "--core", "one/core", "out")
    tests.write("one/proc/kallsyms", f"{0:016x} T _text\n")
    tests.refuses("has zeros for all addresses", "scripts/kernelyet", "loaded", *running("one"), "out")
    os.remove(f"{tests.folder}/one/sys/kernel/btf/vmlinux")
    tests.refuses("this kernel has no BTF", "scripts/kernelyet", "loaded", *running("one"), "out")
    tests.refuses("there is no none/proc/kcore", "scripts/kernelyet", "loaded", *running("none"), "out")
    tests.write("text", "no core\n")
    tests.refuses("text is not an ELF64 core file", "scripts/kernelyet", "loaded", "--core", "text", "out")
    for code, sentence in ((errno.EPERM, "is locked down (kernel_lockdown(7))"), (errno.EACCES, "is for root alone")):
        tests.same(f"errno {code}", sentence in sources.why_not("/proc/kcore", OSError(code, "")), True)


def test_memory_limit(tests):
    """More pages than a memory file may have are refused, and no file is left."""
    path, full = f"{tests.folder}/full", SimpleNamespace(has=lambda at: True, page=lambda number: b"\1" * PAGE)
    with mock.patch.object(memory_files, "MOST_PAGES", 3), mock.patch.object(output, "MOST_PAGES", 3):
        tests.same("as many pages as may be", output.write_memory(path, full, range(3)), (3, 0))
        os.remove(path)
        try:
            output.write_memory(path, full, range(4))
            told = ""
        except Wrong as wrong:
            told = str(wrong)
    tests.same("one page too many", "4 pages are not all zeros, and a memory file has at most" in told, True)
    tests.same("nothing is left of it", [name for name in os.listdir(tests.folder) if name.startswith("full")], [])


def test_copying(tests):
    """The code of a kernel says whether it runs plain lists by exchanges."""
    for code, wanted in ((EXCHANGES, True), (COPIES, False), (b"\xc3" * 99, None)):
        tests.same("the way of copying", copying.is_by_exchanges(code), wanted)


def test_names(tests):
    """The segments of a Linux kernel are named by its boot parameters, where they point to (The Linux/x86 Boot Protocol)."""
    page = bytearray(2 * PAGE)
    page[0x202:0x206], page[0x210] = b"HdrS", 0xD1
    struct.pack_into("<II", page, 0x218, 0x5000000, 3 * PAGE)
    struct.pack_into("<Q", page, 0x250, 0x100000)
    rows = [(0x100000, bytes(48)), (0x5000000, bytes(3 * PAGE)), (0x9000000, bytes(9 * PAGE)), (0xA000000, bytes(page)),
            (0xB000000, bytes(PAGE)), (0xC000000, b"\x7fELF\2\1\1" + bytes(9) + b"\4\0")]
    segments = [records.Segment(mem, -(-len(data) // PAGE) * PAGE, data) for mem, data in rows]
    tests.same("the names of segments", records.names_of(segments, 0),
               ["setup data", "initrd", "kernel", "boot parameters", "", "crash headers"])
    tests.same("with a purgatory", records.names_of(segments, 0xB000080)[4], "purgatory")
    header = bytes(64) + struct.pack("<3I", 0x1BADB002, 3, -0x1BADB005 & 0xFFFFFFFF)
    for data, wanted in ((header, "kernel"), (header[:-4] + bytes(4), ""), (bytes(8192) + header, "")):
        told = records.names_of([records.Segment(0, PAGE, bytes(168)), records.Segment(PAGE, 3 * PAGE, data)], 0)
        tests.same("a Multiboot kernel", told, ["", wanted])


def raw_of(machine):
    """The memory of a machine, as bytes from address 0 on."""
    raw = bytearray(max(machine.pages) * PAGE + PAGE)
    for page, data in machine.pages.items():
        raw[page * PAGE : page * PAGE + PAGE] = data
    return bytes(raw)


def test_spoils(tests):
    """Each word that the experiment spoils in a guest's memory is told: by check, by the regions, or by loaded itself."""
    program.KEXEC = tests.env["KEXEC"]
    for way, is_apart, code in (("file", False, EXCHANGES), ("load", True, COPIES)):
        machine = Machine(way, is_apart, code)
        tests.write("ram", raw_of(machine))
        tests.write("loader", b"the program" + machine.purgatory.file)
        path, folder, loader = (f"{tests.folder}/{name}" for name in ("ram", "spoiled", "loader"))
        kernel = sources.of_dump(sources.Dump(raw=path))[0]
        rows = spoils.spoils_of(findings.find(kernel, False), kernel.physical)
        told = {}
        for row in rows:
            before = kernel.physical.word(row.place)
            spoils.write(path, row.place, row.value)
            found = findings.find(kernel, False, loader)
            output.write(folder, kernel, found, ())
            # the words without the numbers of words and pages
            told[re.sub("word [0-9]+", "a word", row.what)] = comparison.fault_of(folder, found) or ""
            spoils.write(path, row.place, before)
        for what, wanted in TOLD.items():
            wanted = wanted if isinstance(wanted, str) else wanted[code is COPIES]
            found = told.pop(what, "")
            tests.same(f"{way}: {what}", found if not re.search(wanted, found) else wanted, wanted)
        tests.same(f"{way}: no other way to spoil", told, {})


def test_guest_memory(tests):
    """The file of a guest's RAM: what is above 3 GiB lies from 4 GiB on."""
    path = f"{tests.folder}/ram"
    with open(path, "wb") as file:
        for place, data in ((0x5000, b"low page"), (3 << 30, b"high one")):
            file.seek(place)
            file.write(data)
        file.truncate((3 << 30) + 2 * PAGE)
    memory = guest_machine.physical(path)
    tests.same("low and high memory", (memory.read(0x5000, 8), memory.read(1 << 32, 8)), (b"low page", b"high one"))
    tests.same("no memory between", [memory.has(at) for at in ((3 << 30) - 1, 3 << 30, (1 << 32) + 2 * PAGE)],
               [True, False, False])
    spoils.write(path, (1 << 32) + 8, 0x1122334455667788)
    tests.same("a word that is written there", memory.word((1 << 32) + 8), 0x1122334455667788)
    os.remove(path)


def test_stub(tests):
    """The way to a breakpoint: a stop at the same address elsewhere is stepped past (GDB Remote Serial Protocol)."""
    ours, theirs = socket.socketpair()
    asked = []

    def serve():
        theirs.sendall(b"$T05thread:01;#07")
        while True:
            data = theirs.recv(4096)
            for text in re.findall(rb"\$([^#]*)#", data):
                asked.append(text.decode())
                # what lets the machine run is answered by the stop, anything else at once, and a stop may come before it
                theirs.sendall(b"+$T05thread:01;#07" if text in (b"c", b"s") else b"+$T02#b6$OK#9a")
            if len(asked) == 7:
                return

    thread = threading.Thread(target=serve, daemon=True)
    thread.start()
    stops = iter((False, True))
    Stub(ours).go_to(0x9A120, lambda: next(stops), 10)
    thread.join(10)
    tests.same("what was asked of the stub", asked, ["Z1,9a120,1", "c", "z1,9a120,1", "s", "Z1,9a120,1", "c", "z1,9a120,1"])
    ours.close()
    theirs.close()


def test_runs(tests):
    """A file of runs has the words of one on each line, and remarks."""
    tests.write("runs", "# a remark\n--way load  # another\n\n--kernel 'a b' --way file\n")
    tests.same("the runs of a file", many_runs.lines_of(f"{tests.folder}/runs"),
               [["--way", "load"], ["--kernel", "a b", "--way", "file"]])
    tests.write("runs", "# none\n")
    tests.refuses("has no run", "scripts/kernelyet", "guest", "--loaded", "--runs", "runs")
    tests.refuses("no kernel (--kernel)", "scripts/kernelyet", "guest", "--loaded", "--kernel", "nothing")


def in_folder(test):
    """A test in a folder of its own, so that its files are no others'."""

    def run(tests):
        folder, tests.folder = tests.folder, f"{tests.folder}/loaded"
        os.makedirs(tests.folder, exist_ok=True)
        try:
            test(tests)
        finally:
            tests.folder = folder

    return run


ALL = [in_folder(test) for test in (test_machines, test_spoiled, test_loader, test_touched, test_in_place, test_options,
                                    test_refusals, test_memory_limit, test_copying, test_names, test_spoils,
                                    test_guest_memory, test_stub, test_runs)]
