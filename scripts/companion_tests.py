"""Tests of the companion's words and of what they share, for test-scripts: each takes the object that runs and compares."""
import gzip
import json
import lzma
import os
import re
import struct
import subprocess
import time
import tracemalloc

import kexec_files as files
from companion import crash_sizes, initrds, kernels, machine, maps, numbers, picture_memory, pools, printed, scene
from companion.guest_initrd import archive
from companion.kernels import Kernel, write_bzimage
from companion.memory_files import memory_bytes
from companion.numbers import PAGE
from companion.program import TOP
from companion.refusals import Wrong

FIRST, BACK = f"{TOP}/examples/first", f"{TOP}/examples/comes-back"
KERNELYET = "scripts/kernelyet"
MAP = """00000000-00000fff : Reserved
00001000-0009fbff : System RAM
0009fc00-000fffff : Reserved
00100000-03ffffff : System RAM
  01000000-01ffffff : Kernel code
  02000000-02ffffff : Crash kernel
  03000800-030017ff : Reserved
100000000-1000fffff : System RAM
"""
# The free runs of pages of this map, by the definition of RAM in docs/FORMATS.md, and its crash area.
FREE = [(0x1, 0x9F), (0x100, 0x2000), (0x3002, 0x4000), (0x100000, 0x100100)]
CRASH = (0x2000, 0x3000)


def test_numbers(tests):
    for text, wanted in (("4096", 4096), ("8G", 8 << 30), ("256MiB", 256 << 20), ("3k", 3 << 10)):
        tests.same(f"the size {text}", numbers.size_of(text), wanted)
    for count, wanted in ((1, "1 byte"), (4096, "4 KiB"), (14155776, "13.5 MiB"), (3 << 30, "3 GiB")):
        tests.same(f"{count} bytes", numbers.size_text(count), wanted)
    tests.same("0x or not", [numbers.number_of(text, 16, "x") for text in ("0x1F", "1f")], [31, 31])
    tests.same("runs without others", numbers.without([(0, 10), (20, 30)], iter([(25, 26), (8, 22)])),
               [(0, 8), (22, 25), (26, 30)])


def test_maps(tests):
    rows = maps.rows_of(MAP, "map")
    tests.same("free runs", maps.free_runs(rows), FREE)
    tests.same("crash area", maps.crash_area(rows), CRASH)
    pool = [(0x9E, 0x102), (0x1FFF, 0x2000), (0x3000, 0x3002), (0x5000, 0x5000)]
    wanted = [(0x9F, 0xFF, "taken by Reserved"), (0x2000, 0x2000, "taken by Crash kernel"),
              (0x3000, 0x3001, "taken by Reserved"), (0x5000, 0x5000, "no System RAM")]
    tests.same("pool pages that are not free RAM", pools.check_pool(pool, rows), wanted)
    tests.same("each free page is none of them", pools.check_pool([(a, b - 1) for a, b in FREE], rows), [])
    eight = maps.with_crash(maps.made_up(8 << 30), 256 << 20)
    tests.same("a made-up PC", sum(end - first for first, end in maps.free_runs(eight)),
               (8 << 18) - (256 << 8) - 0x100 - 0x21 + 0x9F - 1)
    tests.same("its crash area", maps.crash_area(eight)[1] - maps.crash_area(eight)[0], 256 << 8)
    other = maps.with_crash(eight, 64 << 20)
    tests.same("another crash area", maps.crash_area(other), (0xBBF00 - 0xBBF00 % 0x1000, 0xBB000 + 0x4000))
    tests.same("no room for one", maps.with_crash(rows, 64 << 20), None)


def test_pools(tests):
    lines, count = pools.pool_lines([(0, 200000), (300000, 500000)], True)
    tests.same("a pool has its limit", (count, lines[0], lines[-1]), (262144, "7a000-7a11f\n", "21a80-21bff\n"))
    pages = [page for line in lines for page in [int(line.partition("-")[0], 16)]]
    tests.same("the highest memory comes first", pages, sorted(pages, reverse=True))
    tests.same("the ranges of a run", list(pools.lines_of_run(100, 1500, True)), [(1024, 1500), (512, 1024), (100, 512)])
    tracemalloc.start()
    pools.pool_lines([(0x100, 1 << 26)], True)
    tests.same("a pool of much memory takes little", tracemalloc.get_traced_memory()[1] < 1 << 20, True)
    tracemalloc.stop()
    lines, count = pools.pool_lines([(2 * i, 2 * i + 1) for i in range(200000)], False)
    tests.same("a pool has at most so many bytes", sum(map(len, lines)) <= 1048576 < sum(map(len, lines)) + 6, True)


def core_of(parts):
    """An ELF core file of memory: (address, bytes) each."""
    place = 64 + 56 * len(parts)
    head = b"\x7fELF\2\1\1" + bytes(9) + struct.pack("<HHIQQQIHHHHHH", 4, 62, 1, 0, 64, 0, 0, 64, 56, len(parts), 0, 0, 0)
    rows, data = b"", b""
    for address, own in parts:
        rows += struct.pack("<IIQQQQQQ", 1, 7, place + len(data), 0, address, len(own), len(own), 0)
        data += own
    return head + rows + data


def test_machine(tests):
    tests.write("iomem", MAP)
    one, two = bytes([1]) * PAGE, bytes([2]) * PAGE
    tests.write("core", core_of([(0x100000, one + bytes(2 * PAGE) + two), (0x2000000, two),
                                 (0x3000000, bytes(5 * PAGE))]))
    status, _, said = tests.run(KERNELYET, "machine", "--map", "iomem", "--core", "core", "guest")
    tests.same("machine of a core", (status, said), (0, ""))
    tests.same("its memory", tests.read("guest/memory.kxmem"), memory_bytes({0x100: one, 0x103: two, 0x2000: two}))
    tests.same("its pool", tests.read("guest/pool"), b"3002-3004\n101-102\n")
    tests.same("its map", tests.read("guest/map").decode(), MAP)
    tests.write("raw", bytes(0x100000) + one + bytes(PAGE))
    tests.run(KERNELYET, "machine", "--lowest", "--map", "iomem", "--raw", "raw", "plain")
    tests.same("the pool of a raw dump", tests.read("plain/pool"), b"101\n")
    tests.run(KERNELYET, "machine", "--pages", "0x103-2000", "--map", "iomem", "--core", "core", "some")
    tests.same("chosen pages", len(tests.read("some/memory.kxmem")), 16 + 2 * 4104)
    tests.write("pool-of-all", "9e-102\n3000-3002\n")
    status, out, _ = tests.run(KERNELYET, "machine", "--check", "pool-of-all", "iomem")
    tests.same("--check", (status, out), (1, "0x9f-0xff: 97 pages, taken by Reserved\n0x3000-0x3001: 2 pages, taken by "
                                             "Reserved\n99 of 104 pages of the pool are not free RAM\n"))


def test_running_machine(tests):
    """What is read of /proc and /sys of a running machine, in files that stand in for them."""
    flags = bytearray(8 * 0x4000)
    for page in (0x101, 0x102, 0x2000, 0x3003):
        struct.pack_into("<Q", flags, 8 * page, 1 << 10)
    tests.write("flags", bytes(flags))
    for number, place in ((0, "1f00"), (10, "3f00"), (2, "2f00")):
        folder = f"sys/devices/system/cpu/cpu{number}"
        os.makedirs(f"{tests.folder}/{folder}", exist_ok=True)
        tests.write(f"{folder}/crash_notes", f"{place}\n")
        tests.write(f"{folder}/crash_notes_size", "360\n")
    os.makedirs(f"{tests.folder}/sys/kernel", exist_ok=True)
    tests.write("sys/kernel/vmcoreinfo", "0x000000000004f000 1024\n")
    lines = ["1f00 168\n", "2f00 168\n", "3f00 168\n", "4f000 1024\n"]
    tests.same("notes", machine.note_lines(f"{tests.folder}/sys"), (lines, []))
    for number in (0, 10, 2):
        os.remove(f"{tests.folder}/sys/devices/system/cpu/cpu{number}/crash_notes")
    found, lacking = machine.note_lines(f"{tests.folder}/sys")
    tests.same("notes that are missing", (found, len(lacking), "no crash_notes of any processor (No such" in lacking[0]),
               (lines[3:], 1, True))
    tests.same("free pages", machine.buddy_runs([(0x100, 0x2000), (0x3002, 0x4000)], f"{tests.folder}/flags"),
               [(0x101, 0x103), (0x3003, 0x3004)])


def test_kernel_files(tests):
    for front, wanted in ((bytes(0x38) + b"ARM\x64", "a kernel for arm64 processors"), (b"\x1f\x8b\x08", "compressed by gzip"),
                          (b"\x7fELF" + bytes(14) + b"\xb7\0", "an ELF file for arm64 processors"), (b"hello", None)):
        tests.same(f"a file that begins with {front[:4]!r}", kernels.kind_of(front.ljust(4096, b"\0")), wanted)
    write_bzimage(f"{tests.folder}/vmlinuz", 64 << 10, 1 << 20, (bytes([7]) * PAGE for _ in range(16)))
    tests.write("cut-vmlinuz", tests.read("vmlinuz")[: 40 << 10])
    kernel, cut = Kernel(f"{tests.folder}/vmlinuz"), Kernel(f"{tests.folder}/cut-vmlinuz")
    tests.same("a kernel's header", (kernel.memory(), kernel.lowest(), kernel.missing(), cut.missing()),
               ((1 << 20, 0x200000), 0x1000000, 0, 24 << 10))


def test_initrds(tests):
    plain = archive([("a", 0o100644, b"1" * 5000), ("b", 0o100644, b"")])
    packed = [gzip.compress(plain), lzma.compress(plain)]
    for what, data, wanted in (("one archive", plain, 2 * PAGE),
                               ("two, and zeros between", plain + bytes(512) + plain, 4 * PAGE),
                               ("early and gzip", plain + bytes(300) + packed[0], 2 * PAGE + len(plain)),
                               ("xz", packed[1], len(plain)), ("nothing", b"", 0)):
        tests.write("archive", data)
        found = initrds.Unpacked(f"{tests.folder}/archive")
        tests.same(f"unpacked: {what}", (found.size, found.is_guess, found.is_archive), (wanted, False, bool(data)))
    tests.write("archive", b"no archive")
    tests.same("unpacked: no archive", initrds.Unpacked(f"{tests.folder}/archive").is_archive, False)


def load_examples(tests):
    """Loads for the tests of lists and pictures."""
    tests.run("kexec", "load", "--type", "raw", "--at", "2000", f"{FIRST}/memory.kxmem", f"{FIRST}/pool", "m", "r",
              f"{FIRST}/kernel")
    tests.run("kexec", "load", "--kept", "--type", "raw", "--at", "2000", f"{BACK}/memory.kxmem", f"{BACK}/pool", "km", "kr",
              f"{BACK}/kernel")
    # a kernel of 1,100 pages, whose list has three link pages and whose pool has its own destinations
    tests.write("large", b"".join(bytes([1 + i % 255]) * PAGE for i in range(1100)))
    tests.write("pool", "300-400\n1000-1500\n")
    tests.run("kexec", "load", "--type", "raw", "--at", "300000", f"{FIRST}/memory.kxmem", "pool", "lm", "lr", "large")


def test_lists(tests):
    load_examples(tests)
    for memory, record in (("m", "r"), ("km", "kr"), ("lm", "lr")):
        status, out, _ = tests.run(KERNELYET, "look", "list", memory, record)
        dump = tests.run("kexec", "dump", memory, record)[1]
        tests.same(f"look list against dump of {memory}", (status, pairs_of_look(out)), (0, pairs_of_dump(dump)))
        swap = ["--swap", f"{files.Record(f'{tests.folder}/{record}').swap:x}"] * (record == "kr")
        head = f"{files.Record(f'{tests.folder}/{record}').head:x}"
        steps = tests.run(KERNELYET, "look", "steps", *swap, memory, head, "0", "9999")[1].splitlines()
        traced = tests.run("kexec", "trace", *swap, memory, f"{memory}.traced", head, "9999")[1]
        tests.same(f"look steps against trace of {memory}", f"done {len(steps)}\n", traced)
    numbers_ = files.Record(f"{tests.folder}/lr")
    tests.run(KERNELYET, "look", "make-record", "--head", f"{numbers_.head:#x}", "--control", f"{numbers_.control:x}", "mine",
              "0x300000=large")
    tests.same("look make-record", tests.read("mine") == tests.read("lr"), True)
    memory = bytearray(tests.read("m"))
    memory[16 + 8 + 9] = 0x10  # the source word's page becomes that of the list
    tests.write("bad", bytes(memory))
    status, out, _ = tests.run(KERNELYET, "look", "list", "bad", "r")
    tests.same("look list of a fault", (status, "0x2000 is to be segment 0 +0x0, and its source is 0x11000" in out), (1, True))
    tests.same("look differ", tests.run(KERNELYET, "look", "differ", "m", "bad", "r")[1],
               "0x11000-0x11fff 1 page: link page\n1 page differs\n")
    tests.same("look pages", tests.run(KERNELYET, "look", "pages", "m")[1],
               "0x11000-0x12fff 2 pages\n2 pages of at most 131072\n")


def pairs_of_look(out):
    """Each pair of the runs that `look list` prints."""
    found = re.findall(r"^  words? (\d+)(?:-\d+)?: (\w+) <- (\w+), (\d+) page", out, re.M)
    return [(int(number) + i, int(to, 16) + i * PAGE, int(source, 16) + i * PAGE)
            for number, to, source, count in found for i in range(int(count))]


def pairs_of_dump(out):
    destination, found = 0, []
    for line in out.splitlines():
        number, kind, *rest = line.split()
        if kind == "destination":
            destination = int(rest[0], 16)
        elif kind == "source" and number.isdigit():
            found.append((int(number), destination, int(rest[0], 16)))
            destination += PAGE
    return found


def test_compare(tests):
    tests.same("nothing differs", tests.run(KERNELYET, "compare", "r", "r")[:2], (0, "nothing differs\n"))
    status, out, _ = tests.run(KERNELYET, "compare", "r", "kr", "m", "km")
    tests.same("compare", (status, "kind:\n  r: normal kernel\n  kr: normal kernel, context preserved" in out), (1, True))
    crash = ["kexec", "load-panic", "--map", "iomem"]
    tests.run(*crash, "--command", "quiet a=1", "guest/memory.kxmem", "c", "c1", "vmlinuz")
    tests.run(*crash, "--command", "quiet a=2", "--initrd", "initrd", "guest/memory.kxmem", "c", "c2", "vmlinuz")
    status, out, _ = tests.run(KERNELYET, "compare", "c1", "c2")
    is_told = re.search("words in one alone:\n  c1: a=1 .*\n  c2: a=2 ", out) is not None
    tests.same("compare the command lines", (status, is_told, "initrd:\n  c1: none" in out), (1, True, True))


def test_plan(tests):
    tests.write("initrd", archive([("init", 0o100755, b"initrd" * 1000)]))
    status, out, said = tests.run(KERNELYET, "plan", "vmlinuz", "initrd", "--ram", "128M", "--command", "quiet")
    parts = re.findall(r"^([a-z ]+?)  +[0-9.]+ \w+(?: in [0-9.]+ \w+)? at 0x", out, re.M)
    tests.same("plan", (status, sorted(parts), said), (0, ["boot parameters", "initrd", "kernel"], ""))
    tests.same("plan has sizes", "61.5 KiB in 1 MiB at 0x1000000" in out, True)
    status, out, _ = tests.run(KERNELYET, "plan", "--ram", "256M", "--crash", "64M", "vmlinuz", "initrd", "--command", "quiet",
                               "--keep", "kept")
    headers = files.Record(f"{tests.folder}/kept/loaded.record").named("crash headers").mem
    wanted = f"command line     --command 'quiet memmap=0x9e000@0x1000 memmap=4K${headers:#x}'"
    tests.same("plan --crash", (status, out.splitlines()[-1]), (0, wanted))
    status, out, _ = tests.run(KERNELYET, "plan", "vmlinuz", "--ram", "2G", "--below", "0x8000000")
    tests.same("plan --below takes pages from below it", (status, " of 32512 pages used" in out), (0, True))
    tests.write("small", "00100000-0010ffff : System RAM\n")
    status, out, _ = tests.run(KERNELYET, "plan", "vmlinuz", "--map", "small")
    tests.same("plan of a small machine", (status, "wants 1 MiB" in out, "from 1 MiB to 4 GiB: 64 KiB" in out), (1, True, True))
    tests.write("two-pages", "1-2\n")
    status, out, _ = tests.run(KERNELYET, "plan", "vmlinuz", "--map", "iomem", "--pool", "two-pages")
    tests.same("a refusal has the names that were given", (status, 'POOL "two-pages": the pool has too few' in out), (1, True))
    tests.write("narrow", "00100000-03ffffff : System RAM\n  01000000-0100ffff : Crash kernel\n")
    status, out, _ = tests.run(KERNELYET, "plan", "--crash", "vmlinuz", "initrd", "--map", "narrow")
    tests.same("plan of a small crash area", (status, "the crash area: 64 KiB at 0x1000000" in out, "crashkernel=16M" in out),
               (1, True, True))
    status, out, _ = tests.run(KERNELYET, "parameters", "kept/loaded.record", "--initrd", "initrd", "--kernel", "vmlinuz")
    tests.same("parameters", (status, "the initrd is the file" in out, "NOT" in out), (0, True, False))


def test_made_up_machines(tests):
    """`plan` and `machine` make the same PC of the same words."""
    for ram, crash, start in (("8G", "256M", 0xAF000000), ("128M", "48M", 0x4000000)):
        tests.run(KERNELYET, "plan", "--ram", ram, "--crash", crash, "vmlinuz", "--keep", "planned")
        status, out, _ = tests.run(KERNELYET, "machine", "--ram", ram, "--crash", crash, "made")
        tests.same(f"a made-up PC of {ram}", (status, f"crash area {start:#x}-" in out, tests.read("made/map").decode()),
                   (0, True, tests.read("planned/map").decode()))
    said = "kernelyet: --ram: a made-up PC has 63 TiB of RAM or less, as addresses lie below 2^46\n"
    for words in (["plan", "vmlinuz"], ["machine", "x"]):
        for ram in ("64T", "99999999999G"):
            tests.same(f"{words[0]} --ram {ram}", tests.run(KERNELYET, *words, "--ram", ram), (2, "", said))
    status, _, said = tests.run(KERNELYET, "plan", "--ram", "9" * 5000, "vmlinuz")
    tests.same("a size of more digits than Python reads", (status, "is not a size" in said, "Traceback" in said), (2, True, False))
    tests.same("the largest made-up PC", tests.run(KERNELYET, "plan", "--ram", "63T", "vmlinuz")[::2], (0, ""))


def test_crash_sizes(tests):
    """The least area by arithmetic loads, and one page less does not."""
    for name, init_size, alignment, initrd in (("plain", 1 << 20, 1 << 21, 0), ("large", 3 << 20, 1 << 23, 300 << 10),
                                               ("odd", (1 << 20) + 1, 1 << 12, 12345)):
        write_bzimage(f"{tests.folder}/k", 64 << 10, init_size, (bytes([7]) * PAGE for _ in range(16)),
                      kernel_alignment=alignment)
        tests.write("i", bytes([1]) * initrd)
        more = ["--initrd", "i"] * bool(initrd)
        start, rows = 0x30000000, maps.made_up(4 << 30)
        unpacked = initrds.Unpacked(f"{tests.folder}/i") if initrd else None
        needs = crash_sizes.Needs(Kernel(f"{tests.folder}/k"), unpacked, [*rows, (start, start, "Crash kernel")], 0, "quiet")
        statuses = []
        for size in (needs.to_load(start), needs.to_load(start) - PAGE):
            maps.write_map(f"{tests.folder}/area", [*rows, (start, start + size - 1, "Crash kernel")])
            statuses.append(tests.run("kexec", "load-panic", "--map", "area", "--command", "quiet", *more,
                                      f"{FIRST}/memory.kxmem", "o", "or", "k")[0])
        tests.same(f"the least crash area of a {name} kernel", statuses, [0, 8])
    tests.write("i", gzip.compress(archive([("init", 0o100755, bytes(80 << 20))])))
    unpacked = initrds.Unpacked(f"{tests.folder}/i")
    rooms = [crash_sizes.Needs(Kernel(f"{tests.folder}/k"), unpacked, rows, 0, command).room
             for command in ("quiet", "root=/dev/vda1 quiet", "rootfstype=ramfs")]
    tests.same("an initrd that fills no more than half", rooms, [unpacked.size, 32 << 20, 32 << 20])


def test_warnings(tests):
    tests.write("empty", b"")
    tests.write("bad-pool", "9f-ff\n100-1ff\n3000-3100\n")
    for sentence, *words in [
        ("cut-vmlinuz is cut off: its header counts", "cut-vmlinuz"),
        ("empty is empty", "vmlinuz", "empty"),
        ("does not begin with an archive", "vmlinuz", "iomem"),
        ("97 pages 0x9f-0xff that are not free RAM: taken by Reserved", "--pool", "bad-pool", "--map", "iomem", "vmlinuz"),
    ]:
        out = tests.run(KERNELYET, "plan", *(words if "--map" in words else ["--ram", "64M", *words]))[1]
        tests.same(f"plan {' '.join(words)} warns", [sentence in line for line in out.splitlines() if "warning: " in line][:1],
                   [True])


def test_pictures(tests):
    dump = tests.run("kexec", "dump", "km", "kr")[1]
    kept = tests.run(KERNELYET, "picture", "list", "--kept", given=dump)[1]
    plain = tests.run(KERNELYET, "picture", "list", given=dump)[1]
    tests.same("a plain list has fewer arrows", plain.count("<path d") < kept.count("<path d"), True)
    by_record = tests.run(KERNELYET, "picture", "list", "--record", "kr", given=dump)[1]
    tests.same("a record knows that context is preserved", by_record.count("<path d"), kept.count("<path d"))
    large = tests.run(KERNELYET, "picture", "list", "--record", "lr", given=tests.run("kexec", "dump", "lm", "lr")[1])[1]
    tests.same("all runs of a long list are drawn", ("words 2-" in large, "more" in large, "to kernel" in large),
               (True, False, True))
    status, out, _ = tests.run(KERNELYET, "picture", "load", "--map", "kept/map", "kept/loaded.record")
    one, other = (tests.run(KERNELYET, "picture", "load", *words) for words in (("lr", "lm"), ("lm", "lr")))
    tests.same("record and memory in either order", (other, "link pages" in one[1], one[2]), (one, True, ""))
    letters = set("".join(re.findall(r"\|(.*)\|", out)))
    tests.same("a crash load for the terminal", (status, letters), (0, set(".xcKIHP") - (set(".xcKIHP") - letters)))
    names = ("K  kernel", "I  initrd", "H  crash headers", "c  crash area, free")
    tests.same("its parts are named", [name in out for name in names], [True] * 4)
    tests.run(KERNELYET, "picture", "plan", "--ram", "64M", "vmlinuz", "initrd", "--svg", "plan.svg")
    svg = tests.read("plan.svg").decode()
    tests.same("a plan as an SVG", [f">{name}</text>" in svg for name in ("kernel", "initrd", "boot parameters", "control page",
                                                                         "link pages", "sources", "free RAM")], [True] * 7)


def test_scale(tests):
    """The picture is to scale, and its pieces do not overlap."""
    rows = maps.rows_of(MAP, "map")
    pieces = scene.of_map(rows)
    tests.same("each byte is in one piece", all(one.end == other.start for one, other in zip(pieces, pieces[1:])), True)
    tests.same("free RAM", sum(piece.size() for piece in pieces if piece.kind == "free") // PAGE,
               sum(end - first for first, end in FREE))
    bar = picture_memory.Bar(pieces, 0, 0, 640)
    heights = {piece: height for piece, _, height in bar.places if not piece.is_broken()}
    tests.same("heights are sizes", {round(piece.size() / height / bar.bytes, 6) for piece, height in heights.items()}, {1.0})


def is_of(schema, value, whole):
    """Whether a value has the form of a JSON Schema, as far as docs/companion.schema.json uses the language."""
    if "$ref" in schema:
        return is_of(whole["$defs"][schema["$ref"].rpartition("/")[2]], value, whole)
    if "oneOf" in schema:
        return sum(is_of(one, value, whole) for one in schema["oneOf"]) == 1
    if "const" in schema or "enum" in schema:
        return value in schema.get("enum", [schema.get("const")])
    kinds = {"object": dict, "array": list, "string": str, "boolean": bool, "integer": int, "null": type(None)}
    names = schema["type"] if isinstance(schema["type"], list) else [schema["type"]]
    if not any(type(value) is kinds[name] for name in names):
        return False
    if isinstance(value, dict):
        own = schema.get("properties", {})
        is_known = schema.get("additionalProperties", True) or set(value) <= set(own)
        return is_known and set(schema.get("required", [])) <= set(value) and all(
            is_of(own[name], one, whole) for name, one in value.items() if name in own)
    if isinstance(value, list):
        return all(is_of(schema["items"], one, whole) for one in value)
    return not isinstance(value, int) or value >= schema.get("minimum", value)


def test_replies(tests):
    """`N done` is a word of a list behind word N-1 alone, and else the reply to an event of a drill."""
    texts = ("0 done", "1 done", "2 link 3000\n3 done", "2 link 3000\n4 done", "1 done\n2 done", "7 opened\n8 done")
    tests.same("a word that ends a list, or a reply", [printed.read(text)[-1]["line"] for text in texts],
               ["word", "reply", "word", "reply", "reply", "reply"])
    folder = f"{TOP}/examples/drill"
    replies = tests.run("kexec", "drill", "--map", f"{folder}/map", f"{folder}/memory.kxmem", f"{folder}/pool", "drilled",
                        f"{folder}/events")[1]
    lines = json.loads(tests.run(KERNELYET, "look", "text", "--json", given=replies)[1])["lines"]
    tests.same("the replies of a drill", [(one["line"], one.get("event"), one.get("reply")) for one in lines],
               [("reply", int(line.split()[0]), line.split()[1]) for line in replies.splitlines()])


def test_json(tests):
    with open(f"{TOP}/docs/companion.schema.json", encoding="utf-8") as file:
        schema = json.load(file)
    tests.write("dump", tests.run("kexec", "dump", "lm", "lr")[1] + "3 no-pages 3 5\nword 3: Missing 2000\n")
    for words in (["plan", "--ram", "64M", "vmlinuz", "initrd"], ["plan", "--ram", "256M", "--crash", "vmlinuz", "initrd"],
                  ["plan", "--map", "small", "vmlinuz"], ["look", "pages", "m"], ["look", "differ", "m", "bad"],
                  ["look", "bytes", "m", "1ff0", "3000"], ["look", "steps", "m", "11002"], ["look", "steps", "m", "1"],
                  ["look", "differ", "m", "bad", "r"], ["look", "record", "kr"], ["look", "record", "c1"],
                  ["look", "list", "lm", "lr"], ["look", "list", "bad", "r"], ["look", "text", "dump"],
                  ["compare", "r", "kr"], ["parameters", "kept/loaded.record", "--initrd", "initrd"]):
        _, out, said = tests.run(KERNELYET, *words, "--json")
        tests.same(f"{' '.join(words)} --json", (is_of(schema, json.loads(out or "0"), schema), said), (True, ""))
    tests.same("a number that is none", is_of(schema["$defs"]["number"], -1, schema), False)
    tests.same("a line of the program", printed.line_of("head 11002 control 10000"),
               {"line": "head", "head": 0x11002, "control": 0x10000, "swap": None})
    try:
        printed.read("nothing of the kind")
        tests.same("a line of no command", "read", "refused")
    except Wrong as wrong:
        tests.same("a line of no command", "line 1 is not one that" in str(wrong), True)


def test_unknown_options(tests):
    """An option that is not known is told before an argument that is missing."""
    for word in ("plan", "machine", "compare", "parameters", "try", "loaded", "look list", "look make-record",
                 "picture load"):
        status, out, said = tests.run(KERNELYET, *word.split(), "--bogus")
        tests.same(f"{word} --bogus", (status, out, said.splitlines()[-1]),
                   (2, "", f"kernelyet: '--bogus' is not an option of {word}"))
    for words, wanted in (("plan one two three --bogus", "'--bogus' is not an option of plan"),
                          ("plan one two three", "'three' is one argument too many for plan"),
                          ("plan -p=1", "'-p=1' is not an option of plan: the option of kexec(8) is here --crash"),
                          ("plan -- --bogus", "--bogus: No such file or directory"),
                          ("look make-record r", "--head, --control, ADDRESS=FILE are missing")):
        tests.same(words, tests.run(KERNELYET, *words.split())[2].splitlines()[-1], f"kernelyet: {wanted}")


def test_try(tests):
    """The memory is there only when the command on the other side of the pipe has ended."""
    words = [f"{TOP}/{KERNELYET}", "try", "late"]
    with subprocess.Popen(words, cwd=tests.folder, stdin=subprocess.PIPE, stderr=subprocess.PIPE, text=True) as run:
        time.sleep(1)
        tests.write("late", "no memory file")
        said = run.communicate("start entry 2000 rax 0 rbx 0 rsi 0\n")[1]
    tests.same("try waits for the line", (run.returncode, "late is not a memory file" in said), (1, True))
    wanted = 2, "", "kernelyet: nofile: No such file or directory\n"
    for start in ([], ["--start", "entry 0x2000 rax 0 rbx 0 rsi 0"]):
        tests.same(f"try of no file {start}", tests.run(KERNELYET, "try", *start, "nofile"), wanted)


ALL = (test_numbers, test_maps, test_pools, test_machine, test_running_machine, test_kernel_files, test_initrds, test_lists,
       test_plan, test_made_up_machines, test_crash_sizes, test_compare, test_warnings, test_pictures, test_scale, test_try,
       test_unknown_options, test_replies, test_json)
