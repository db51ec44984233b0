"""What other programs read in a core file.

Each check gives what was looked at and what is wrong with it, None where nothing is. What a missing tool would have read is
left out, with a word.
"""
import re
import shutil
import struct
import subprocess

from companion.maps import ranges_outside_crash_areas
from companion.numbers import PAGE
from companion.refusals import Wrong

# where a Linux without KASLR maps physical memory (4-level paging), and its own text
DIRECT_MAP, KERNEL_MAP = 0xFFFF888000000000, 0xFFFFFFFF80000000
ROW = re.compile(r"^\s+(NOTE|LOAD)" + r"\s+(0x[0-9a-f]+)" * 5 + r"\s+([RWE ]*?)\s*(?:0x)?[0-9a-f]+$", re.MULTILINE)
# a line of the kernel's log, as its serial line and makedumpfile show it
MESSAGE = re.compile(r"\[ *\d+\.\d+\] .*")


def said_by(words, folder, given=""):
    """What the tool says on standard output; None where it is not there, which is told."""
    if shutil.which(words[0]) is None:
        print(f"skipped: there is no {words[0]}")
        return None
    ended = subprocess.run(words, cwd=folder, input=given, capture_output=True, text=True, errors="replace")
    if ended.returncode:
        raise Wrong(f"'{' '.join(words)}' ended with status {ended.returncode}: {ended.stderr.strip()[-500:]}")
    return ended.stdout


def wanted_rows(lines, notes):
    """The rows of the core file of a machine with this memory map, whose notes have so many bytes: kind, place, virtual and
    physical address, and twice the size."""
    ranges = ranges_outside_crash_areas(lines)
    end = -(-(64 + 56 * (1 + len(ranges))) // PAGE) * PAGE
    rows = [("NOTE", end, 0, 0, notes, notes)]
    end += notes
    for start, stop in ranges:
        place = end + (start - end) % PAGE
        rows.append(("LOAD", place, start + DIRECT_MAP, start, stop - start, stop - start))
        end = place + stop - start
    return rows


def unless(is_good, what):
    """What is wrong, where something is."""
    return None if is_good else what


def rows_said(said):
    found = []
    for row in ROW.finditer(said):
        kind, *numbers, flags = row.groups()
        found.append((kind, *(int(number, 16) for number in numbers)))
        if kind == "LOAD" and flags.replace(" ", "") != "RWE":
            found.append(("flags", flags))
    return found


def rows(folder, core, wanted):
    """readelf and eu-readelf list these rows: kind, place, virtual and physical address, size in the file and in memory."""
    for words in (["readelf", "-lW", core], ["eu-readelf", "-l", core]):
        said = said_by(words, folder)
        if said is not None:
            found = rows_said(said)
            yield f"rows by {words[0]}", unless(found == wanted, f"{found}, and not {wanted}")


def notes(folder, core, wanted):
    """readelf and eu-readelf list these notes: the name and the length of the descriptor."""
    for words, base in ((["readelf", "-nW", core], 16), (["eu-readelf", "-n", core], 10)):
        said = said_by(words, folder)
        if said is not None:
            found = re.findall(r"^\s+(CORE|VMCOREINFO)\s+(?:0x)?([0-9a-f]+)", said, re.MULTILINE)
            found = [(name, int(size, base)) for name, size in found]
            yield f"notes by {words[0]}", unless(found == wanted, f"{found}, and not {wanted}")


def information(note):
    """The lines KEY=VALUE of a note VMCOREINFO, which begins here."""
    (size,) = struct.unpack_from("<I", note, 4)
    lines = note[24 : 24 + size].decode(errors="replace").splitlines()
    return dict(line.partition("=")[::2] for line in lines)


def release(folder, core, told):
    """gdb finds the kernel's release in its init_uts_ns, at the physical address that the note VMCOREINFO tells."""
    place = int(told["SYMBOL(init_uts_ns)"], 16) - KERNEL_MAP + int(told["NUMBER(phys_base)"])
    # the release is the third text of 65 bytes in a struct new_utsname
    place += int(told["OFFSET(uts_namespace.name)"]) + 2 * 65
    said = said_by(["gdb", "-nx", "-batch", "-ex", f"core-file {core}", "-ex", f"x/s {DIRECT_MAP + place:#x}"], folder)
    if said is not None:
        yield "the kernel's release by gdb", unless(f'"{told["OSRELEASE"]}"' in said, said.strip().splitlines()[-1:])


def missing(console, found):
    """What is wrong with the kernel's messages that were found, beside those on its serial line."""
    wanted = [line.rstrip() for line in console.splitlines() if MESSAGE.match(line)]
    known = set(map(str.rstrip, found))
    lost = [line for line in wanted if line not in known]
    return f"{len(wanted)} lines of the serial line", unless(wanted and not lost, f"{len(lost)} are missing: {lost[:3]}")


def messages(folder, core, console):
    """makedumpfile finds every line that the kernel said on its serial line, and makes a smaller file of the core file."""
    if said_by(["makedumpfile", "--dump-dmesg", core, "messages"], folder) is None:
        return
    with open(f"{folder}/messages", encoding="utf8", errors="replace") as opened:
        what, fault = missing(console, opened)
    yield f"{what}, by makedumpfile", fault
    said_by(["makedumpfile", "-d", "31", core, "small-core"], folder)
    with open(f"{folder}/small-core", "rb") as small:
        yield "the smaller file of makedumpfile -d 31", unless(small.read(8) == b"KDUMP   ", "it is not a kdump file")


def crash_release(folder, core, told):
    """crash(8) tells the kernel's release by the note VMCOREINFO alone."""
    said = said_by(["crash", "--osrelease", core], folder)
    if said is not None:
        yield f"the release of {core} by crash", unless(said.strip() == told["OSRELEASE"], said)


def crash_log(folder, core, told, console, vmlinux):
    """crash(8) finds by the kernel's vmlinux with debugging information each of its lines, and its release in memory."""
    if not vmlinux:
        print("skipped: crash finds no log without the kernel's vmlinux with debugging information (--vmlinux)")
        return
    said = said_by(["crash", "-s", vmlinux, core], folder, "sys\nlog\nquit\n")
    if said is None:
        return
    what, fault = missing(console, said.splitlines())
    yield f"{what}, in the log of {core} by crash", fault
    found = re.search(r"RELEASE: (.*)", said)
    yield f"the release in memory of {core} by crash", unless(found and found[1] == told["OSRELEASE"], said[:300])
