"""What attack-files, attack-devices and refused-memory run: each command with small files, of which each is there or made
here. A command or an option that the program does not know is left out, with a word.

The files are those of examples/, and small kernels that are made by hand from the public standards: a bzImage (The
Linux/x86 Boot Protocol), a Multiboot kernel (0.6.96), and a purgatory, where gcc and GNU ld are there.
"""

import os
import shutil
import struct
import subprocess
from dataclasses import dataclass, field

import kexec_files as files
import kexec_table
from companion.kernels import setup_header

EXAMPLES = f"{files.TOP}/examples"
# KEXEC names a program that is built already; ./kexec is a script, and builds this one
PROGRAM = os.path.abspath(os.environ.get("KEXEC") or f"{files.TOP}/crates/kexec/out/kexec")
# a machine of 64 MiB whose upper half is for a crash kernel
MAP = b"00001000-0009ffff : System RAM\n00100000-03ffffff : System RAM\n  02000000-02ffffff : Crash kernel\n"
POOL = b"1000-13ff\n"
EMPTY = files.memory_bytes({})


@dataclass
class Case:
    """A command that is done: its words, and the files that they name."""

    name: str
    words: list
    inputs: dict = field(default_factory=dict)
    outputs: list = field(default_factory=list)


def example(name, *parts):
    contents = {}
    for part in parts:
        with open(f"{EXAMPLES}/{name}/{part}", "rb") as file:
            contents[part] = file.read()
    return contents


def bzimage():
    """A kernel of one setup sector and 64 bytes behind it, relocatable, with the 64-bit entry."""
    return setup_header(0x2000, 2, kernel_alignment=0x1000, cmdline_size=255, pref_address=0x100000) + bytes(64)


def multiboot():
    """A kernel of 64 bytes whose header says where it goes: 1 MiB."""
    magic, flags = 0x1BADB002, 1 << 16
    header = struct.pack("<8I", magic, flags, -(magic + flags) % 2**32, 0x100000, 0x100000, 0, 0x101000, 0x100020)
    return header + b"\x90" * 32


def purgatory(folder):
    """The purgatory of examples/purgatory; none without gcc and ld."""
    if not (shutil.which("gcc") and shutil.which("ld")):
        return None
    subprocess.run([f"{EXAMPLES}/purgatory/build", "purgatory"], cwd=folder, check=True)
    with open(f"{folder}/purgatory", "rb") as file:
        return file.read()


def loaded(case, folder):
    """The outputs of a load."""
    for name, contents in case.inputs.items():
        with open(f"{folder}/{name}", "wb") as file:
            file.write(contents)
    subprocess.run([PROGRAM, *case.words], cwd=folder, check=True, stdout=subprocess.DEVNULL)
    made = {}
    for name in case.outputs:
        with open(f"{folder}/{name}", "rb") as file:
            made[name] = file.read()
        os.remove(f"{folder}/{name}")
    return made


def load_cases(object_file):
    """The commands that load: raw, with context preserved, and of each format."""
    first = example("first", "memory.kxmem", "pool", "kernel")
    back = example("comes-back", "memory.kxmem", "pool", "kernel")
    elf = example("elf", "memory.kxmem", "pool", "kernel", "map")
    raw = ["--type", "raw", "--at", "2000"]
    of_map = {"memory.kxmem": EMPTY, "pool": POOL, "map": MAP}
    linux = {**of_map, "kernel": bzimage(), "initrd": b"initrd"}
    four = ["memory.kxmem", "pool", "out", "kernel"]
    five = ["memory.kxmem", "pool", "out", "record", "kernel"]
    cases = [
        Case("boot", ["boot", *raw, *four], first, ["out"]),
        Case("boot-kept", ["boot", "--kept", "2", *raw, *four], back, ["out"]),
        # page 0x200 is passed over, since it does not lie below the address 100000
        Case("boot-below", ["boot", "--below", "100000", *raw, *four], {**first, "pool": b"10\n200\n11-12\n2\n"}, ["out"]),
        Case("load", ["load", *raw, *five], first, ["out", "record"]),
        Case("load-kept", ["load", "--kept", *raw, *five], back, ["out", "record"]),
        Case("boot-elf", ["boot", "--map", "map", *four], elf, ["out"]),
        Case("boot-linux", ["boot", "--map", "map", "--initrd", "initrd", "--command", "quiet", *four], linux, ["out"]),
        Case("boot-multiboot", ["boot", "--map", "map", *four, "module"],
             {**of_map, "kernel": multiboot(), "module": b"module"}, ["out"]),
    ]
    drill = example("drill", "memory.kxmem", "pool", "map", "events")
    cases.append(Case("drill", ["drill", "--map", "map", "memory.kxmem", "pool", "out", "events"], drill, ["out"]))
    if object_file:
        cases.append(Case("boot-purgatory", ["boot", "--type", "elf", "--map", "map", "--purgatory", "purgatory", *four],
                          {**of_map, "kernel": elf["kernel"], "purgatory": object_file}, ["out"]))
    panic = {name: linux[name] for name in ("memory.kxmem", "map", "kernel", "initrd")}
    cases.append(Case("load-panic", ["load-panic", "--map", "map", "--initrd", "initrd", "--notes", "notes",
                                     "memory.kxmem", "out", "record", "kernel"],
                      {**panic, "notes": b"200000 168\n201000 168\n"}, ["out", "record"]))
    resident = example("resident", "memory.kxmem", "pool", "kernel", "pairs")
    cases.append(Case("boot-resident", ["boot-resident", "--at", "2000", *four, "pairs"], resident, ["out"]))
    core = example("core", "memory.kxmem", "map", "notes", "kernel")
    cases.append(Case("load-core", ["load-panic", "--map", "map", "--notes", "notes", "memory.kxmem", "out", "record", "kernel"],
                      core, ["out", "record"]))
    return cases


# The commands on what a load made: the name of the case, its words, the load, and the outputs.
BOTH = ["loaded.kxmem", "loaded.record"]
AFTER = [
    ("check", ["check", *BOTH], "load", []),
    ("dump", ["dump", *BOTH], "load", []),
    ("exec", ["exec", *BOTH, "out"], "load", ["out"]),
    ("exec-twice", ["exec", "--twice", *BOTH, "out"], "load-kept", ["out"]),
    ("check-panic", ["check", *BOTH], "load-panic", []),
    ("dump-panic", ["dump", *BOTH], "load-panic", []),
    ("exec-panic", ["exec", *BOTH, "out"], "load-panic", ["out"]),
    ("trace", ["trace", "loaded.kxmem", "out", "11002", "1000"], "load", ["out"]),
    ("migrate", ["migrate", "older.record", "out"], "load", ["out"]),
    ("core", ["core", "loaded.kxmem", "out", "5ff000"], "load-core", ["out"]),
    ("sample", ["sample", "1"], None, []),
]


def case_after(name, words, load, outputs, folder):
    """A case of AFTER; of the files that the load made it has those that its words name."""
    made = {}
    if load:
        written = loaded(load, folder)
        made = {"loaded.kxmem": written["out"], "loaded.record": written["record"]}
        made["older.record"] = files.without_digests(written["record"])
    return Case(name, words, {file: made[file] for file in made if file in words}, outputs)


def cases(folder, names):
    """The cases of these names; all where none is given. Each command of the program's table has one."""
    by_name = {case.name: case for case in load_cases(purgatory(folder))}
    words = {**{name: case.words for name, case in by_name.items()}, **{row[0]: row[1] for row in AFTER}}
    without = [command for command in kexec_table.read_commands() if command not in {its[0] for its in words.values()}]
    if without:
        raise files.Wrong(f"no case is of {', '.join(without)}: add one to scripts/attack_cases.py")
    rows = {name: row for name, *row in AFTER}
    chosen = []
    for name in names or words:
        if name not in words:
            raise files.WrongWords(f"there is no case {name}: {', '.join(words)}")
        if name in by_name:
            chosen.append(by_name[name])
        else:
            told, load, outputs = rows[name]
            chosen.append(case_after(name, told, by_name.get(load), outputs, folder))
    return chosen
