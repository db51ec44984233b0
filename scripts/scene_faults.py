"""The faults that can be told, by the enumerations of the sources, and the scenes that meet them."""
import os
import re

import kexec_files as files
from scene_files import Text, lines_of, scene_files

CRATES = f"{files.TOP}/crates"
# Want of memory is no fault of a scene's: memory is ample. (The role Memory is that of a file.)
LEFT_OUT = {"Memory", "Done"}
# A structure whose name is left out of a status in words.
FILLER = "Page"
# The roles of files that are read, and of those that are written.
INPUTS = ["Memory", "Record", "Pool", "Map", "Notes", "Kernel", "Initrd", "Purgatory", "Module", "Pairs", "Events"]
OUTPUTS = ["MemoryOut", "RecordOut", "CoreOut"]
# Endings that no scene meets, by the reason.
UNMET = {
    "files of hundreds of MB, which scripts/limits has": [
        "Heavy", *(f"TooLong {role}" for role in ("Memory", "Record", "Kernel", "Initrd", "Module"))],
    "an output is not read": [f"{status} {role}" for status in ("Unread", "TooLong") for role in OUTPUTS],
    "an input is not written": [f"Unwritten {role}" for role in INPUTS],
    "nothing is known of RAM where a record is read": [
        "Input Rec Segments HalfOfMemory", "Input Rec Segments OutsideReserved", "Input Rec Segments NotRam"],
    "the sections of an executable are not read": [
        "Plan Elf Truncated SectionTable", "Plan Elf Truncated Section", "Plan Elf BadString",
        "Plan Multiboot Elf Truncated SectionTable", "Plan Multiboot Elf Truncated Section",
        "Plan Multiboot Elf BadString"],
    "the program headers of an object are not read": [
        "Plan Object Truncated ProgramTable", "Plan Object Truncated Load", "Plan Object LoadsOverlap",
        "Plan Object BadLoad", "Plan Object TooLarge"],
    "each part has room for its bytes, and a crash kernel's parts are placed in the area": [
        "Plan Segments TooFull", "Plan Segments OutsideReserved"],
    "a command lies in the boot parameters or in the information, and not by itself": ["Plan NoHole Command"],
    "these parts are made, and given by no option": [
        "Plan Unused Kernel", "Plan Unused Headers", "Plan Unused Parameters", "Plan Unused Information"],
    "each type takes a purgatory": ["Plan Unused Purgatory"],
    "a plan looks up four symbols, which have names of their own": ["Plan Link NoSymbol Other"],
}

# Statuses that no scene ends with, the tests that do, and how these name them.
TESTED = {
    "Heavy": ("scripts/limits", '"9"], HEAVY, '),
    "Memory": ("crates/command_tests/src/refused_memory_tests.rt", "let Status::Memory = status")}

# Endings that a scene meets inside alone, where no sentence is said.
UNTOLD = {
    **{f"Unwritten {role}": "scripts/attack-devices tells it, with files that take no byte" for role in OUTPUTS},
    "Plan Params NulInCommand": "no program can be given a word with a NUL"}


def enumerations():
    """The enumerations and structures of the crates: each variant's name, with the types in it."""
    found = {}
    for crate in sorted(os.listdir(CRATES)):
        folder = f"{CRATES}/{crate}/src"
        for name in sorted(os.listdir(folder)) if os.path.isdir(folder) else []:
            if name.endswith(".rt"):
                with open(f"{folder}/{name}", encoding="utf-8") as file:
                    text = re.sub(r"^ *(//|#\[).*$", "", file.read(), flags=re.MULTILINE)
                for row in re.findall(r"^pub (enum|struct) (\w+) \{\n(.*?)^\}", text, re.MULTILINE | re.DOTALL):
                    found.setdefault(row[1], variants_in(*row))
    return found


def variants_in(kind, title, body):
    """The names of the variants, or of the one structure, each with the types of its fields."""
    rows = [(title, body)] if kind == "struct" else re.findall(r"^ {4}(\w+)(?: \{([^}]*)\})?,$", body, re.MULTILINE)
    return {name: re.findall(r"\w+: (\w+)", fields) for name, fields in rows}


def endings(known, title):
    """The names of each ending, from the status on: `Input Mem Truncated`."""
    for name, types in known[title].items():
        inner = [one for one in types if one in known and one != FILLER]
        if name in LEFT_OUT and title != "Role":
            continue
        for rest in endings(known, inner[0]) if inner else [()]:
            yield (name, *rest)


def statuses():
    """The exit statuses by the names of what they are of."""
    with open(f"{CRATES}/command_parts/src/status.rt", encoding="utf-8") as file:
        return {name: int(number) for name, number in re.findall(r"^ +Status::(\w+)[^=\n]* => (\d+),$", file.read(), re.M)}


def untried_statuses(ended):
    """The statuses that no scene ends with, nor a test that is said to."""
    for name, number in statuses().items():
        is_tried = name == "Done" or any(names[:1] == (name,) for names in ended)
        if name in TESTED:
            path, line = TESTED[name]
            with open(f"{files.TOP}/{path}", encoding="utf-8") as file:
                is_tried = line in file.read()
        if not is_tried:
            yield f"status {number}, {name}: no scene ends so, and no test"


def met():
    """The endings of the commands of all scenes, and which of them have a sentence."""
    ended, told, names = set(), set(), None
    for path in scene_files():
        for words, _ in lines_of(path):
            first = words[0] if words else None
            if first == "kexec":
                names = None
            elif first == "ends":
                names = tuple(word for word in words[2:] if not isinstance(word, Text) and word[:1].isupper())
                ended.add(names)
            elif first == "tells":
                told.add(names)
    return ended, told


def why_missing(names, ended, told):
    """What is wrong with an ending: None where a scene meets it and tells its sentence, or none can."""
    if any(" ".join(names) in unmet for unmet in UNMET.values()):
        return "a scene ends so, though none can" if names in ended else None
    if names not in ended:
        return "no scene ends so"
    return None if names in told or " ".join(names) in UNTOLD else "no scene tells its sentence"


def list_missing():
    """Lists what is not met, and gives the exit status: 0 where nothing is."""
    wanted = list(endings(enumerations(), "Status"))
    ended, told = met()
    wrong = {names: why_missing(names, ended, told) for names in wanted}
    listed = {tuple(name.split()) for unmet in UNMET.values() for name in unmet}
    wrong.update((names, "there is no such ending") for names in (ended | listed) - set(wanted) - {("Done",)})
    untried = list(untried_statuses(ended))
    for line in [f"{' '.join(names)}: {why}" for names, why in sorted(wrong.items()) if why] + untried:
        print(line)
    count = sum(why is not None for why in wrong.values()) + len(untried)
    print(f"{len(wanted)} endings of {len(statuses())} statuses, {sum(map(len, UNMET.values()))} endings that no scene meets, "
          f"{count} not as they are to be")
    return 1 if count else 0
