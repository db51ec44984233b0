"""Tests of run-scenes: a right scene is ok, and each kind of wrong expectation is told with its line, what was found and
what is to be. And the scenes that documents name are there."""
import glob
import os
import re

TOP = os.path.dirname(os.path.dirname(os.path.realpath(__file__)))

# The first example, right: with a refusal, its sentence, and a memory that is known in part.
RIGHT = """file m memory
file p "10-12"
file k "abc"
scene right
kexec boot --type raw --at 2001 m p o k
ends 8 Plan Segments BadAddress i 0
tells --at 2001: a raw kernel must begin at a multiple of 0x1000 and end below 0x400000000000
kexec boot --type raw --at 2000 m p o k
says
  | accepted words 4 links 1 pairs 1
  | head 11002 control 10000
  | start entry 2000 rax 0 rbx 0 rsi 0
  | ran 4
leaves o memory
  page 2 "abc"
  page 0x11 like o at 0 u64 0x2001 0x12008 to 0x12008 by 0x1000
  page 0x12 "abc"
"""
# What is changed in it, the line that is named, and what is told.
WRONG = [
    ("ends 8 Plan Segments BadAddress i 0", "ends 7", 5, "    ends 8, is to end 7: kexec: --at 2001: "),
    ("tells --at 2001: a raw", "tells --at 2001: no raw", 5, "      is to tell --at 2001: no raw kernel"),
    ("kexec boot --type raw --at 2001 m p o k\nends 8", "file m memory page 1 \"x\"\nkexec trace m o 4 1\nends 0", 6,
     "    says in line 1: done 1\n      is to say: \n"),
    ("  | ran 4", "  | ran 5", 8, "    says in line 4: ran 4\n      is to say: ran 5\n"),
    ('page 2 "abc"', 'page 2 "abd"', 8,
     "    o has at 26 (byte 2 of page 0x2) 63 00 00 00 00 00 00 00 00 00 00 00 00 00 00 00\n      is to have 64 00"),
    ('  page 0x12 "abc"\n', "", 8, "    o has 12328 bytes, is to have 8224\n"),
    ("leaves o memory\n", "leaves o memory\nleaves x memory\n", 8, "    leaves no x\n"),
    ("kexec boot --type raw --at 2000 m p o k\nsays", "kexec boot --type raw --at 2000 m p o2 k\nsays", 8,
     "    leaves o2 with 12328 bytes, is to leave no such file\n"),
]
# Lines that are none of a scene, and the sentence.
MALFORMED = [
    ("scene x\nkexec core\npge 1\n", "file:3: a piece stands behind a line 'file ..', 'says' or 'leaves ..'"),
    ("file m memory pge 1\n", "file:1: 'pge' is not a statement or a piece of a file"),
    ("file m u8 256\n", "file:1: "),
    ('file m "abc\n', "file:1: a quote is missing here"),
    ("file m like other\n", "file:1: 'other' is not a file that is there"),
    ("file m u64 1 to 9 by 0\n", "file:1: a run is 'to', its last number, 'by' and its step"),
    ("ends 0\n", "file:1: this stands behind a line 'kexec ..'"),
]


def test_scenes(tests):
    """run-scenes over files of scenes that are right, wrong and none."""
    program = tests.env["KEXEC"]
    tests.write("file", RIGHT)
    tests.same("a right scene", tests.run("scripts/run-scenes", program, "file"),
               (0, "ok right\n1 scenes with 2 commands and 0 left out, 0 not as described\n", ""))
    for old, new, line, told in WRONG:
        tests.write("file", RIGHT.replace(old, new))
        status, out, _ = tests.run("scripts/run-scenes", program, "file")
        tests.same(f"a wrong scene: {new}", (status, f"NOT ok right\n  file:{line}: kexec " in out, told in out, out),
                   (1, True, True, out))
    for text, sentence in MALFORMED:
        tests.write("file", text)
        tests.refuses(sentence, "scripts/run-scenes", program, "file")
    tests.refuses("PROGRAM is missing", "scripts/run-scenes")
    tests.refuses("is not a program", "scripts/run-scenes", "none", "file")
    tests.same("no fault lacks a scene", tests.run("scripts/run-scenes", "--faults")[0], 0)
    tests.same("documents name scenes that are there", unknown_scenes(), [])


def unknown_scenes():
    """What the paragraphs `Cases:` of the documents name, and is no scene and no file of scenes."""
    names, unknown = set(), []
    for path in glob.glob(f"{TOP}/crates/scenes/data/*.scenes"):
        names.add(os.path.basename(path))
        with open(path) as file:
            names |= {" ".join(line.split()[1:]) for line in file if line.startswith("scene ")}
    for path in sorted(glob.glob(f"{TOP}/docs/*.md")):
        with open(path) as file:
            paragraphs = file.read().split("\n\n")
        for paragraph in (" ".join(text.split()) for text in paragraphs if text.startswith("Cases: ")):
            told = re.findall(r"(?<!\w)'([^']+)'", paragraph) + re.findall(r"[\w-]+\.scenes", paragraph)
            unknown += [f"{os.path.basename(path)}: {name}" for name in told if name not in names]
    return unknown
