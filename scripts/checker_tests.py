"""Tests of the checks of .ci/run: each one fails where a difference is planted in a copy of the repository, and says which."""
import os
import re
import shutil
import sys

from kexec_files import memory_bytes

TOP = os.path.dirname(os.path.dirname(os.path.realpath(__file__)))
PLANTED = [  # the check, the file, what stands in it, what is planted there, and what is then told
    ("scripts/manual-against-help", "docs/kexec.1", ".It Fl -below Ar ADDRESS", ".It Fl -below Ar LIMIT",
     "--below ADDRESS is not both in the table and explained"),
    ("scripts/manual-against-help", "docs/kexec.1", ".It Cm migrate\n", ".It Cm migrates\n",
     "Cm migrate is not both in the table and explained"),
    ("scripts/manual-against-help", "docs/kernelyet.1", ".Op Fl -map Ar FILE", ".Op Fl -maps Ar FILE", "plan: the manual has"),
    ("scripts/command-rows --check", "README.md", "| `migrate` |", "| `migrates` |", "README.md is not that of the table"),
    ("scripts/command-rows --check", "docs/FORMATS.md", "kexec migrate       RECORD OUT", "kexec migrate       OUT RECORD",
     "docs/FORMATS.md is not that of the table"),
    ("scripts/command-rows --check", "docs/kexec.1", ".Op Fl -below Ar ADDRESS", ".Op Fl -below Ar LIMIT",
     "docs/kexec.1 is not that of the table"),
    ("scripts/command-rows --check", "crates/command_table/src/names.rt", "    Name::Migrate,\n", "",
     "crates/command_table/src/names.rt is not that of the table"),
    ("scripts/command-rows --check", "crates/scenes/data/unknown-command.lines", "drill or core", "core or drill",
     "crates/scenes/data/unknown-command.lines is not that of the table"),
    ("scripts/command-rows --check", "crates/kexec_words/proofs/Taken.antt", "simple name.Migrate = refl\n", "",
     "crates/kexec_words/proofs/Taken.antt is not that of the table"),
    ("scripts/command-rows --check", "crates/kexec_main/proofs/Commands.antt", "keeps (words.migrate v) = migrate_keeps v\n", "",
     "crates/kexec_main/proofs/Commands.antt is not that of the table"),
    ("scripts/module-lists --check", "crates/list_commands/proofs/Commands.antt", "pub mod Trace\n", "",
     "crates/list_commands/proofs/Commands.antt is not that of its folder"),
    ("scripts/module-lists --check", "crates/list_commands/specs/Planted.antt", None, "",
     "crates/list_commands/specs/Lib.antt is not that of its folder"),
    ("scripts/run-scenes --check", "crates/scenes/args", "drill.scenes\n", "", "crates/scenes/args is not that of crates/scenes/data"),
    ("scripts/run-scenes --check", "crates/scenes/stdout", "ok the first boot is done\n", "",
     "crates/scenes/stdout is not that of crates/scenes/data"),
    ("scripts/completion --check", "scripts/companion/commands.py", '    "migrate",\n', "",
     "scripts/companion/commands.py is not that of the table"),
    ("scripts/completion --check", "docs/kexec.bash", "'plan:--map') said='files'", "'plan:--map') said='nothing'",
     "docs/kexec.bash is not that of the table"),
    ("scripts/help-texts --check", "docs/help/check.txt", "MEMORY RECORD", "RECORD MEMORY",
     "docs/help/check.txt is not the help of the program"),
    ("scripts/help-texts --check", "docs/help/none.txt", None, "Usage: kexec none\n", "docs/help/none.txt is not the help"),
    ("scripts/kernelyet picture list --check", "examples/first/list.svg", "link 0x11000", "link 0x12000",
     "examples/first/list.svg is not what"),
    ("scripts/run-scenes --faults", "crates/command_parts/src/status.rt", "pub enum Status {\n",
     "pub enum Status {\n    Planted,\n", "Planted: no scene ends so"),
    ("scripts/run-scenes --faults", "crates/command_tests/src/refused_memory_tests.rt", "Status::Memory", "Status::Done",
     "status 12, Memory: no scene ends so, and no test"),
    ("scripts/run-scenes --faults", "scripts/limits", '"9"], HEAVY, ', '"9"], 9, ', "status 10, Heavy: no scene ends so, and no test"),
    ("scripts/run-scenes --faults", "crates/scenes/data/faults.scenes", '\ntells MEMORY "truncated"', '\n# tells MEMORY "truncated"',
     "Input Mem Truncated: no scene tells its sentence"),
    ("scripts/believed --check", "docs/BELIEVED.list", "boot_params ZeroPage.zero_page\n", "", "  + boot_params ZeroPage.zero_page"),
    ("scripts/believed --check", "docs/BELIEVED.md", "`drill_entry`, `core_entry`", "`drill_entry`", "  + `migrate_entry`, "),
    ("scripts/believed --check", "docs/DEFINITIONS.md", "† kx_pages", "kx_pages", "docs/DEFINITIONS.md is not as it must be"),
    ("scripts/documents-against-sources", "README.md", "docs/REFUSALS.md", "docs/REFUSED.md", "docs/REFUSED.md is not there"),
    ("scripts/documents-against-sources", "README.md", "(docs/KEXEC-TOOLS.md#where-the-parts-lie)",
     "(docs/KEXEC-TOOLS.md#where-parts-lie)", "docs/KEXEC-TOOLS.md has no section where-parts-lie"),
    ("scripts/documents-against-sources", "docs/PROOFS.md", "page_pool `Pool::read`", "page_pool `Pool::drawless`",
     "`Pool::drawless` is not in the sources of page_pool"),
    ("scripts/documents-against-sources", "docs/PROOFS.md", "exact, undrawn,", "exact, drawless,",
     "no clause or function beside it is named drawless"),
    ("scripts/documents-against-sources", "CONTRIBUTING.md", "IsHeld self.old q → IsHeld self.new q }",
     "IsHeld self.new q → IsHeld self.old q }", "no source of page_memory has `ensures stay {"),
    ("scripts/documents-against-sources", "CONTRIBUTING.md", "specs/SetupHeader.antt", "specs/SetHeader.antt",
     "specs/SetHeader.antt is not there"),
    ("scripts/documents-against-sources", "docs/ARCHITECTURE.md", "| range_index |", "| range_table |",
     "the table of docs/ARCHITECTURE.md does not name range_index"),
    ("scripts/documents-against-sources", "CONTRIBUTING.md", "| `scripts/sample-numbers` |", "| `bench/hostile` |",
     "CONTRIBUTING.md, Scripts, does not name scripts/sample-numbers"),
    ("scripts/attack-devices boot", "scripts/attack_cases.py", 'Case("boot-resident", ["boot-resident",',
     'Case("boot-resident", ["boot",', "no case is of boot-resident"),
]
# What writes the files that a check compares.
WRITERS = {"scripts/command-rows --check": "scripts/command-rows", "scripts/module-lists --check": "scripts/module-lists",
           "scripts/run-scenes --check": "scripts/run-scenes --write", "scripts/completion --check": "scripts/completion",
           "scripts/believed --check": "scripts/believed --write"}
# A command that is added by hand: behind what stands in these files, or in new ones.
ENTRY = "use Rattle.list_commands.specs.Dump.{dump_entry}\nabbrev pub count_pages_entry : LoadNames\ncount_pages_entry = dump_entry\n"
ADDED = [
    ("crates/command_table/src/commands.rt", "    arguments: &[STOPPED_MEMORY, CORE_OUT, ADDRESS],\n};\n", """
pub(crate) const COUNT_PAGES: Command = Command {
    name: "count-pages",
    brief: "count the pages of a memory",
    about: "Counts the pages of a memory. It writes no file.",
    notes: &[],
    arguments: &[TRACED_MEMORY, SWAP],
};
"""),
    ("crates/kexec_main/specs/Commands.antt", "use Rattle.list_commands.specs.Trace.{trace_entry}\n",
     "use Rattle.list_commands.specs.CountPages.{count_pages_entry}\n"),
    ("crates/kexec_main/specs/Commands.antt", "entry_of (words.core c) = core_entry c\n",
     "entry_of (words.count_pages c) = count_pages_entry c\n"),
    ("crates/list_commands/specs/CountPages.antt", None, ENTRY),
    ("crates/list_commands/proofs/Commands/CountPages.antt", None, ""),
    ("crates/scenes/data/count-pages.scenes", None, "scene pages are counted\nkexec count-pages m\n"),
]
# What is then written of it.
OF_ADDED = [
    ("README.md", "| `count-pages` | count the pages of a memory |\n"),
    ("docs/FORMATS.md", f"kexec count-pages   MEMORY{' ' * 38}--swap ADDRESS\nplan options: "),
    ("docs/kexec.1", ".Nm\n.Cm count-pages\n.Op Fl -swap Ar ADDRESS\n.Ar MEMORY\n.Sh DESCRIPTION\n"),
    ("docs/kexec.bash", "'count-pages') options='--swap' words=(files) ;;\n"),
    ("scripts/companion/commands.py", '    "count-pages",\n'),
    ("crates/command_table/src/names.rt", "    Core,\n    CountPages,\n}\n"),
    ("crates/command_table/src/names.rt", "const NAMES: [Name; 13] = [\n    Name::Boot,\n"),
    ("crates/command_table/src/names.rt", "    Name::Core,\n    Name::CountPages,\n];\n"),
    ("crates/command_table/src/names.rt", "            Name::CountPages => commands::COUNT_PAGES,\n        }\n"),
    ("crates/kexec_words/proofs/Taken.antt", "simple name.CountPages = refl\n"),
    ("crates/kexec_main/proofs/Commands.antt", "use Rattle.list_commands.proofs.Commands.CountPages.{count_pages_keeps}\n"),
    ("crates/kexec_main/proofs/Commands.antt", "keeps (words.count_pages v) = count_pages_keeps v\n"),
    ("crates/list_commands/specs/Lib.antt", "pub mod CountPages\n"),
    ("crates/list_commands/proofs/Commands.antt", "pub mod CountPages\n"),
    ("crates/scenes/data/unknown-command.lines", ", drill, core or count-pages\n"),
    ("crates/scenes/args", "core.scenes\ncount-pages.scenes\n"),
    ("crates/scenes/stdout", "ok pages are counted\n"),
    ("docs/BELIEVED.md", "`core_entry`, `count_pages_entry`\n"),
    ("docs/BELIEVED.list", "list_commands CountPages.count_pages_entry\n"),
]

# A program that does what the real one does, and says that all is well where standard output cannot be written.
SILENT = '#!/bin/sh\n"{program}" "$@"\nstatus=$?\n[ $status -eq 5 ] && exit 0\nexit $status\n'
# One that changes an input before it refuses.
SPOILS = '#!/bin/sh\n"{program}" "$@"\nstatus=$?\n[ $status -eq 0 ] || echo >>pool\nexit $status\n'
# One that does nothing and is content.
IDLE = "#!/bin/sh\n[ $# -eq 0 ] && exit 2\nexit 0\n"
# An rt that compiles what right_use.txt is, and refuses each misuse where and as its edit says, but one.
COMPILER = """#!/usr/bin/env python3
import os, sys
name, top = os.path.basename(os.getcwd()), {top!r} + "/tests/must-not-compile/"
if name == "right_use" or name == os.environ.get("TAKEN"):
    sys.exit(0)
said = dict(line.split(": ", 1) for line in open(top + name + ".edit") if ": " in line)
line = open(top + "right_use.txt").read().split("\\n").index(said["old"].rstrip("\\n")) + 1
line += name == os.environ.get("MOVED")
print("src/lib.rt:%d:9: error[%s]: refused" % (line, said["refused"].strip()))
sys.exit(1)
"""


def copied(folder, name="repository"):
    """A copy of what the checks read of the repository."""
    tree = f"{folder}/{name}"
    os.makedirs(tree)
    for part in ("CONTRIBUTING.md", "README.md", "crates.txt", "kexec"):
        shutil.copy(f"{TOP}/{part}", tree)
    for part in (".ci", "bench", "crates", "docs", "examples", "scripts", "tests"):
        shutil.copytree(f"{TOP}/{part}", f"{tree}/{part}", ignore=shutil.ignore_patterns("out", "__pycache__"))
    return tree


def plant(tests, path, old, new):
    """Puts the new text in the place of the old one, or a new file; gives what the file had, or None."""
    text = None
    if old is not None:
        with open(path, encoding="utf-8") as file:
            text = file.read()
        tests.same(f"{path} has {old!r}", old in text, True)
    with open(path, "w", encoding="utf-8") as file:
        file.write(text.replace(old, new, 1) if text is not None else new)
    return text


def put_back(path, text):
    if text is None:
        os.remove(path)
        return
    with open(path, "w", encoding="utf-8") as file:
        file.write(text)


def runs(tests, tree, words, env=None):
    status, out, said = tests.run(*words.split(" "), env={**tests.env, **(env or {})}, top=tree)
    return status, out + said


def test_planted(tests):
    """The checks that compare files: all differences of one are planted together, and each is told; what writes these files
    mends them."""
    tree = copied(tests.folder)
    for words in dict.fromkeys(row[0] for row in PLANTED):
        status, told = runs(tests, tree, words)
        tests.same(f"{words} where nothing is planted", (status, told if status else ""), (0, ""))
        rows = [row[1:] for row in PLANTED if row[0] == words]
        before = [(f"{tree}/{name}", plant(tests, f"{tree}/{name}", old, new)) for name, old, new, _ in rows]
        status, told = runs(tests, tree, words)
        for name, _, new, wanted in rows:
            found = status, wanted in told, "" if wanted in told else told
            tests.same(f"{words} with {new!r} in {name}", found, (1, True, ""))
        if words in WRITERS:
            mended = runs(tests, tree, WRITERS[words])[0], runs(tests, tree, words)[0]
            tests.same(f"{WRITERS[words]} mends what {words} tells", mended, (0, 0))
        for path, text in reversed(before):
            put_back(path, text)
        if words in WRITERS:
            # what was written where nothing was planted
            runs(tests, tree, WRITERS[words])


def test_added(tests):
    """A command that is added: each check tells what is old, and what only repeats it is then written by scripts."""
    tree = copied(tests.folder, "added")
    for name, behind, new in ADDED:
        plant(tests, f"{tree}/{name}", behind, (behind or "") + new)
    for check, writer in WRITERS.items():
        found = [runs(tests, tree, words)[0] for words in (check, writer, check)]
        tests.same(f"{check} and {writer} of a command that is added", found, [1, 0, 0])
    for name, text in OF_ADDED:
        with open(f"{tree}/{name}", encoding="utf-8") as file:
            tests.same(f"{name} of a command that is added has {text!r}", text in file.read(), True)
    status, told = runs(tests, tree, "scripts/manual-against-help")
    tests.same("the manual forgets it", (status, "Cm count-pages is not both" in told), (1, True))


def test_programs(tests):
    """The checks that run a program: one that does something else is found out."""
    program = tests.env["KEXEC"]
    for name, text in (("silent", SILENT), ("spoils", SPOILS), ("idle", IDLE)):
        tests.write(name, text.format(program=program) if name != "idle" else text)
        os.chmod(f"{tests.folder}/{name}", 0o755)
    for name, wanted in (("silent", "boot: standard output is full: status 0, and not 5"),
                         ("spoils", "boot: kernel is missing: pool was changed")):
        status, out, _ = tests.run("scripts/attack-devices", "boot", env={**tests.env, "KEXEC": f"{tests.folder}/{name}"})
        tests.same(f"attack-devices of a program that is {name}", (status, wanted in out), (1, True))
    status, out, _ = tests.run("examples/run", f"{tests.folder}/idle")
    tried, failed = map(int, re.search(r"examples: (\d+) tried, (\d+) failed\n$", out).groups())
    tests.same("examples/run of an idle program: each row fails", (status, tried > 100, failed >= tried), (1, True, True))
    status, out, _ = tests.run("scripts/limits", f"{tests.folder}/idle")
    tried, failed = map(int, re.search(r"^limits: (\d+) runs, (\d+) not as they are to be$", out, re.M).groups())
    tests.same("limits of an idle program: each row fails", (status, tried > 10, failed), (1, True, tried))


def test_misuses(tests):
    """must-not-compile, with a stand-in for the compiler: a misuse that compiles, and one that is refused elsewhere."""
    os.makedirs(f"{tests.folder}/compiler")
    tests.write("compiler/rt", COMPILER.format(top=TOP))
    os.chmod(f"{tests.folder}/compiler/rt", 0o755)
    env = {**tests.env, "PATH": f"{tests.folder}/compiler:{os.environ['PATH']}"}
    name = "tests/must-not-compile/run"
    tests.same("must-not-compile where all is right", tests.run(name, env=env)[0], 0)
    for what in ("TAKEN", "MOVED"):
        status, out, _ = tests.run(name, env={**env, what: "back_twice"})
        found = re.findall(r"^must-not-compile: (\w+): FAILED", out, re.M)
        tests.same(f"must-not-compile with back_twice {what}", (status, found), (1, ["back_twice"]))


def test_tools(tests):
    """Where a tool is missing, and so nothing is tried, the status is 2."""
    os.makedirs(f"{tests.folder}/tools")
    os.symlink(sys.executable, f"{tests.folder}/tools/python3")
    env = {**tests.env, "PATH": f"{tests.folder}/tools"}
    tests.write("handed", memory_bytes({2: b"handed"}))
    for words, wanted in ((["try", "--start", "start entry 2000 rax 0 rbx 0 rsi 0", "handed"], "there is no gcc"),
                          (["guest"], "nothing was tried: there is no qemu"),
                          (["guest", "--loaded"], "nothing was tried: there is no qemu")):
        status, out, said = tests.run("scripts/kernelyet", *words, env=env)
        tests.same(f"{words[:2]} without tools", (status, out, wanted in said, said.count("\n")), (2, "", True, 1))


def test_gate(tests):
    """Each check of .ci/run is one that a test here, or beside this one, has seen fail."""
    with open(f"{TOP}/.ci/run", encoding="utf-8") as file:
        checks = re.findall(r"^((?:scripts|examples|tests)/[\w/-]+).* \|\| status=1$", file.read(), re.M)
    shown = {row[0].split(" ")[0] for row in PLANTED}
    shown |= {"examples/run", "scripts/limits", "tests/must-not-compile/run", "scripts/test-scripts"}
    tests.same("checks of .ci/run that are not shown to fail", sorted(set(checks) - shown), [])
    probe = type(tests)(tests.folder, tests.env["KEXEC"])
    probe.same("test-scripts itself", 1, 2, is_told=False)
    tests.same("test-scripts counts what is wrong", (probe.count, probe.failed), (1, 1))


ALL = (test_planted, test_added, test_programs, test_misuses, test_tools, test_gate)
