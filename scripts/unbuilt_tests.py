"""Tests of the scripts that run the program, for test-scripts: where it is not built, each refuses in a sentence, and none begins
the long build, for which nobody asked."""
import os
import re
import shutil

TOP = os.path.dirname(os.path.dirname(os.path.realpath(__file__)))
# The scripts that run the program of ./kexec, where no other is named or where ./kexec is, and the words with which they would.
WORDS = {
    "bench/hostile": ["unbuilt/kexec"],
    "bench/run": [""],
    "examples/run": [""],
    "scripts/attack-devices": [""],
    "scripts/attack-files": [""],
    "scripts/core-against-readers": [""],
    "scripts/crash-headers-against-readelf": [""],
    "scripts/drill-against-table": ["1"],
    "scripts/elf-against-objcopy": [""],
    "scripts/fresh-clone": [""],
    "scripts/install": ["unbuilt-prefix"],
    "scripts/kernel-against-protocol": [""],
    "scripts/kernelyet": ["check memory record", "plan kernel", "picture plan kernel"],
    "scripts/limits": ["unbuilt/kexec"],
    "scripts/lists-by-linux": [""],
    "scripts/purgatory-against-ld": [""],
    "scripts/refused-memory": [""],
    "scripts/resident-against-all-choices": [""],
    "scripts/run-scenes": ["unbuilt/kexec"],
    "scripts/sample-numbers": ["2"],
    "scripts/test-scripts": [""],
}
# What these scripts read.
PARTS = ("bench", "examples", "scripts", "crates/command_table/src")
# What builds the program, if it is called.
BUILD = "#!/bin/sh\ntouch built\nexit 1\n"


def unbuilt(folder):
    """A copy of the repository in which the program is not built, and its build leaves a mark."""
    for part in PARTS:
        shutil.copytree(f"{TOP}/{part}", f"{folder}/{part}", ignore=shutil.ignore_patterns("out", "__pycache__"))
    for name in ("crates.txt", "kexec"):
        shutil.copy(f"{TOP}/{name}", folder)
    for name in ("build-crates", "stamp-program"):
        with open(f"{folder}/scripts/{name}", "w", encoding="utf-8") as file:
            file.write(BUILD)
    return folder


def that_run_it(names):
    """The scripts whose text says that they run the program of ./kexec."""
    for name in names:
        with open(f"{TOP}/{name}", encoding="utf-8") as file:
            if re.search(r"\bready\(|KEXEC_BUILD=no", file.read()):
                yield name


def test_unbuilt(tests, names):
    """Each of these scripts of the repository refuses where the program is not built."""
    tree = unbuilt(f"{tests.folder}/unbuilt")
    env = {name: value for name, value in tests.env.items() if name not in ("KEXEC", "KEXEC_BUILD")}
    wanted = f"the program is not built for these sources: {tree}/kexec, called by itself, proves and builds it"
    for script, rows in WORDS.items():
        for words in rows:
            status, out, said = tests.run(script, *words.split(), env=env, top=tree)
            found = status in (1, 2, 70), out, said.count("\n"), said if wanted not in said else ""
            tests.same(f"{script} {words} without a program", found, (True, "", 1, ""))
    left = [name for name in ("built", "unbuilt-prefix") if os.path.exists(f"{tests.folder}/{name}")]
    tests.same("nothing was built or installed", (left, os.path.exists(f"{tree}/built")), ([], False))
    tests.same("the scripts that run the program", sorted(that_run_it(names)), sorted(set(WORDS) - {"scripts/kernelyet"}))
