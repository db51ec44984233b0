"""Tests of wrong-bodies on a crate of seven functions, with a stand-in for the kit that answers by the text that it is given."""
import os
import re
import shutil

HERE = os.path.dirname(os.path.realpath(__file__))

SOURCE = """const LIMIT: u8 = 3;

pub fn one(a: u8) -> u8 {
    a + 1
}

pub fn two(a: u8) -> u8 {
    a - 1
}

pub fn three(a: u8) -> bool {
    a < LIMIT
}

pub fn four(a: u8) -> u8 {
    a * 4
}

pub fn five(a: u8) -> u8 {
    four(a)
}

pub fn caller(a: u8) -> u8 {
    one(a) | 8
}
"""
# What the stand-in says of each function where its body has this; of others that they are proved.
RATTLE = r"""#!/usr/bin/env python3
import sys
words = sys.argv[1:]
if words[0] == "build":
    open(words[words.index("-o") + 1], "w").close()
    sys.exit(0)
text = open("src/lib.rt").read()
is_read = "--only" in words
errors = [at for at, line in enumerate(text.split("\n"), 1) if "unknown" in line]
for at in errors:
    print(f"src/lib.rt:{at}:5: error[unknown-name]: cannot find value `unknown` in this scope")
if errors:
    sys.exit(1)
if is_read:
    print("only=0 holes=0")
    sys.exit(0)
said = dict.fromkeys(("one", "two", "three", "four", "five", "caller"), "no holes")
cites = "it stands on `Rattle.tiny.proofs.%s.Answers.returns`, which antt refuses"
if "a + 2" in text:
    said["one"] = "not proved; " + cites % "one"
    said["caller"] = "not proved; it calls `tiny::one`, which is not proved"
if "| 9" in text:
    said["caller"] = "no proof: expected answers in ./proofs/caller/Answers.antt; `search` did not prove `returns`"
if "LIMIT: u8 = 4" in text or "a <= LIMIT" in text:
    said["three"] = "not proved; " + cites % "three"
if "a * 5" in text:
    said["five"] = "not proved; " + cites % "five"
if "BROKEN" in text:
    said["two"] = "not proved; " + cites % "two"
for name, told in said.items():
    print(f"fn tiny::{name}: {told}")
"""
EDITS = {  # what is changed, and what is told of it
    "adds_two": ("a + 1", "a + 2", "refused"),
    "calls_and_is_let_through": ("one(a) | 8", "one(a) | 10", "NOT REFUSED"),
    "is_let_through": ("a - 1", "a - 2", "NOT REFUSED"),
    "is_refused_by_another": ("a * 4", "a * 5", "refused, in the proof of tiny::five"),
    "limit": ("LIMIT: u8 = 3", "LIMIT: u8 = 4", "refused"),
    "no_program": ("four(a)", "unknown(a)", "NO WRONG BODY: src/lib.rt:20: error[unknown-name]: cannot find value"),
    "stands_nowhere": ("a + 3", "a + 4", "NO WRONG BODY: its old text stands in src/lib.rt 0 times"),
}


def stand_in(tests):
    """A kit, and a repository with one crate; the environment in which it is used."""
    tree = f"{tests.folder}/bodies"
    for folder in ("kit/bin", "kit/rlibs", "crates/tiny/src", "crates/tiny/wrong-bodies", "crates/tiny/must-fail"):
        os.makedirs(f"{tree}/{folder}")
    shutil.copytree(HERE, f"{tree}/scripts", ignore=shutil.ignore_patterns("__pycache__"))
    tests.write("bodies/crates.txt", "low:\ntiny: low\n")
    os.makedirs(f"{tree}/crates/low/src")
    tests.write("bodies/crates/low/src/lib.rt", "")
    tests.write("bodies/kit/bin/rattle", RATTLE)
    tests.write("bodies/kit/bin/rt", f"#!/bin/sh\n[ $1 = doc ] && echo {tree}/kit/START.md || echo stand-in\n")
    for name in ("rattle", "rt"):
        os.chmod(f"{tree}/kit/bin/{name}", 0o755)
    return tree, {**tests.env, "PATH": f"{tree}/kit/bin:{os.environ['PATH']}"}


def test_bodies(tests):
    tree, env = stand_in(tests)

    def call(*words):
        return tests.run("scripts/wrong-bodies", *words, env=env, top=tree)

    tests.write("bodies/crates/tiny/src/lib.rt", SOURCE)
    tests.same("a crate without wrong bodies", call("tiny")[:2], (2, "tiny: there is nothing to try\n"))
    for name, (old, new, _) in EDITS.items():
        tests.write(f"bodies/crates/tiny/wrong-bodies/{name}.edit", f"file: src/lib.rt\nold: {old}\nnew: {new}\n")
    status, out, said = call("tiny")
    told = dict(re.findall(r"^tiny/(\w+): (.*)$", out, re.M))
    tests.same("all are answered", (status, sorted(told), said), (1, sorted(EDITS), ""))
    for name, (_, _, wanted) in EDITS.items():
        is_so = told.get(name) == wanted or (": " in wanted and told.get(name, "").startswith(wanted))
        tests.same(f"the wrong body {name}", "" if is_so else told.get(name), "")
    tests.same("they are counted", "\ntiny: 3 refused, 2 not refused, 2 no wrong bodies, 0 without a verdict, in " in out, True)
    status, out, _ = call("--programs", "tiny")
    told = dict(re.findall(r"^tiny/(\w+): (.*)$", out, re.M))
    tests.same("--programs shows those that are none", (status, sorted(told)), (1, ["no_program", "stands_nowhere"]))
    tests.same("and counts the others", "\ntiny: 5 programs, 2 no wrong bodies, 0 without a verdict, in " in out, True)
    for name in os.listdir(f"{tree}/crates/tiny/wrong-bodies"):
        if name not in ("adds_two.edit", "limit.edit"):
            os.remove(f"{tree}/crates/tiny/wrong-bodies/{name}")
    tests.same("where all are refused", call("tiny")[0], 0)
    tests.same("where all are programs", call("--programs", "tiny")[0], 0)
    tests.write("bodies/crates/tiny/must-fail/more.edit", "file: src/lib.rt\nold: a - 1\nnew: a - 2\n")
    tests.same("--edits takes those of must-fail", (call("tiny")[0], call("--edits", "tiny")[0]), (0, 1))
    status, out, _ = call("--lines", "50", "tiny")
    tests.same("changed lines: those that are let through are shown, no others",
               (status, "tiny/src/lib.rt:8: a - 1 -> a: NOT REFUSED\n" in out, "a <= LIMIT" in out), (1, True, False))
    tests.write("bodies/crates/tiny/src/lib.rt", SOURCE.replace("a - 1", "BROKEN - 1"))
    status, out, said = call("tiny")
    tests.same("a crate that is not proved", (status, said), (2, "wrong-bodies: tiny itself is not proved\n"))
