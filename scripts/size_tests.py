"""Tests of function-sizes, on a small crate that no prover has made."""
import json
import os

# A call, as a library has it, of a function of this name.
def call_of(name):
    return {"Call": [{"Fn": [name, {"types": [], "dicts": []}]}, [], {"local": 1, "steps": []}]}


OUT = call_of("core::result::ResultFromResidual::from_residual")
DROP = call_of("std_alloc::vec::Vec::drop")
# One function lets a value go behind a `?`, one at its end, and the third is another crate's.
FUNCTIONS = [("small::short", {"body": ["Seq", DROP, "Return"]}),
             ("small::long", {"body": ["Seq", call_of("small::short"), "Seq", OUT, DROP, "Return", "Skip"]}),
             ("core::other", {"body": ["Return"]})]


def test_sizes(tests):
    """The functions of a crate, the largest first, with what stands on their ways out; and what cannot be read."""
    folder = f"{tests.folder}/libraries"
    os.makedirs(f"{folder}/small/small.rlib/toolchain")
    tests.write("libraries/small/small.rlib/toolchain/mir.json", json.dumps(FUNCTIONS))
    long, short, drop = (len(json.dumps(part)) for part in (FUNCTIONS[1][1]["body"], FUNCTIONS[0][1]["body"], DROP))
    exits = len(json.dumps(OUT)) + drop + len(json.dumps("Return"))
    rows = [f"{long:8} {exits:8} small::long", f"{short:8} {drop:8} small::short"]
    total = f"small: 2 functions of {long + short} bytes, {exits + drop} on ways out"
    words = ["scripts/function-sizes", "--libraries", folder]
    for least, wanted in ((1, rows), (short + 1, rows[:1])):
        found = tests.run(*words, "--least", str(least))
        tests.same(f"functions of {least} bytes or more", found, (0, "\n".join([*wanted, total]) + "\n", ""))
    tests.refuses("the crate nothing is not built in", *words, "nothing")
    tests.refuses("no crate is built in", "scripts/function-sizes", "--libraries", f"{folder}/none")
    tests.refuses("at least 1", *words, "--least", "0")
