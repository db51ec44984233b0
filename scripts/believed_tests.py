"""Tests of believed on a tree of three spec files: what it reaches, and each fault that --check tells."""
import os
import shutil

HERE = os.path.dirname(os.path.realpath(__file__))

LAW = """ghost use Rattle.small.specs.Inputs.{load_inputs};

pub fn files_are_planned()
    ensures { load_inputs 1 ≡ 1 }
{
}
"""
TREE = {
    "crates/kexec_main/src/run.rt": """ghost use Rattle.small.specs.Boot.{HasBooted};

/// The call.
pub fn kexec(words: u8) -> u8
    // What stands after it.
    ensures done { HasBooted result }
{
    words
}
""",
    "crates/command_parts/specs/ExitStatuses.antt": """-- The status.
pub code_of : ℕ → ℕ
code_of n = n
""",
    "crates/recorded_kexec/src/run.rt": """ghost use Rattle.small.specs.Boot.{HasBooted};

pub fn kexec_recorded(words: u8) -> u8
    ensures booted { HasBooted result }
{
    words
}
""",
    "crates/plan_laws/src/laws.rt": LAW,
    "crates/boot_laws/src/laws.rt": LAW,
    "crates/kexec_plan/specs/Plan.antt": """-- The plan.
pub plan : ℕ → ℕ
plan n = n
""",
    "crates/small/specs/Booted.antt": """-- What the kernel finds.
pub MemoryStarts : ℕ → Set
MemoryStarts n = n ≡ n
""",
    "crates/small/specs/Inputs.antt": """use Rattle.kexec_plan.specs.Plan.{plan};

-- The files.
pub load_inputs : ℕ → ℕ
load_inputs n = plan n
""",
    "crates/small/specs/Boot.antt": """use Rattle.small.specs.Booted.{MemoryStarts};
use Rattle.small.specs.Inputs.{load_inputs};

-- What stands after a boot.
pub HasBooted : ℕ → Set
HasBooted n = MemoryStarts (load_inputs n)
""",
    "crates/small/specs/inner/Hidden.antt": """-- What laws speak of.
pub hidden : ℕ → ℕ
hidden n = n
""",
    "docs/BELIEVED.md": """# What must be believed

<!-- quote Boot.HasBooted -->
<!-- end -->

It speaks of `load_inputs`, the files, and of `small Booted.MemoryStarts`:

<!-- lines small Booted: MemoryStarts -->
<!-- end -->

<!-- half -->

<!-- clause done -->
<!-- end -->

<!-- numbers -->
<!-- end -->

<!-- tries -->
<!-- end -->

Some <!-- first -->0<!-- end --> and <!-- whole -->0<!-- end --> minutes.
""",
    "docs/BELIEVED.list": "",
    "docs/DEFINITIONS.md": "- small `Boot.HasBooted`: it is done.\n- small `inner.Hidden.hidden`: a law speaks of it.\n",
    "README.md": "| docs/BELIEVED.md | what must be believed; some 0 minutes for the shortest boot, 0 for all |\n",
}
BOOT = "crates/small/specs/Boot.antt"
INPUTS = "crates/small/specs/Inputs.antt"
# What is changed in which file, and what --check then says.
FAULTS = [
    (BOOT, "MemoryStarts (load_inputs n)", "MemoryStarts (load_inputs (n + 1))", "docs/BELIEVED.md is not as it must be"),
    (INPUTS, "load_inputs n = plan n", "load_inputs n = n", "kexec_plan Plan.plan\n"),
    (INPUTS, "use Rattle", "use Rattle.small.specs.inner.Hidden.{hidden};\nuse Rattle", ""),
    (INPUTS, "load_inputs n = plan n", "load_inputs n = plan (hidden n)", "hidden belongs into specs/"),
    (INPUTS, "-- The files", "-- Of no use.\npub idle : ℕ → ℕ\nidle n = n\n\n-- The files", "idle belongs into specs/inner/"),
    ("docs/BELIEVED.md", "`load_inputs`, ", "files, ", "quotes small Boot.HasBooted, and says nothing of small Inputs.load_inputs"),
    ("docs/BELIEVED.md", "`small Booted.MemoryStarts`", "`MemoryStarts`, `small Boot.none`",
     "names small Boot.none, which is not reached"),
    ("docs/DEFINITIONS.md", "† ", "", "docs/DEFINITIONS.md is not as it must be"),
    ("docs/DEFINITIONS.md", "- small `inner", "- † small `inner", "docs/DEFINITIONS.md is not as it must be"),
    ("crates/small/specs/Booted.antt", "n ≡ n", "n ≡ 0", "docs/BELIEVED.md is not as it must be"),
    ("docs/BELIEVED.md", ": MemoryStarts --", ": MemoryStarts/zero --", "has no line that begins with MemoryStarts zero"),
    ("README.md", "5 minutes", "10 minutes", "README.md is not as it must be"),
    ("README.md", "5 for all", "10 for all", "README.md is not as it must be"),
    ("docs/BELIEVED.list", "small Boot.HasBooted\n", "", "docs/BELIEVED.list is not as it must be"),
]


def test_believed(tests):
    """What is reached, what is written, and what --check says of each fault."""
    tree = f"{tests.folder}/believed"
    shutil.copytree(HERE, f"{tree}/scripts", ignore=shutil.ignore_patterns("__pycache__"))
    for name, text in TREE.items():
        os.makedirs(os.path.dirname(f"{tree}/{name}"), exist_ok=True)
        tests.write(f"believed/{name}", text)

    def call(*words):
        return tests.run("scripts/believed", *words, top=tree)

    tests.same("believed --write", call("--write"), (0, "", ""))
    tests.same("what it wrote stands", call("--check"), (0, "", ""))
    listed = tests.read("believed/docs/BELIEVED.list").decode().split("\n")
    names = ["command_parts ExitStatuses.code_of", "kexec_plan Plan.plan", "small Boot.HasBooted", "small Booted.MemoryStarts",
             "small Inputs.load_inputs"]
    tests.same("what the clauses reach", [line for line in listed if line and not line.startswith("#")], names)
    tests.same("by which names", [" ".join(line.split()[:2]) for line in call("--path", "Plan.plan")[1].splitlines()],
               ["small Inputs.load_inputs", "kexec_plan Plan.plan"])
    guide = tests.read("believed/docs/BELIEVED.md").decode()
    tests.same("the quote", "HasBooted n = MemoryStarts (load_inputs n)\n```" in guide, True)
    aloud = call("--aloud", "first")[1]
    tests.same("a quote read aloud", "Has Booted n Memory Starts (load inputs n)" in aloud, True)
    tests.same("a sign read aloud", ["Memory Starts n n equals n" in aloud, "`" in aloud, "<!--" in aloud], [True, False, False])
    tests.same("the second half", ["What stands after it" in call("--aloud", part)[1] for part in ("first", "whole")], [False, True])
    tests.same("the lines alone", "```\nMemoryStarts n = n ≡ n\n```" in guide, True)
    try_faults(tests, call)
    tests.write("believed/crates/boot_laws/src/laws.rt", "")
    tests.same("a root without a clause", call("--check"), (1, "", "believed: boot_laws has no clause\n"))
    tests.same("a name that is none", call("--of", "nothing"), (2, "", "believed: no spec file has a definition nothing\n"))
    os.remove(f"{tree}/crates/recorded_kexec/src/run.rt")
    wanted = "believed: crates/recorded_kexec/src/run.rt is missing, where kexec_recorded stands\n"
    tests.same("a root without its file", call("--check"), (1, "", wanted))


def try_faults(tests, call):
    """Each fault by itself, in files that are right otherwise."""
    for name, old, new, wanted in FAULTS:
        text = tests.read(f"believed/{name}").decode()
        tests.same(f"{name} has it", old in text, True)
        tests.write(f"believed/{name}", text.replace(old, new, 1))
        status, _, said = call("--check")
        found = status, wanted in said, "Traceback" in said, "" if wanted in said else said
        tests.same(f"believed --check with {new!r}", found, (1 if wanted else 0, True, False, ""))
        # an import stands for the next change, and changes nothing by itself
        if wanted:
            tests.write(f"believed/{name}", text)
