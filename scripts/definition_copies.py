"""Copies of definitions with the examples over them: what one check tells of many changed definitions.

A definition that is changed stands in a copy of its file, and each file that leads from there to an example stands in a copy
too, under names of their own; all else is taken from the built libraries, but for what stands on a type that its crate keeps to
itself: that is copied once for all, over a type like it. The clauses of an example become lemmas beside its proof. A check
tells of each declaration of a crate whether it is admitted, so one crate may have hundreds of such copies.
"""
import collections
import re
import resource
import signal
import subprocess
import tempfile
from pathlib import Path

from believed_definitions import CRATES
from definition_types import is_private, own_module, stand_in

CRATE = "tried"  # the crate of the copies
ROOT = """//! Copies of definitions.
#![tactic(auto)]

ghost use Rattle.std.specs.Prelude.{◌≡◌, true};

/// Nothing: a crate has a function.
pub fn nothing()
    ensures { true ≡ true }
{}
"""
IMPORT = re.compile(r"^(?:pub |ghost )*use (Rattle\.[\w.+-]+?)(?=\.\{|;?$| as )", re.M)
ALONE = "Alone"  # the record of a clause that is alone
SHARED = "shared"  # the group of what is copied and does not lead to a change
EXAMPLES = re.compile(r"Rattle\.worked_\w+\.(?!specs\.declared)")
TOLD = re.compile(r"(?:\./)?proofs/(\w+?)__(\w+)\.antt:(\d+):\d+: error: (.*)")


class Sources:
    """The antt files of all crates by the names of their modules, and the examples as modules of lemmas."""

    def __init__(self, clauses_of):
        self.texts, self.uses, self.memo = {}, {}, {}
        self.seen, self.private = set(), set()
        for path in sorted([*CRATES.glob("*/specs/**/*.antt"), *CRATES.glob("worked_*/proofs/**/*.antt")]):
            crate, part, *rest = path.relative_to(CRATES).with_suffix("").parts
            self.add(".".join(["Rattle", crate, part, *rest]), path.read_text(encoding="utf8"))
        self.clauses_of = clauses_of

    def add(self, module, text):
        self.texts[module] = text
        self.uses[module] = list(dict.fromkeys(map(own_module, IMPORT.findall(text))))
        for used in self.uses[module]:
            if ".specs.declared." in used and used not in self.seen:
                self.seen.add(used)
                if is_private(used):
                    self.private.add(used)
                    self.add(used, stand_in(used))

    def example(self, name):
        """The module of an example's proof; its clauses become the module of its goals."""
        crate, file, function = name.split("::")
        module = f"Rattle.{crate}.proofs.{file}.{function}"
        if f"{module}.Goals" not in self.texts:
            path = CRATES / crate / "src" / f"{file}.rt"
            goals = goals_of(path.read_text(encoding="utf8"), self.clauses_of(path, function))
            self.add(f"{module}.Goals", goals)
            if f"{module}.Answers" not in self.texts:
                self.add(f"{module}.Answers", answers_for(module, goals))
        return f"{module}.Answers"

    def is_copied(self, module):
        """Whether a module stands in a crate of examples, or on a type that its crate keeps to itself."""
        if module not in self.memo:
            self.memo[module] = bool(EXAMPLES.match(module)) or module in self.private
            self.memo[module] = self.memo[module] or any(self.is_copied(it) for it in self.uses.get(module, []))
        return self.memo[module]

    def between(self, module, changed):
        """Whether the module imports the changed one, by way of others or not."""
        key = (module, changed)
        if key not in self.memo:
            self.memo[key] = module == changed or any(self.between(it, changed) for it in self.uses.get(module, []))
        return self.memo[key]

    def copies(self, examples, changed):
        """The modules from the examples down to the changed one, in any order."""
        found, left = [], [self.example(name) for name in examples]
        while left:
            module = left.pop()
            if module in self.texts and module not in found and self.between(module, changed):
                found.append(module)
                left += self.uses[module]
        return found


def goals_of(text, clauses):
    """The module of an example's goals: each clause as a type, with the imports of the example's file. A clause that is alone and
    has a name is the one field of a record."""
    many = re.compile(r"^ghost use ([^;]*);", re.M)
    lines = ["use " + " ".join(found.split()).replace("{ ", "{").replace(", }", "}").replace(" }", "}") for found in many.findall(text)]
    if len(clauses) == 1 and "" not in clauses:
        ((name, body),) = clauses.items()
        lines += ["", f"pub record {ALONE} : Type 0 where", f"  pub {name} : {body}"]
        clauses = {"": ALONE}
    for name, body in clauses.items():
        goal = f"returns-clause-{name}" if name else "returns"
        lines += ["", f"abbrev pub {goal} : Type 0", f"{goal} = Unit {{0}} → ({body})"]
    return "\n".join(lines) + "\n"


def answers_for(module, goals):
    """The proofs of an example that has none written by hand."""
    lines, alone = [f"use {module}.Goals as goal"], re.search(r"^  pub (\S+) : ", goals, re.M)
    for goal in re.findall(r"^abbrev pub (\S+)", goals, re.M):
        answer = f"record {{ {alone[1]} = search }}" if alone else "search"
        lines += ["", f"pub {goal} : goal.{goal}", f"{goal} c = {answer}"]
    return "\n".join(lines) + "\n"


def flat(module):
    return re.sub(r"^Rattle\.", "", module).replace(".", "_").replace("+", "_").replace("-", "_")


class Copies:
    """A scratch crate of groups of copies; a group has a name, the changed module with its text, and examples."""

    def __init__(self, sources, words):
        self.sources, self.words, self.groups = sources, words, {SHARED: {}}

    def add(self, group, changed, text, examples):
        modules = set(self.sources.copies(examples, changed))
        texts = {module: text if module == changed else self.sources.texts[module] for module in modules}
        self.groups[group] = {f"{group}__{flat(it)}": (it, self.copied(texts[it], group, modules)) for it in sorted(modules)}
        self.share([use for it in modules for use in self.sources.uses[it] if use not in modules])

    def share(self, modules):
        """Copies what must be copied and does not lead to the change, once for all groups."""
        while modules:
            module = modules.pop()
            name = f"{SHARED}__{flat(module)}"
            if self.sources.is_copied(module) and name not in self.groups[SHARED]:
                self.groups[SHARED][name] = (module, self.copied(self.sources.texts[module], SHARED, set()))
                modules += self.sources.uses[module]

    def copied(self, text, group, modules):
        """The text with its imports led to the copies of the group, and to what is copied once for all."""

        def lead(found):
            module = own_module(found[1])
            if module not in modules and not self.sources.is_copied(module):
                return found[0]
            rest = text[found.end() :].split("\n", 1)[0]
            other = "" if rest.startswith((".{", " as ")) else f" as {found[1].rsplit('.', 1)[1]}"
            place = f"Rattle.{CRATE}.proofs.{group if module in modules else SHARED}__{flat(module)}"
            return found[0].replace(found[1], place) + other

        lines = IMPORT.sub(lead, text).split("\n")
        return "\n".join(line for line in lines if not re.match(r"(pub )?mod \w+$", line))

    def write(self, room):
        """Writes the crate, and gives the crates whose modules it names."""
        files = {name: text for its in self.groups.values() for name, (_module, text) in its.items()}
        for folder in ("src", "proofs"):
            Path(room, folder).mkdir()
        Path(room, "src", "lib.rt").write_text(ROOT, encoding="utf8")
        Path(room, "proofs", "Lib.antt").write_text("".join(f"pub mod {name}\n" for name in files), encoding="utf8")
        for name, text in files.items():
            Path(room, "proofs", f"{name}.antt").write_text(text, encoding="utf8")
        return {it.split(".")[1] for text in files.values() for it in IMPORT.findall(text)} - {CRATE}

    def check(self, limit):
        """What is not admitted: for each group rows of module, line and message. None where the check came to no end."""
        with tempfile.TemporaryDirectory(prefix="wrong-definitions-") as room:
            run = subprocess.run(self.words(CRATE, self.write(room)), cwd=room, stdin=subprocess.DEVNULL,
                                 stdout=subprocess.PIPE, stderr=subprocess.STDOUT, text=True, errors="replace",
                                 preexec_fn=lambda: resource.setrlimit(resource.RLIMIT_CPU, (limit, limit)))
        if run.returncode in (-signal.SIGXCPU, -signal.SIGKILL):
            return None
        if "fn tried::nothing: " not in run.stdout:
            raise RuntimeError(run.stdout)
        found = collections.defaultdict(list)
        for told in map(TOLD.match, run.stdout.split("\n")):
            if told:
                found[told[1]].append((self.groups[told[1]][f"{told[1]}__{told[2]}"][0], int(told[3]), told[4]))
        return found
