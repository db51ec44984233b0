"""Changes of definitions, tried against examples: many in one check of a scratch crate."""
import collections
import os
import re

from believed_definitions import Library
from believed_reach import Reached, clauses_in, examples
from crate_table import below
from definition_changes import applied, changes_of, chosen
from definition_copies import Copies, Sources
from kexec_files import module_of

MOST_CHANGES = 9  # of a definition; most of the others are no definitions
GROUPS = 100  # changes in one check
EXAMPLES = (1, 3, 8, 18)  # how many examples are tried at first, then, and so on: the first one refuses most
LIMIT = 900  # seconds of a processor that a check may take


def clauses_of(path, function):
    """The clauses of an example: their names, and what stands between their braces."""
    found = {}
    for name, lines in clauses_in(path.read_text(encoding="utf8"), function).items():
        text = " ".join(line.strip() for line in lines if not line.strip().startswith("//"))
        found[name] = text[text.index("{") + 1 : text.rindex("}")].strip()
    return found


class Checker:
    """How the scratch crate is checked, over libraries that are built where they do not stand."""

    def __init__(self):
        self.builder = module_of("build-crates").Builder("kexec")

    def library(self, crate):
        self.builder.build_library(crate, self.builder.most)
        return self.builder.library(crate)

    def words(self, crate, needed):
        """The call that checks the scratch crate, whose files name modules of these crates."""
        builder = self.builder
        own = set().union(*(below(builder.stands_on, it) for it in needed if it in builder.uses))
        kits = {it for name in own for it in builder.uses[name]} | needed | {"std"}
        words = [f"{builder.kit}/bin/rattle", "check", "--crate-name", crate, "src/lib.rt", "--links", f"{crate}=", "--jobs", "1"]
        words += ["--antt-project", f"{builder.kit}/rattle/logic/antt-project.json", "--logic-built", f"{builder.kit}/logic_built"]
        places = {it: self.library(it) for it in sorted(own, key=lambda it: len(below(builder.stands_on, it)))}
        rows = {it: f"{builder.kit}/rlibs/{it}.rlib" for it in sorted(kits - set(builder.uses))}
        places.update((it, place) for it, place in rows.items() if os.path.isdir(place))
        for name, place in places.items():
            words += ["--extern", f"{name}={place}", "-L", f"dependency={os.path.dirname(place)}"]
        return [*words, "--allow-holes"]


class Change:
    """A change of a definition, and how far it was tried."""

    def __init__(self, it, rule, new_lines, examples):
        self.it, self.rule, self.new_lines, self.examples = it, rule, new_lines, examples
        self.asked, self.stage, self.answer, self.by = 0, 0, None, None

    def next_examples(self):
        return self.examples[self.asked : self.asked + EXAMPLES[self.stage]]

    def tell(self, answer, by):
        """Takes the answer of these examples: what is let through goes on to the next ones."""
        self.asked += EXAMPLES[self.stage]
        self.stage += 1
        if answer != "let through" or self.stage == len(EXAMPLES) or not self.next_examples():
            self.answer, self.by = answer, by

    def text(self):
        return applied(self.it.path.read_text(encoding="utf8"), self.it, self.new_lines)

    def lines(self):
        """The lines as they stand and as they are changed."""
        return [(self.it.lines[number].strip(), new.strip()) for number, new in self.new_lines.items()]


class Trial:
    """The changes of definitions, tried in checks of many."""

    def __init__(self, checker):
        self.checker, self.sources, self.library = checker, Sources(clauses_of), Library()
        self.reaching = collections.defaultdict(list)
        for name, starts in examples(self.library):
            its = Reached(self.library, starts, set()).definitions()
            for it in its:
                self.reaching[it].append((len(its), name))

    def examples_of(self, it):
        return [name for _count, name in sorted(self.reaching[it])]

    def changes_by_rule(self, it):
        text = it.path.read_text(encoding="utf8")
        variants = [re.split(r",\s*", found) for found in re.findall(r"\.TheVariants\.\{([^}]*)\}", text)]
        changes = chosen(changes_of(it, variants), MOST_CHANGES)
        return [Change(it, rule, new_lines, self.examples_of(it)) for rule, new_lines in changes]

    def try_all(self, queues, wanted, say):
        """Tries the changes of each definition one after another, until so many of them are refused or let through."""
        told, waiting = collections.Counter(), []
        while queues or waiting:
            at_work = {change.it for change in waiting}
            for it in [it for it in queues if it not in at_work]:
                if not queues[it] or told[it] == wanted:
                    del queues[it]
                elif len(waiting) < GROUPS:
                    waiting.append(queues[it].pop(0))
            self.check(waiting)
            for change in waiting:
                if change.answer is not None:
                    say(change)
                    told[change.it] += change.answer in ("refused", "let through")
            waiting = [change for change in waiting if change.answer is None]

    def check(self, changes):
        """Tries some changes at once, each by its next examples; where a check comes to no end, each half apart."""
        copies, needed = Copies(self.sources, self.checker.words), collections.defaultdict(dict)
        for number, change in enumerate(changes):
            copies.add(f"change{number}", change.it.module, change.text(), change.next_examples())
            needed[change.it.module].update(dict.fromkeys(change.next_examples()))
        for module, names in needed.items():
            copies.add(f"right_{module.replace('.', '_')}", module, self.sources.texts[module], list(names))
        found = copies.check(LIMIT)
        if found is None and len(changes) > 1:
            self.check(changes[: len(changes) // 2])
            self.check(changes[len(changes) // 2 :])
            return
        for number, change in enumerate(changes):
            if found is None:
                change.answer = "no end"
            else:
                change.tell(*self.answer_of(change, found[f"change{number}"], found[f"right_{change.it.module.replace('.', '_')}"]))

    def answer_of(self, change, rows, right):
        """What a copy tells, by what is not proved of it and of the copy that is right: the answer, and the example or a message."""
        known = {row[:2] for row in right}
        rows = [row for row in rows if row[:2] not in known]
        spoiled = [message for module, _line, message in rows if ".specs." in module]
        if spoiled:
            return "no definition", spoiled[0]
        for module, _line, _message in rows:
            return "refused", next(it for it in change.next_examples() if self.sources.between(self.sources.example(it), module))
        return "let through", None
