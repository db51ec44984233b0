"""Which examples reach a definition, and which one refused a change of it: docs/BELIEVED.list keeps the latter by a sum of the
definition's text, so that it counts no longer where that text was changed since."""
import collections
import hashlib
import re

from believed_definitions import Definition
from believed_reach import Reached

ROW = re.compile(r"^\w+ (\S+): (\S+) ([0-9a-f]{8})$", re.M)


def sum_of(it):
    return hashlib.sha256("\n".join(it.lines).encode()).hexdigest()[:8]


def reached_by(library, definitions, examples):
    """Each definition with an example that reaches it, or None: of all these, the one that reaches fewest definitions."""
    by = {}
    reaches = [(Reached(library, starts, set()).definitions(), name) for name, starts in examples]
    for its, name in sorted(reaches, key=lambda it: (len(it[0]), it[1])):
        for it in its:
            by.setdefault(it, name)
    return {it: by.get(it) for it in definitions}


def refused_by(definitions, examples, text, news):
    """Each definition with the example that refused a change of its present text, by the list or by what is new, or None."""
    names = {name for name, _starts in examples}
    known = {(name, number): example for name, example, number in ROW.findall(text) if example in names}
    return {it: news.get(it) or known.get((it.title().split(" ")[1], sum_of(it))) for it in definitions}


def row_of_list(it, refused):
    return it.title() + (f": {refused[it]} {sum_of(it)}" if refused.get(it) else "")


def table_of_tries(reached, refused):
    """The table of what examples reach and refuse, a row a crate."""
    crates = collections.OrderedDict()
    for it in sorted(reached, key=Definition.title):
        row = crates.setdefault(it.crate(), [0, 0, 0, collections.defaultdict(set)])
        row[:3] = [row[0] + 1, row[1] + bool(reached[it]), row[2] + bool(refused[it])]
        if refused[it]:
            crate, file, *_function = refused[it].split("::")
            row[3][crate].add(file)
    yield "| Crate | Definitions | Reached | Refused | By examples of |"
    yield "|---|---|---|---|---|"
    for crate, (*counts, files) in crates.items():
        names = [f"{name}: {', '.join(sorted(files[name]))}" for name in sorted(files)]
        yield f"| {crate} | {' | '.join(map(str, counts))} | {'; '.join(names)} |"
    sums = [len(reached), sum(1 for it in reached if reached[it]), sum(1 for it in refused if refused[it])]
    yield f"| all | {' | '.join(map(str, sums))} | |"
