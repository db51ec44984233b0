"""What the clauses of the calls and laws that people rely on reach: the roots, their clauses, and the way from one definition
to the next."""
import collections
import fnmatch
import re

from believed_definitions import CRATES, TOP, Uses
from companion.refusals import Wrong, WrongWords

ROOTS = {  # what people rely on, in the order of reading: a call with its file, or a crate of laws
    "kexec": CRATES / "kexec_main" / "src" / "run.rt",
    "kexec_recorded": CRATES / "recorded_kexec" / "src" / "run.rt",
    "plan_laws": CRATES / "plan_laws" / "src",
    "boot_laws": CRATES / "boot_laws" / "src",
}
TOP_CALL = "kexec"  # its clauses are named without it
EXAMPLES = "worked_*"  # the crates of examples: nothing stands on them
STATUS = "command_parts ExitStatuses.code_of"  # what `main` ends with, by what `kexec` answers
INNER = "inner"  # the folder of specs/ for what no root reaches


class Reached:
    """What some definitions or clauses reach, in breadth: each with the one that named it first."""

    def __init__(self, library, starts, stop):
        self.by, self.elsewhere, self.known = {}, {}, []
        waiting = collections.deque((it, None) for it in starts)
        while waiting:
            it, by = waiting.popleft()
            if isinstance(it, str):
                self.elsewhere.setdefault(it, by)
            elif it not in self.by:
                self.by[it] = by
                if it in stop:
                    self.known.append(it)
                else:
                    waiting.extend((next_one, it) for next_one in library.used(it))

    def definitions(self):
        return [it for it in self.by if not it.is_type]

    def by_file(self):
        """The files in the order in which they are first reached, each with its definitions by their lines."""
        files = collections.OrderedDict()
        for it in self.by:
            files.setdefault(it.path, []).append(it)
        return [(path, sorted(its, key=lambda it: it.at)) for path, its in files.items()]

    def path_to(self, it):
        way = [it]
        while self.by[way[-1]] is not None:
            way.append(self.by[way[-1]])
        return way[::-1]

    def counts(self):
        its = self.definitions()
        types = [it for it in self.by if it.is_type]
        return len(its), sum(it.length() for it in its), len({it.path for it in its}), len(types)


def clauses_in(text, function):
    """The clauses of a function: their names, and their texts with the comments above; one alone has no name."""
    text = text[re.search(rf"pub fn {function}\b", text).start() :]
    text = text[: text.index("\n{")]
    found, comment = collections.OrderedDict(), []
    for line in text.split("\n"):
        begun = re.match(r"    ensures (?:(\w+) )?\{", line)
        if begun:
            found[begun[1] or ""] = comment + [line]
        elif found and not line.strip().startswith("//"):
            found[next(reversed(found))].append(line)
        comment = [*comment, line] if line.strip().startswith("//") else []
    return found


def functions_of(root):
    """The functions of a root whose clauses count, each with its file: a call, or each public law of a crate."""
    place = ROOTS[root]
    if not place.exists():
        raise Wrong(f"{place.relative_to(TOP)} is missing, where {root} stands")
    if place.is_file():
        yield root, place
        return
    for path in sorted(place.glob("*.rt")):
        for function in re.findall(r"^pub fn (\w+)", path.read_text(encoding="utf8"), re.M):
            yield function, path


def clauses():
    """The clauses of all roots by their names, each with its root, its file and its text."""
    found = collections.OrderedDict()
    for root in ROOTS:
        for function, path in functions_of(root):
            for name, lines in clauses_in(path.read_text(encoding="utf8"), function).items():
                parts = [it for it in (root, function if function != root else "", name) if it and it != TOP_CALL]
                found[" ".join(parts)] = (root, path, lines)
    return found


def uses_of(text):
    """What the `use` items of a source file bring in; one may stand on several lines."""
    uses = Uses()
    text = re.sub(r"\{\n([^{}]*?),?\n\}", lambda found: "{" + " ".join(found[1].split()) + "}", text)
    for line in text.split("\n"):
        uses.read(line.strip())
    return uses


def examples(library):
    """The examples, each with the definitions that its clauses name."""
    for path in sorted(CRATES.glob(f"{EXAMPLES}/src/*.rt")):
        text = path.read_text(encoding="utf8")
        crate = path.relative_to(CRATES).parts[0]
        for function in re.findall(r"^pub fn (\w+)", text, re.M):
            lines = [line for part in clauses_in(text, function).values() for line in part]
            yield f"{crate}::{path.stem}::{function}", library.named("", uses_of(text), lines)


def starts_of(library, names):
    """The definitions that names mean: those that all roots name where there is none."""
    found, known = [], clauses()
    for name in names or [f"root {root}" for root in ROOTS]:
        kind, _, rest = name.partition(" ")
        if kind == "root" and rest in ROOTS:
            its = [f"clause {it}" for it, (root, _path, _lines) in known.items() if root == rest]
            if not its:
                raise Wrong(f"{rest} has no clause")
            found += starts_of(library, its)
            found += definitions_named(library, STATUS) if rest == TOP_CALL else []
        elif kind == "clause" and rest in known:
            _root, path, lines = known[rest]
            code = [line for line in lines if not line.strip().startswith("//")]
            found += library.named("", uses_of(path.read_text(encoding="utf8")), code)
        elif kind in ("clause", "root"):
            raise WrongWords(f"there is no {name}; there are {', '.join(known if kind == 'clause' else ROOTS)}")
        else:
            found += definitions_named(library, name)
    return list(dict.fromkeys(found))


def reached_from(library):
    """What each root reaches that those before it do not, in the order of the roots."""
    before, found = set(), collections.OrderedDict()
    for root in ROOTS:
        its = Reached(library, starts_of(library, [f"root {root}"]), set())
        found[root] = [it for it in its.by if it not in before]
        before.update(found[root])
    return found


def definitions_named(library, name):
    found = library.named_so(name)
    if not found:
        raise WrongWords(f"no spec file has a definition {name}")
    return found


def misplaced(library, reached):
    """The definitions that stand in specs/ and are not reached, or in specs/inner/ and are. Those of examples stand apart."""
    for module, its in library.files.items():
        crate, part, *rest = module.split(".")[1:]
        if part == "specs" and not fnmatch.fnmatch(crate, EXAMPLES):
            for it in dict.fromkeys(its.values()):
                if (it in reached.by) == (rest[0] == INNER):
                    yield it
