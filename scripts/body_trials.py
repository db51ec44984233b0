"""Wrong bodies of a crate's functions, tried many in one check: what each one changes, the checks, and what they tell."""
import collections
import re
import shutil
import subprocess
import tempfile
from pathlib import Path

import kexec_files as files
from crate_table import below

TOP = Path(files.TOP)
PARTS = ("src", "specs", "proofs")
FUNCTION = re.compile(r"(\s*)(?:pub(?:\([a-z]+\))? )?(?:const )?fn (\w+)")
PROVED = ("proved", "no holes")
VERDICT = re.compile(r"fn ([\w:<>, &'\[\]]+?): (proved|no holes|.*)$")
ERROR = re.compile(r"^([\w/.+-]+):(\d+):\d+: (error\[[\w-]+\]: .*)$", re.M)

# What a check tells of a wrong body: a word, and where or why.
Answer = collections.namedtuple("Answer", "word why")
REFUSED, NOT_REFUSED, NO_BODY, NO_VERDICT = "refused", "NOT REFUSED", "NO WRONG BODY", "NO VERDICT"
PROGRAM = "a program"
# What a check has that only reads the crate, and the line with which it tells that it could.
READING, HAS_READ = ["--only", ""], re.compile(r"^only=0 ", re.M)


class Unread(Exception):
    """A wrong body that does not fit these sources."""


class WrongBody:
    """A wrong body: its name and what it changes, as triples of file, old text and new text."""

    def __init__(self, name, changes):
        self.name, self.changes = name, changes

    @classmethod
    def read(cls, file):
        """That of a file of the form of a must-fail edit."""
        changes, path, old = [], None, None
        for line in file.read_text(encoding="utf-8").split("\n"):
            word, _, text = line.partition(": ")
            if word == "file":
                path = text.strip()
            elif word == "old":
                old = text
            elif word == "new" or line == "new:":
                changes.append((path, old, text))
        return cls(file.stem, changes)

    def apply(self, folder):
        """The texts of the files that it changes, as they stand in the folder and as it makes them."""
        before, after = {}, {}
        for path, old, new in self.changes:
            if path not in after:
                before[path] = after[path] = (folder / path).read_text(encoding="utf-8")
            if after[path].count(old) != 1:
                raise Unread(f"its old text stands in {path} {after[path].count(old)} times")
            after[path] = after[path].replace(old, new)
        return before, after

    def functions(self, folder):
        """The functions that it changes, as pairs of file and name; None where it changes more than bodies."""
        found = set()
        for path, text in self.apply(folder)[0].items():
            for old in (old for file, old, _ in self.changes if file == path):
                name = enclosing(text, text.find(old)) if old in text else None
                if name is None or not path.startswith("src/"):
                    return None
                found.add((path, name))
        return found


def enclosing(text, at):
    """The name of the function in whose body the place stands."""
    name, indent = None, ""
    for line in text[: at + 1].split("\n"):
        opened = FUNCTION.match(line)
        if opened:
            indent, name = opened.groups()
        elif name is not None and line == indent + "}":
            name = None
    return name


def groups_of(bodies, folder):
    """The wrong bodies in groups, no two of a group in one function; one that changes more than bodies is alone."""
    groups = []
    for body in bodies:
        functions = body.functions(folder)
        free = (group for group in groups if functions and group[0] is not None and not group[0] & functions)
        group = next(free, None)
        if group is None:
            groups.append([functions and set(functions), [body]])
        else:
            group[0] |= functions
            group[1].append(body)
    return [group for _, group in groups]


class Told:
    """What a check has told: of each function whether it is proved, and the errors of what is no program."""

    def __init__(self, printed):
        self.printed, self.verdicts = printed, {}
        for line in printed.split("\n"):
            found = VERDICT.match(line)
            if found:
                self.verdicts[found[1]] = found[2]
        self.errors = [] if self.verdicts else [(path, int(line), why) for path, line, why in ERROR.findall(printed)]

    def is_program(self):
        """Whether a check that only reads the crate could do so."""
        return not self.errors and HAS_READ.search(self.printed) is not None

    def is_proved(self):
        return bool(self.verdicts) and all(said in PROVED for said in self.verdicts.values())

    def of(self, functions):
        """The verdicts of these functions, by their names as the check has them."""
        stems = {(Path(path).stem, name) for path, name in functions}
        rows = ((it.split("::"), said) for it, said in self.verdicts.items())
        return {"::".join(parts): said for parts, said in rows
                if any(parts[-1] == name and (stem == "lib" or stem in parts[:-1]) for stem, name in stems)}

    def refused(self):
        return {name for name, said in self.verdicts.items() if said not in PROVED}


def is_of_itself(name, said):
    """Whether a function is refused by its own proof, and not only since one that it calls or a proof that it cites is."""
    stands_on = re.findall(r"`Rattle\.\w+\.proofs\.([\w.+-]+)`", said)
    own = name.rpartition("::")[2]
    if any(f".{own}." in f".{it}." for it in stands_on):
        return True
    reasons = said.split("; ")
    return any(it not in ("not proved", "no proof") and not it.startswith(("it calls `", "it stands on `")) for it in reasons)


class Crate:
    """The checks of one crate, over libraries that are built where they do not stand."""

    def __init__(self, name):
        self.name, self.folder = name, TOP / "crates" / name
        self.builder = files.module_of("build-crates").Builder(name)
        # the crate is checked as a library; each of those below it is built, once
        self.is_program = not (self.folder / "src" / "lib.rt").is_file()
        stands_on = self.builder.stands_on
        for one in sorted(below(stands_on, name) - {name}, key=lambda it: len(below(stands_on, it))):
            self.builder.build_library(one, self.builder.most)

    def words(self):
        words = self.builder.words(self.name, self.builder.most)
        words[1] = "check"
        source = words.index("--links")
        words[source - 1] = "src/main.rt" if self.is_program else "src/lib.rt"
        del words[source : source + 2]
        return [*words, "--allow-holes"]

    def copy(self, room):
        for part in PARTS:
            if (self.folder / part).is_dir():
                shutil.copytree(self.folder / part, f"{room}/{part}")

    def check(self, bodies, more):
        """Checks a copy with these wrong bodies in it: what is told, those that are in it, and its files as they are then."""
        with tempfile.TemporaryDirectory(prefix="wrong-bodies-") as room:
            self.copy(room)
            within, texts = [], {}
            for body in bodies:
                try:
                    changed = body.apply(Path(room))[1]
                except Unread:
                    # another one has made its old text a second time, and it is tried without that one
                    continue
                within.append(body)
                texts.update(changed)
                for path, text in changed.items():
                    Path(room, path).write_text(text, encoding="utf-8")
            run = subprocess.run([*self.words(), *more], cwd=room, stdin=subprocess.DEVNULL, stdout=subprocess.PIPE,
                                 stderr=subprocess.STDOUT, text=True, errors="replace")
        return Told(run.stdout), within, texts


def no_programs(told, functions, texts):
    """Of a check that gave no verdicts: the wrong bodies in whose functions it found errors, each with the first."""
    found = {}
    for path, line, why in told.errors:
        text = texts.get(path)
        name = text and enclosing(text, len("\n".join(text.split("\n")[:line])) - 1)
        for body, its in functions.items():
            if (path, name) in (its or ()):
                found.setdefault(body, Answer(NO_BODY, f"{path}:{line}: {why}"))
    if len(functions) == 1 and not found:
        (body,) = functions
        path, line, why = told.errors[0] if told.errors else ("", 0, "")
        found[body] = Answer(NO_BODY, f"{path}:{line}: {why}") if why else Answer(NO_VERDICT, told.printed.strip()[-200:])
    return found


def answers_of(told, functions):
    """What the verdicts tell of each wrong body; None of one that has to be tried without the others."""
    changed = {body: told.of(its) if its is not None else told.verdicts for body, its in functions.items()}
    strangers = told.refused() - {name for rows in changed.values() for name in rows}
    found = {}
    for body, rows in changed.items():
        refused = {name: said for name, said in rows.items() if said not in PROVED}
        if functions[body] is None and refused or any(is_of_itself(*row) for row in refused.items()):
            found[body] = Answer(REFUSED, "")
        elif len(functions) > 1 and (refused or strangers):
            found[body] = None
        elif refused or strangers:
            found[body] = Answer(REFUSED, f"in the proof of {min(refused or strangers)}")
        else:
            found[body] = Answer(NOT_REFUSED, "") if rows else Answer(NO_VERDICT, "the check says nothing of its function")
    return found


def try_group(crate, group, more):
    """Tries a group of wrong bodies in one check: the answer of each that has one, and groups of the others."""
    told, within, texts = crate.check(group, more)
    functions = {body: body.functions(crate.folder) for body in within}
    if told.is_program():
        answers = dict.fromkeys(within, Answer(PROGRAM, ""))
    else:
        answers = answers_of(told, functions) if told.verdicts else no_programs(told, functions, texts)
    answers = {body: answer for body, answer in answers.items() if answer}
    left = [body for body in group if body not in answers]
    if answers or not left:
        return answers, [left] if left else []
    # nothing was told of any of them: each half is tried apart
    return {}, [half for half in (left[: len(left) // 2], left[len(left) // 2 :]) if half]


def fitting_bodies(crate, bodies, say):
    """Those of the wrong bodies whose places are there; says the answer of each other."""
    fitting = []
    for body in bodies:
        try:
            body.apply(crate.folder)
            fitting.append(body)
        except (Unread, OSError) as why:
            say(body, Answer(NO_BODY, str(why)))
    return fitting


def try_groups(crate, bodies, more, say, checks):
    """Tries wrong bodies that fit, group by group, and says the answer of each as it comes; gives the number of checks."""
    left = groups_of(bodies, crate.folder)
    while left:
        group = left.pop(0)
        checks += 1
        print(f"{crate.name}: check {checks} has {len(group)} of them", flush=True)
        answers, others = try_group(crate, group, more)
        for body, answer in answers.items():
            say(body, answer)
        left += others
    return checks


def read_bodies(crate, bodies, say):
    """Asks of each whether it is a program, by checks that prove nothing; gives the number of checks."""
    return try_groups(crate, fitting_bodies(crate, bodies, say), READING, say, 0)


def try_bodies(crate, bodies, say):
    """Tries all these, and says the answer of each as it comes; gives how many checks there were, or None where the crate
    itself is not proved, with what was printed."""
    fitting = fitting_bodies(crate, bodies, say)
    with tempfile.TemporaryDirectory(prefix="wrong-bodies-kept-") as kept:
        more = ["--incremental", kept]
        told = crate.check([], more)[0]
        if not told.is_proved():
            return None, told.printed
        return try_groups(crate, fitting, more, say, 1), ""
