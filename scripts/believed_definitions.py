"""Reads the definitions of the repository: the spec files, and the types of the program that they speak of.

What a definition uses is read off its text: the names in it, through the `use` lines of its file.
"""
import re
from pathlib import Path

TOP = Path(__file__).resolve().parent.parent
CRATES = TOP / "crates"

WORD = re.compile(r"[^\s(){},;\[\]]+")
HEADER = re.compile(r"(?:(?:unfoldable|abbrev|pub|record|data) )+([^\s:]+)")
VARIANTS = re.compile(r"Rattle\.(\w+)\.specs\.declared\.(.+?)\.(\w+)(\.TheVariants)?$")


class Definition:
    """A definition, or a type of the program: where it stands, its lines, and the comment above it."""

    def __init__(self, module, name, path, at, is_type=False):
        self.module, self.name, self.path, self.at, self.is_type = module, name, path, at, is_type
        self.lines, self.comment, self.made_by, self.head = [], [], [], []
        crate, _part, *rest = path.relative_to(CRATES).with_suffix("").parts
        # both are asked for in each look-up of each name
        self._crate = crate
        self._title = f"{crate} type {name}" if is_type else f"{crate} {'.'.join(rest)}.{name}"

    def crate(self):
        return self._crate

    def title(self):
        return self._title

    def place(self):
        return f"{self.path.relative_to(TOP)}:{self.at}"

    def text(self):
        lines = self.comment + self.lines
        indent = min(len(line) - len(line.lstrip()) for line in lines if line)
        return "\n".join(line[indent:] for line in lines)

    def quote(self):
        """Its text, below the head of the block that it stands in, which names what the block's definitions are given."""
        return "\n".join([*self.head, *self.comment, *self.lines]).rstrip() if self.head else self.text()

    def said(self, head):
        """What it says, without its type: the lines that begin so, each with what is indented below it; a record whole."""
        base = len(self.lines[0]) - len(self.lines[0].lstrip())
        is_record = "record" in self.lines[0].split(" : ")[0].split()
        found, wanted = [], is_record
        for line in filter(str.strip, self.lines):
            if line[base] not in " })" and not is_record:
                wanted = line[base:].startswith(f"{head} ")
            if wanted:
                found.append(line[base:])
        return found

    def length(self):
        return sum(1 for line in self.lines if line.strip() and not line.strip().startswith(("--", "//")))


class Uses:
    """What the `use` lines of a file bring in: single names, and modules by another name."""

    def __init__(self):
        self.names, self.modules = {}, {}

    def read(self, line):
        many = re.match(r"(?:pub |ghost )*use (Rattle\.[\w.-]+?)\.\{(.*)\};?$", line)
        whole = re.match(r"(?:pub |ghost )*use (Rattle\.[\w.-]+?)(?: as (\w+))?;?$", line)
        if many:
            for part in re.split(r",\s*", many[2]):
                name, _, other = part.strip().partition(" as ")
                self.names[other or name] = (many[1], name)
        elif whole:
            self.modules[whole[2] or whole[1].rsplit(".", 1)[1]] = whole[1]
        return many or whole


class SpecReader:
    """Reads a spec file line by line. A definition ends where the next one begins."""

    def __init__(self, path, module):
        self.path, self.module, self.uses, self.found = path, module, Uses(), {}
        self.comment, self.current = [], None  # what stands above a definition, and the one that is read
        self.head, self.base = [], 0  # the head of the block, and how far its definitions are indented; None within a head

    def read(self):
        """The definitions by their names, those that a `data` makes among them, and the uses."""
        for at, line in enumerate(self.path.read_text(encoding="utf8").split("\n"), 1):
            self.line(at, line, line.strip(), len(line) - len(line.lstrip()))
        for it in list(self.found.values()):
            for name in it.made_by:
                self.found.setdefault(name, it)
        return self.found, self.uses

    def line(self, at, line, text, indent):
        if self.uses.read(text):
            self.current = None
        elif line.startswith("module ") or self.base is None:
            self.head = [line] if line.startswith("module ") else [*self.head, line]
            self.current, self.comment = None, []
            self.base = 2 if line.endswith("where") else None
        elif not text:
            self.comment, self.current = [], self.current if indent else None
        elif text.startswith("--") and (self.current is None or indent <= (self.base if indent else 0)):
            self.comment.append(line)
            self.current = None
        elif not text.startswith(("infix", "pub mod ", "mod ")):
            self.code(at, line, text, indent)

    def code(self, at, line, text, indent):
        if indent == 0:
            self.base, self.head = 0, []
        header = HEADER.match(text) if indent == self.base else None
        name = header[1] if header else text.split()[0] if indent == self.base else None
        if header:
            self.current = Definition(self.module, name, self.path, at)
            self.current.comment, self.current.head, self.comment = self.comment, self.head, []
            self.found[name] = self.current
        elif name in self.found:
            self.current = self.found[name]
        if self.current is not None:
            self.current.lines.append(line)
            made = re.match(r"(?:pub )?([^\s:]+) :", text)
            if made and "data" in self.current.lines[0].split(" : ")[0].split():
                self.current.made_by.append(made[1])


class Library:
    """All spec files of the repository, and the types of the program that they speak of."""

    def __init__(self):
        self.files, self.uses, self.types, self.read, self.known = {}, {}, {}, {}, None
        self.crates = {it.name for it in CRATES.iterdir() if it.is_dir()}
        for path in sorted(CRATES.glob("*/specs/**/*.antt")):
            crate, part, *rest = path.relative_to(CRATES).with_suffix("").parts
            module = ".".join(["Rattle", crate, part, *rest])
            self.files[module], self.uses[module] = SpecReader(path, module).read()

    def named_so(self, name):
        """The definitions of this name: `HasBooted`, `Boot.HasBooted`, or with the crate in front of these."""
        if self.known is None:
            self.known = {}
            for module, its in self.files.items():
                for key, it in its.items() if ".specs." in module else []:
                    title = f"{it.title().rsplit('.', 1)[0]}.{key}"
                    for one in (key, title, title.partition(" ")[2]):
                        self.known.setdefault(one, []).append(it)
        return self.known.get(name, [])

    def type_of(self, crate, where, name):
        """A struct, enum or trait of the program."""
        key = (crate, where, name)
        if key not in self.types:
            self.types[key] = None
            for path in [CRATES / crate / "src" / (where.replace(".", "/") + ".rt"), CRATES / crate / "src" / "lib.rt"]:
                lines = path.read_text(encoding="utf8").split("\n") if path.exists() else []
                for at, line in enumerate(lines, 1):
                    if re.match(rf"\s*(pub(\(crate\))? )?(struct|enum|trait) {name}\b", line) and not self.types[key]:
                        found = Definition(f"{crate}.{where}", name, path, at, True)
                        for line in lines[at - 1 :]:
                            found.lines.append(line)
                            if line.startswith("}") or (len(found.lines) == 1 and line.endswith(";")):
                                break
                        self.types[key] = found
        return self.types[key]

    def find(self, module, name):
        """What a name of a module is: a definition, or the words by which it is known elsewhere."""
        declared = VARIANTS.match(module)
        if declared and declared[1] in self.crates:
            return self.type_of(declared[1], declared[2], declared[3]) or f"{module}.{name}"
        if module.split(".")[1] not in self.crates:
            return f"{module}.{name}"
        return self.files.get(module, {}).get(name) or f"{module}.{name}"

    def used(self, it):
        """What a definition uses, in the order of its text, which is read once."""
        if it not in self.read:
            self.read[it] = [] if it.is_type else self.named(it.module, self.uses[it.module], it.lines)
        return self.read[it]

    def named(self, module, uses, lines):
        text = "\n".join(line.split("--")[0] for line in lines)
        own = self.files.get(module, {})
        free, found = bound_in(text) - self.made(module, uses), []  # what is a variable, and no constructor
        for at in WORD.finditer(text):
            word = at[0]
            if word not in own and text.startswith(" = ", at.end()):
                continue
            head, _, rest = word.partition(".")
            if rest and head in uses.modules:
                found.append(self.find(uses.modules[head], rest.split(".")[0]))
            for name in (word, head, f"◌{word}◌", "◌>>=◌" if word == "←" else word):
                if name in uses.names and name not in free:
                    found.append(self.find(*uses.names[name]))
                elif name in own and name not in free:
                    found.append(own[name])
        return list(dict.fromkeys(found))

    def made(self, module, uses):
        """The constructors that a file knows, which are not variables in a pattern."""
        own = {name for name, it in self.files.get(module, {}).items() if name in it.made_by}
        for name, (where, first) in uses.names.items():
            it = self.files.get(where, {}).get(first)
            if where.endswith(".TheVariants") or (it is not None and first in it.made_by):
                own.add(name)
        return own


def bound_in(text):
    """The names that a definition binds: in patterns, by λ, in `(x : T)`, and in a do-block."""
    bound = set()
    for line in text.split("\n"):
        left = re.split(r" =(?: |$)", line, maxsplit=1)
        if len(left) == 2 and not line.strip().startswith(("record", "pub ")) and "{" not in left[0]:
            bound.update(word for word in WORD.findall(left[0])[1:] if re.match(r"[a-z]", word))
        bound.update(re.findall(r"^\s*(\w+) ←", line))
    for names in re.findall(r"λ ([^.]*)\.", text) + re.findall(r"[({]([^(){}:]+?) : ", text):
        bound.update(names.split())
    return bound
