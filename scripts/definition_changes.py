"""Changes of a definition by rule: another comparison or number, arguments in another order, another case, a conjunct dropped."""
import re

NAME = r"[\w'◌]+"
PRELUDE = ("nat_le", "nat_lt", "min", "max", "take", "drop", "None", "true", "false")  # what a change may bring in
OPERATORS = ("||", "&&", "+", "-", "*", "/", "%", "<", "≤", "≡")
# A rule: what stands in a line, and what takes its place.
EXCHANGES = [
    ("comparison", r"\bnat_le\b", "nat_lt"), ("comparison", r"\bnat_lt\b", "nat_le"), ("comparison", r"\bleb\b", "nat_lt"),
    ("comparison", r" ≤ ", " < "), ("comparison", r" < ", " ≤ "), 
    ("test", r" && ", " || "), ("test", r" \|\| ", " && "), ("test", r"\btrue\b", "false"), ("test", r"\bfalse\b", "true"),
    ("test", r"\bnot \(?", lambda found: "(" if found[0].endswith("(") else ""),
    ("test", r"\bthen (.+?) else (.+)$", lambda found: f"then {found[2]} else {found[1]}"),
    ("operator", r" \+ ", " - "), ("operator", r" - ", " + "), ("operator", r" \* ", " + "), ("operator", r" / ", " % "),
    ("operator", r" % ", " / "), ("operator", r"\bmin\b", "max"), ("operator", r"\bmax\b", "min"),
    ("operator", r"\bsuc (\w+)", r"\1"), ("operator", r"\btake\b", "drop"), ("operator", r"\bdrop\b", "take"),
    ("number", r"(?<![\w.{\"'])(0x[0-9a-fA-F_]+|\d[\d_]*)(?![\w.}\"])", lambda found: str(int(found[0].replace("_", ""), 0) + 1)),
    ("text", r'"([^"\\]*?)([^"\\])"', lambda found: f'"{found[1]}{"x" if found[2] != "x" else "y"}"'),
    ("order", rf"(?<=[\w)] )({NAME}) ({NAME})(?=[ )\]}};,]|$)", r"\2 \1"),
    ("order", rf"\(({NAME}[^(),]*), ([^(),]+)\)", r"(\2, \1)"),
    ("order", r"([\w.]+|\([^()]*\)) \+\+ ([\w.]+|\([^()]*\))", r"\2 ++ \1"),
    ("order", rf"({NAME}) = ([^;{{}}=]+); ({NAME}) = ([^;{{}}=]+?)(?=;| }}|$)", r"\1 = \4; \3 = \2"),
    ("field", r"(?<=\w)\.0\b", ".1"), ("field", r"(?<=\w)\.1\b", ".0"),
    ("case", r"\bSome \w+", "None"), ("case", r"\bSome \([^()]*\)", "None"),
    ("list", r"(?<=[( ])([\w.]+|[\w.]+ [\w.]+|[\w.]+ \([^()]*\)|\([^()]*\)) ∷ (?!\[)", ""),
    ("list", r"(?<=[( ])([\w.]+|[\w.]+ [\w.]+|\([^()]*\)) \+\+ ", ""),
    ("conjunct", r"(?<=[( ])([\w.]+|[\w.]+ [\w.]+|\([^()]*\)) (?:&&|\|\|) ", ""),
]


def body(it):
    """The numbers, from 0, of the lines of a definition that say what it is; its head and its type are left out."""
    begun = False
    for number, line in enumerate(it.lines):
        text = line.strip()
        if number and (text.startswith((f"{it.name} ", "pub ")) or (f" {it.name.strip('◌')} " in text and " = " in text)):
            begun = True
        if begun and not text.startswith("--"):
            yield number


def right_side(line):
    """Where what a line says begins: behind its first equals sign or colon, or at its start."""
    found = re.search(r"(?<= = )|(?<= =$)", line) if not line.strip().startswith("pub ") else re.search(r"(?<= : )", line)
    return found.end() if found else 0


def changed_lines(line):
    """The changes of a line: the rule, and the new line."""
    at = right_side(line)
    left, text = line[:at], line[at:]
    for rule, pattern, new in EXCHANGES:
        for found in re.finditer(pattern, text):
            other = text[: found.start()] + found.expand(new) + text[found.end() :] if isinstance(new, str) else (
                text[: found.start()] + new(found) + text[found.end() :])
            if other != text:
                yield rule, left + other


def exchanged_variants(line, variants):
    """The line with one name of a case, as `faults.NoRam` or `Link`, in the place of another of the same kind."""
    at = right_side(line)
    for found in re.finditer(r"[A-Z]\w*", line[at:]):
        others = next((its for its in variants if found[0] in its), [])
        if len(others) > 1:
            other = others[(others.index(found[0]) + 1) % len(others)]
            yield "case", line[: at + found.start()] + other + line[at + found.end() :]


def exchanged_sides(it, numbers):
    """The right sides of two neighbouring lines of one form, as of two cases or two fields, each in the place of the other."""
    for one, other in zip(numbers, numbers[1:]):
        halves = [it.lines[number].partition(" = ") for number in (one, other)]
        bound = [set(re.findall(r"\b[a-z]\w*", half[0])) for half in halves]
        loose = [set(re.findall(r"\b[a-z]\w*", half[2])) & (bound[0] ^ bound[1]) for half in halves]
        if other == one + 1 and all(half[2].strip() for half in halves) and halves[0][2] != halves[1][2] and not any(loose):
            yield "case", {one: halves[0][0] + " = " + halves[1][2], other: halves[1][0] + " = " + halves[0][2]}


def changes_of(it, variants):
    """All changes of a definition: the rule, and the new lines by their numbers from 0."""
    numbers = list(body(it))
    for number in numbers:
        line = it.lines[number]
        for rule, new in [*changed_lines(line), *exchanged_variants(line, variants)]:
            yield rule, {number: new}
    yield from exchanged_sides(it, numbers)


def chosen(changes, most):
    """So many of the changes, of each rule one before a second one, spread over the lines."""
    rows = {}
    for change in changes:
        rows.setdefault(change[0], []).append(change)
    picked = []
    while rows and len(picked) < most:
        for rule in list(rows):
            its = rows[rule]
            picked.append(its.pop(len(its) // 2))
            if not its:
                del rows[rule]
    return picked[:most]


def applied(text, it, new_lines):
    """The text of a file with lines of a definition changed."""
    lines, at = text.split("\n"), it.at - 1
    for number, line in enumerate(it.lines):
        while lines[at] != line:
            at += 1
        lines[at] = new_lines.get(number, line)
        at += 1
    new = " ".join(new_lines.values())
    names = [name for name in PRELUDE if re.search(rf"\b{name}\b", new)]
    names += [f"◌{sign}◌" for sign in OPERATORS if f" {sign} " in new]
    missing = [name for name in names if not re.search(rf"[{{ ]{re.escape(name)}[,}}]", text)]
    first = next(number for number, line in enumerate(lines) if line.startswith("use "))
    lines[first:first] = [f"use Rattle.std.specs.Prelude.{{{name}}}" for name in missing]
    return "\n".join(lines)
