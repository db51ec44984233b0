"""Changes of single lines of a crate's functions: a comparison, a sign or a number is another one, a test is turned round,
arguments or fields or variants change places, a statement is dropped, a range starts one later."""
import os
import re

from body_trials import FUNCTION, WrongBody

# What stands in a line, and what takes its place.
EXCHANGES = [
    (r" < ", " <= "), (r" <= ", " < "), (r" > ", " >= "), (r" >= ", " > "), (r" == ", " != "), (r" != ", " == "),
    (r" \+ 1\b", ""), (r" - 1\b", ""), (r" \+ ", " - "), (r" && ", " || "), (r" \|\| ", " && "),
    (r"\btrue\b", "false"), (r"\bfalse\b", "true"), (r"\b0\.\.", "1.."), (r"\.min\(", ".max("), (r"\.max\(", ".min("),
    (r"\bif !", "if "), (r"\bif (?!let|!)", "if !"), (r"\bSome\(\w+\)$", "None"),
    (r"\.destination\b", ".source"), (r"\.source\b", ".destination"), (r"\.first\b", ".count"), (r"\.count\b", ".first"),
    (r"\.memsz\b", ".mem"), (r"\.mem\b", ".memsz"), (r"\.entry\b", ".head"), (r"\.head\b", ".entry"),
]

NUMBER = re.compile(r"(?<![\w.])\d[\d_]*(?![\w.])")
TWO_ARGUMENTS = re.compile(r"([(,] ?)([\w.&* ]+), ([\w.&* ]+)\)")
VARIANT = re.compile(r"\b([A-Z]\w+)::([A-Z]\w*)\b(?!::)(?! ?[({])")
STATEMENT = re.compile(r"([\w.\[\]*() ]+ (=|\+=|-=|\|=) [^;]*|[\w.&*:<>]+\(.*\)\??);$")
CLAUSE = re.compile(r"\s*(ensures|requires|ghost)\b")
TESTS = re.compile(r"mod \w+ \{$")


def body_lines(lines):
    """The numbers, from 0, of the lines inside the bodies of functions, up to the tests that stand in the same file."""
    at = 0
    while at < len(lines) and not TESTS.match(lines[at]):
        found = FUNCTION.match(lines[at])
        if found:
            indent = found.group(1)
            while at < len(lines) and (CLAUSE.match(lines[at]) or not lines[at].endswith(("{", ";"))):
                at += 1
            if at < len(lines) and lines[at].endswith("{"):
                at += 1
                while at < len(lines) and lines[at] != indent + "}":
                    yield at
                    at += 1
        at += 1


def changed(line, text, chance):
    """Lines that may take this one's place, in a file of this text."""
    for pattern, new in EXCHANGES:
        for found in re.finditer(pattern, line):
            yield line[: found.start()] + new + line[found.end() :]
    for found in NUMBER.finditer(line):
        for number in (int(found.group().replace("_", "")) + step for step in (1, -1)):
            if number >= 0:
                yield line[: found.start()] + str(number) + line[found.end() :]
    for found in TWO_ARGUMENTS.finditer(line):
        before, one, other = found.groups()
        yield f"{line[: found.start()]}{before}{other}, {one}){line[found.end():]}"
    for found in VARIANT.finditer(line):
        name, variant = found.groups()
        others = sorted(set(re.findall(rf"\b{name}::([A-Z]\w*)\b(?! ?[({{])", text)) - {variant})
        if others:
            yield f"{line[: found.start()]}{name}::{chance.choice(others)}{line[found.end():]}"
    if STATEMENT.match(line) and not line.startswith(("let ", "return ")):
        yield "();"


def changes_of(folder, chance):
    """All changes of the crate in this folder, as wrong bodies."""
    sources = {}
    for name in sorted(os.listdir(f"{folder}/src")):
        with open(f"{folder}/src/{name}", encoding="utf-8") as file:
            sources[name] = file.read()
    tests = {f"{name}.rt" for text in sources.values() for name in re.findall(r"#\[cfg\(test\)\]\s*mod (\w+);", text)}
    for name, text in sources.items():
        lines = text.split("\n")
        for at in [] if name in tests else body_lines(lines):
            line = lines[at].strip()
            # an edit names a line by its text, which must stand once in the file
            if text.count(line) == 1 and not line.startswith(("//", "requires", "ensures", "#[")):
                for new in changed(line, text, chance):
                    if new != line:
                        yield WrongBody(f"src/{name}:{at + 1}: {line} -> {new}", [(f"src/{name}", line, new)])
