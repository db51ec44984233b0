"""What the program's commands print, line by line, read into its parts: docs/FORMATS.md, Printed lines."""
import re

from companion.refusals import Wrong

# words, addresses and counts have 64 bits; a digest is one of SHA-256
HEX, COUNT, DIGEST = r"([0-9a-f]{1,16})", r"([0-9]{1,20})", r"([0-9a-f]{64})"
# Each line: its kind, its form, and the names of its numbers; those with x before them are hexadecimal.
LINES = [
    ("accepted", rf"accepted words {COUNT} links {COUNT} pairs {COUNT}", "words links pairs"),
    ("accepted crash", rf"accepted crash pages {COUNT}", "pages"),
    ("head", rf"head {HEX} control {HEX}(?: swap {HEX})?", "xhead xcontrol xswap"),
    ("start", rf"start entry {HEX} rax {HEX} rbx {HEX} rsi {HEX}", "xentry xrax xrbx xrsi"),
    ("copied", rf"copied {COUNT}", "pages"),
    ("ran", rf"ran {COUNT}", "steps"),
    ("regions", r"regions (same|differ|wild)", "finding"),
    ("fault", rf"word {COUNT}: (\w+)(?: {HEX})?", "word name xpage"),
    ("word", rf"{COUNT} (link|destination|source) {HEX}", "word kind xaddress"),
    ("word", rf"{COUNT} (done)", "word kind"),
    ("segment", rf"segment {HEX} memsz {HEX} bufsz {COUNT} sha256 {DIGEST}", "xstart xmemsz bytes sha256"),
    ("memory", rf"memory {DIGEST}", "sha256"),
    ("record", rf"record segments {COUNT}", "segments"),
    ("core", rf"core loads {COUNT} notes {COUNT} bytes {COUNT}", "loads notes bytes"),
    ("done", rf"done {COUNT}", "steps"),
    ("running", rf"running {COUNT}", "steps"),
    ("off", rf"off {HEX} after {COUNT}", "xaddress steps"),
    ("reply", rf"{COUNT} ([a-z-]+)((?: \w+)*)", "event reply details"),
]
NOT_NUMBERS = {"finding", "name", "kind", "sha256", "reply", "details"}


def value_of(name, text):
    """A number or a word of a line, by its name; None where the line has none."""
    if text is None or name in NOT_NUMBERS:
        return text
    return int(text, 16 if name.startswith("x") else 10)


def ends_list(word, before):
    """Whether a line `N done` is word N of a list, and not the reply to event N: `dump` prints the words in their order
    from 0, and `drill` has no event 0."""
    return word == 0 or (before is not None and before["line"] == "word" and before["word"] == word - 1)


def line_of(text, before=None):
    """The parts of a line, or None where no command prints it; `before` has the parts of the line before it."""
    for kind, form, names in LINES:
        found = re.fullmatch(form, text)
        if found:
            values = {name[1:] if name[0] == "x" else name: value_of(name, one)
                      for name, one in zip(names.split(), found.groups())}
            if values.get("kind") == "done" and not ends_list(values["word"], before):
                continue
            if "details" in values:
                values["details"] = values["details"].split()
            return {"line": kind, **values}
    return None


def read(text, who="a command"):
    """The parts of each line."""
    found = []
    for number, line in enumerate(text.splitlines(), 1):
        parts = line_of(line, found[-1] if found else None)
        if parts is None:
            raise Wrong(f"line {number} is not one that {who} prints: {line!r}")
        found.append(parts)
    return found
