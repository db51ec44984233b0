"""What a word found, as lines for people or as JSON for programs (docs/COMPANION.md, docs/companion.schema.json)."""
import json
import sys

from companion.program import DOCUMENTS


def option_json(words):
    words.option("json", f"print the same as JSON ({DOCUMENTS}/COMPANION.md has its form)")


def text_given(path):
    """The text of a file, or of standard input where no file is given."""
    if not path:
        return sys.stdin.read()
    with open(path, encoding="utf-8", errors="replace") as file:
        return file.read()


def show(given, name, found, lines):
    """Prints what was found: as JSON, where that is asked for, else as lines. Numbers in JSON are decimal, as JSON has no
    others; addresses are those of bytes."""
    if given.json:
        print(json.dumps({"report": name, "version": 1, **found}, indent=2))
        return
    for line in lines:
        print(line)
