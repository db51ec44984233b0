"""The words of `kernelyet`: the program's own commands are passed to it, the others are the companion's."""
import difflib
import importlib
import os
import sys
from typing import NamedTuple

from companion import refusals
from companion.commands import COMMANDS


class Word(NamedTuple):
    """A word of the companion: the module that has `parser()` and `main(arguments)`, which answers the status; and what it
    does, in a few words."""

    module: str
    what: str


WORDS = {
    "plan": Word("companion.plan", "say where each part of a kernel would lie, or what is missing"),
    "machine": Word("companion.machine", "make map, pool and memory file of a machine"),
    "look": Word("companion.look", "show what stands in memory files, load records and lists"),
    "compare": Word("companion.compare", "say what differs between two load records"),
    "picture": Word("companion.picture", "draw a machine's memory, or a list of page copies"),
    "parameters": Word("companion.parameters", "read the boot parameters out of a load record"),
    "try": Word("companion.trial", "boot a memory file in a virtual machine"),
    "loaded": Word("companion.loaded", "read the image that a running Linux has loaded from its memory"),
    "guest": Word("companion.guest", "follow a guest from its panic to its vmcore, in QEMU"),
}


def name_called():
    """The name by which this was called."""
    return os.path.basename(sys.argv[0])


def commands_text():
    """The program's own list of its commands."""
    from companion import program

    told = program.run(["--help"])[1]
    return told.partition("\nCommands:\n")[2].partition("\n\n")[0]


def help_text():
    """The help of all words."""
    name = name_called()
    own = "\n".join(f"  {word:13}  {row.what}" for word, row in WORDS.items())
    return f"""Usage: {name} COMMAND [OPTIONS] ARGUMENTS..

Shows what kexec would do before a machine does it, over files. Nothing on this
machine changes, and nothing but `try` and `guest` boots anything, in QEMU.

Commands of the proved program:
{commands_text()}

Further words, in Python, over files and the program:
{own}

{name} COMMAND --help describes a command. In the further words hexadecimal
numbers may begin with 0x, and sizes are as 256M; the program takes hexadecimal
numbers without 0x."""


def is_known_option(first):
    """Whether the program has an answer of its own to an option, as to --version and to the options of kexec(8)."""
    from companion import program

    try:
        return "is not a command" not in program.run([first])[2]
    except refusals.Wrong:
        # becoming the program tells why it cannot be run
        return True


def refuse(first, name):
    """Says that a word is no command, which may be missing too, and answers the status. Of an option it names all commands,
    as the program names its own."""
    known = [*COMMANDS, *WORDS]
    what = f"{first!r} is not a command" if first else "a command is missing"
    if first.startswith("-"):
        more = f"; the first argument must be a command: {', '.join(known[:-1])} or {known[-1]}"
    else:
        meant = "".join(f"is {word} meant? " for word in difflib.get_close_matches(first, known, 1, 0.7))
        more = f": {meant}{name} --help lists the commands"
    print(f"Usage: {name} COMMAND [OPTIONS] ARGUMENTS..\n{name}: {what}{more}", file=sys.stderr)
    return 2


def main(argv):
    """Does what the words say, and answers the status; from a command of the program this does not come back."""
    words, name = argv[1:], name_called()
    if words[:1] == ["help"]:
        # help WORD is WORD --help
        words = [*words[1:], "--help"]
    first = words[0] if words else ""
    if first in WORDS:
        module = importlib.import_module(WORDS[first].module)
        return refusals.call(lambda: module.main(words[1:]), name)
    if first in ("--help", "-h") and len(words) == 1:
        return refusals.call(lambda: print(help_text()), name)
    if first not in COMMANDS and not (first.startswith("-") and is_known_option(first)):
        return refuse(first, name)
    from companion import program

    return program.become(words, name)
