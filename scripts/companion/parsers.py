"""The one parser of the companion's words: how they are taken, helped with and refused."""
import argparse
import re
import sys

from companion.numbers import size_of
from companion.refusals import Wrong
from companion.words import name_called


class Parser(argparse.ArgumentParser):
    """The words behind one word of the companion, as `plan`. A refusal is its usage line and one sentence, with status 2."""

    def __init__(self, word, words, text, epilog=None):
        super().__init__(prog=f"{name_called()} {word}", usage=f"{name_called()} {word} {words}", description=text,
                         epilog=epilog, formatter_class=Formatter, add_help=False, allow_abbrev=False)
        # what may be given, for completion and manual: each option with the name of its value, and the other arguments
        self.word, self.values, self.names, self.optional = word, {}, [], set()
        # what stands here for an option of kexec(8)
        self.counterparts = {}
        self._positionals.title, self._optionals.title = "Arguments", "Options"
        self.add_argument("-h", "--help", action="help", help=argparse.SUPPRESS)

    def option(self, name, what, value=None, **how):
        """An option: a flag without the name of a value."""
        how = {"metavar": value, **how} if value else {"action": "store_true", **how}
        self.values[f"--{name}"] = value
        if how.get("nargs") == "?":
            self.optional.add(f"--{name}")
        return self.add_argument(f"--{name}", help=what, **how)

    def word_of(self, name, what, **how):
        """An argument that is no option, by its name in the help, as KERNEL; it is found by the first word of the name."""
        self.names.append(name)
        return self.add_argument(name.split("=")[0].split("-")[0].lower(), metavar=name, help=what, **how)

    def parse_args(self, args=None, namespace=None):
        """What is given. An option that is not known is told before an argument that is missing."""
        required = [action for action in self._actions if action.required]
        for action in required:
            action.required = False
        unknown = [word for word in self.parse_known_args(args)[1] if word.startswith("-")]
        if unknown:
            self.error(f"unrecognized arguments: {' '.join(unknown)}")
        for action in required:
            action.required = True
        return super().parse_args(args, namespace)

    def format_usage(self):
        return f"Usage: {self.usage}\n"

    def format_help(self):
        return super().format_help().replace("usage: ", "Usage: ", 1)

    def error(self, message):
        print(self.format_usage() + f"{name_called()}: {sentence_of(message, self.word)}{self.hint(message)}", file=sys.stderr)
        sys.exit(2)

    def hint(self, message):
        """What stands here for the option of kexec(8) that is not one here."""
        found = re.fullmatch(r"unrecognized arguments: (--?[a-z-]+)\b.*", message, re.S)
        here = found and self.counterparts.get(found[1])
        return f": the option of kexec(8) is here {here}" if here else ""


class Formatter(argparse.RawDescriptionHelpFormatter):
    """Help of 80 columns, as the program's."""

    def __init__(self, prog):
        super().__init__(prog, max_help_position=22, width=81)


def sentence_of(message, word=""):
    """What argparse says of the words behind a word, or of a script's, in this project's form."""
    found = re.fullmatch(r"the following arguments are required: (.*)", message)
    if found:
        return f"{found[1]} {'are' if ',' in found[1] else 'is'} missing"
    found = re.fullmatch(r"unrecognized arguments: (\S+).*", message, re.S)
    if found:
        is_option = found[1].startswith("-")
        of, behind = (f" of {word}", f" for {word}") if word else ("", "")
        return f"{found[1]!r} is " + (f"not an option{of}" if is_option else f"one argument too many{behind}")
    found = re.fullmatch(r"argument (\S+): invalid choice: (.*) \(choose from (.*)\)", message)
    if found:
        return f"{found[1]} cannot be {found[2]}: choose one of {found[3]}"
    found = re.fullmatch(r"argument (\S+): expected (.*)", message)
    if found:
        return f"{found[1]} takes {found[2].replace('argument', 'value')}"
    found = re.fullmatch(r"argument (\S+): invalid int value: (.*)", message)
    if found:
        return f"{found[1]} must be a whole number, and {found[2]} is given"
    found = re.fullmatch(r"argument (\S+): (must .*)", message)
    if found:
        return f"{found[1]} {found[2]}"
    found = re.fullmatch(r"argument (\S+): not allowed with argument (\S+)", message)
    if found:
        return f"{found[1]} cannot be given with {found[2]}"
    return message


def integer(text):
    """A whole number of the command line, for options that count."""
    if not (text.isascii() and text.isdigit()) or int(text) == 0:
        raise argparse.ArgumentTypeError(f"must be a whole number of at least 1, and {text!r} is given")
    return int(text)


def mebibytes(text):
    """A size of the command line in MiB, for the memory of a virtual machine."""
    try:
        size = size_of(text, "")
    except Wrong:
        size = 0
    if size == 0 or size % (1 << 20):
        raise argparse.ArgumentTypeError(f"must be a multiple of 1 MiB, as 512M or 2G, and {text!r} is given")
    return size >> 20


def choose(word, text, epilog, parsers, arguments):
    """What is given behind a word that has words of its own, as `look pages`."""
    own = Parser(word, "COMMAND ..", text, epilog)
    if not arguments or arguments[0] in ("-h", "--help"):
        if arguments:
            own.print_help()
            sys.exit(0)
        own.error(f"a command is missing: choose one of {', '.join(parsers)}")
    if arguments[0] not in parsers:
        own.error(f"{arguments[0]!r} is not a command of {word}: choose one of {', '.join(parsers)}")
    return parsers[arguments[0]].parse_args(arguments[1:])
