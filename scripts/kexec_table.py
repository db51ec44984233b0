"""The table of the commands' arguments, read in the program's source (crates/command_table/src)."""

import re
from collections import namedtuple
from pathlib import Path

TOP = Path(__file__).resolve().parent.parent
SOURCE = TOP / "crates" / "command_table" / "src"
OPTIONS = ("Value", "Needed", "Flag")
FILES = ("Input", "Output")

# The name for people, the name of an option's value, how it is given, what it is, and the words to choose from.
Argument = namedtuple("Argument", "name value form kind choices")


def read_source(name):
    return (SOURCE / name).read_text(encoding="utf-8")


def read_texts(source):
    """The constants that are texts."""
    return dict(re.findall(r'^pub\(crate\) const (\w+): &str =\s+"([^"]*)";', source, re.M))


def read_fields(source):
    """The fields of each argument by the name of its constant; one that is like another but for some fields has the others
    of that one, which stands before it."""
    fields = {}
    for constant, body in re.findall(r"^(?:pub\(crate\) )?const (\w+): Argument = Argument \{\n(.*?)^\};", source, re.S | re.M):
        like = re.search(r"^    \.\.(\w+)$", body, re.M)
        fields[constant] = {**(fields[like[1]] if like else {}), **dict(re.findall(r"^    (\w+): (.*?),$", body, re.M))}
    return fields


def read_arguments():
    """Each argument by the name of its constant."""
    arguments = {}
    for source in (read_source("positional.rt"), read_source("options.rt")):
        texts = read_texts(source)
        for constant, fields in read_fields(source).items():
            choices = fields["choices"]
            arguments[constant] = Argument(fields["name"].strip('"'), fields["value"].strip('"'),
                                           fields["form"].partition("::")[2], fields["kind"].partition("::")[2],
                                           texts.get(choices, choices.strip('"')))
    return arguments


def bodies(source):
    """The fields of each command as they stand, by the name of its constant."""
    return re.findall(r"^pub\(crate\) const (\w+): Command = Command \{\n(.*?)^\};", source, re.S | re.M)


def read_names():
    """The variant of each command with the name of its constant, as LoadPanic with LOAD_PANIC, in their order."""
    return [(constant.title().replace("_", ""), constant) for constant, _ in bodies(read_source("commands.rt"))]


def read_text(field, body):
    return re.search(rf'^    {field}:\s+"(.*?)",$', body, re.M)[1]


def read_briefs():
    """What the list of the commands says of each, in their order."""
    return {read_text("name", body): read_text("brief", body) for _, body in bodies(read_source("commands.rt"))}


def read_commands():
    """The arguments of each command, in their order; the commands in the order in which they are listed. Between the brackets
    of `[..]` stand the names of the arguments, or else the name of such a list."""
    source, arguments, commands = read_source("commands.rt"), read_arguments(), {}
    lists = dict(re.findall(r"^const (\w+): &\[Argument\] = &\[(.*?)\];", source, re.S | re.M))
    for _, body in bodies(source):
        listed, named = re.search(r"^    arguments: (?:&\[(.*?)\]|(\w+)),$", body, re.S | re.M).groups()
        row = lists[named] if named else listed
        commands[read_text("name", body)] = [arguments[name] for name in re.findall(r"\w+", row)]
    return commands
