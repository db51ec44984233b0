"""kernelyet look text: what a command of the program printed, in its parts."""
from companion import printed, reports
from companion.numbers import counted, size_text
from companion.parsers import Parser

# the numbers that are addresses, and those that are sizes
ADDRESSES = {"head", "control", "swap", "entry", "rax", "rbx", "rsi", "address", "start", "page"}
SIZES = {"memsz", "bytes"}


def parser():
    words = Parser("look text", "[OPTIONS] [FILE]",
                   "Reads what a command of the program printed, and shows the parts of each line:\n"
                   "addresses with 0x, sizes in binary units, or all as JSON.")
    words.word_of("FILE", "the printed lines; standard input without it", nargs="?")
    reports.option_json(words)
    words.set_defaults(call=show_text)
    return words


def shown_value(name, value):
    if name in ADDRESSES:
        return f"{value:#x}"
    return size_text(value) if name in SIZES else " ".join(value) if isinstance(value, list) else str(value)


def show_text(given):
    found = printed.read(reports.text_given(given.file))
    lines = [", ".join([one["line"], *(f"{name} {shown_value(name, value)}" for name, value in one.items()
                                      if name != "line" and value not in (None, []))]) for one in found]
    lines.append(counted(len(found), "line"))
    reports.show(given, "look text", {"lines": found}, lines)
    return 0
