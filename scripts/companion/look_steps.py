"""kernelyet look steps: what the machine does at each step of a list."""
import struct

from companion import reports
from companion.lists import address_of
from companion.memory_files import Memory
from companion.numbers import END, PAGE, number_of
from companion.parsers import Parser
from companion.refusals import WrongWords


def parser():
    words = Parser("look steps", "[OPTIONS] MEMORY HEAD [FROM [COUNT]]",
                   "Shows what the machine does at each step of a list from its head word on,\naccepted or not.")
    words.option("swap", "with context preserved, by this swap page", "ADDRESS")
    words.word_of("MEMORY", "the memory file")
    words.word_of("HEAD", "the head word, hexadecimal")
    words.word_of("FROM", "show the steps behind this one, decimal; all without it", nargs="?", default="0")
    words.word_of("COUNT", "show so many steps, decimal; 40 without it", nargs="?", default="40")
    reports.option_json(words)
    words.set_defaults(call=show_steps)
    return words


class Machine:
    """The machine that runs a list, over a memory whose pages it overwrites."""

    def __init__(self, memory, swap):
        self.memory, self.swap, self.written = memory, swap, {}
        self.place = self.destination = 0

    def page(self, address):
        return self.written.get(address, None) or self.memory.page(address // PAGE)

    def word(self):
        if self.place >= END:
            return None
        word = struct.unpack_from("<Q", self.page(address_of(self.place)), self.place % PAGE)[0]
        self.place += 8
        return word

    def step(self, word):
        """Does what a word says, and answers that in words; None where the run is off."""
        address = address_of(word)
        if word & 1:
            self.destination = address
            return f"destination {address:#x}"
        if word & 2:
            self.place = address
            return f"read on at {address:#x}"
        if word & 4:
            return "done"
        if not word & 8:
            return "nothing"
        return self.move(address)

    def move(self, address):
        """Copies a page, or exchanges two; None where the run is off."""
        to = self.destination
        if address >= END or to >= END:
            return None
        self.destination += PAGE
        if self.swap is None:
            self.written[to] = self.page(address)
            return f"copy {address:#x} to {to:#x}"
        source, destination = self.page(address), self.page(to)
        self.written[self.swap] = source
        self.written[address] = destination
        self.written[to] = self.written[self.swap]
        return f"exchange {address:#x} and {to:#x}, by {self.swap:#x}"


def steps_of(machine, word, last):
    """Each step up to the one of a number: its number, its word, and what the machine does; None where the run is off."""
    did = ""
    for step in range(1, last + 1):
        if did in (None, "done") or word is None:
            return
        did = machine.step(word)
        yield step, word, did
        word = None if did is None else machine.word()


def ending_of(rows, machine):
    """How the steps end: done, off, or running where more would follow."""
    did = rows[-1][2] if rows else ""
    if did == "done":
        return "done"
    return "off" if did is None or machine.place >= END else "running"


def lines_of(rows, ending, first, place):
    for step, word, did in rows:
        if step > first or did is None:
            yield f"{step} {word:#x}: {did or 'off: it moves a page past the limit'}"
    if ending == "running":
        yield ".."
    elif ending == "off" and rows[-1][2] is not None:
        yield f"off: the word after step {rows[-1][0]} lies at {place:#x}"


def show_steps(given):
    swap = None if given.swap is None else number_of(given.swap, 16, "--swap")
    if swap is not None and (swap % PAGE or swap >= END):
        raise WrongWords(f"--swap is not a page's address: a multiple of {PAGE:#x} below {END:#x}")
    machine, word = Machine(Memory(given.memory), swap), number_of(given.head, 16, "HEAD")
    first, count = number_of(getattr(given, "from"), 10, "FROM"), number_of(given.count, 10, "COUNT")
    rows = list(steps_of(machine, word, first + count))
    ending = ending_of(rows, machine)
    found = [{"step": step, "word": word, "did": did} for step, word, did in rows[first:]]
    reports.show(given, "look steps", {"ending": ending, "steps": found}, lines_of(rows, ending, first, machine.place))
    return 0
