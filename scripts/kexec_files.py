"""What the checks beside this one share: running the program, and the files that it reads and writes.

The readers and writers are the companion's (scripts/companion); here is what only the checks need.
"""
import argparse
import importlib.machinery
import importlib.util
import os
import re
import sys

from companion import numbers, program
from companion.maps import RAM, write_map
from companion.memory_files import Memory, memory_bytes, write_memory
from companion.numbers import END, PAGE
from companion.parsers import integer, sentence_of
from companion.program import KEXEC, LAUNCHER, TOP, ready, tool
from companion.records import DIGESTS, NUMBERS, Record, Segment, segments_of, without_digests
from companion.refusals import Wrong, WrongWords, call
from companion.written import to_write

__all__ = ["DIGESTS", "END", "KEXEC", "LAUNCHER", "Memory", "NUMBERS", "PAGE", "Parser", "Record", "Segment", "TOP", "Wrong",
           "WrongWords", "call", "integer", "memory_bytes", "module_of", "numbers", "program_given", "random_bytes",
           "read_record", "ready", "run", "segments_of", "to_write", "tool", "unknown", "without_digests", "words_given",
           "write_memory", "write_pool", "write_ram_map"]


class Parser(argparse.ArgumentParser):
    """The words of a script whose text says how it is called: --help prints the text, and words that are refused are told in
    one sentence, with status 2."""

    def __init__(self, text):
        super().__init__(description=text, formatter_class=argparse.RawDescriptionHelpFormatter, usage=argparse.SUPPRESS,
                         allow_abbrev=False)

    def error(self, message):
        print(f"{self.prog}: {sentence_of(message)}; --help says what may be given", file=sys.stderr)
        sys.exit(2)


def words_given(text, word=None):
    """The words of a script's command line, of which each is such a WORD, and none is taken without it; --help prints the
    script's text and ends it."""
    parser = Parser(text)
    if word:
        parser.add_argument("words", nargs="*", metavar=word)
    given = parser.parse_args()
    return given.words if word else []


def program_given(word):
    """The program that a script is given, by a name that holds in every folder."""
    path = os.path.abspath(word)
    if not (os.path.isfile(path) and os.access(path, os.X_OK)):
        raise WrongWords(f"{word} is not a program")
    return path


def module_of(script):
    """A script of this folder as a module."""
    sys.dont_write_bytecode = True
    loader = importlib.machinery.SourceFileLoader(script.replace("-", "_"), f"{TOP}/scripts/{script}")
    module = importlib.util.module_from_spec(importlib.util.spec_from_loader(loader.name, loader))
    loader.exec_module(module)
    return module


def random_bytes(chance, count):
    """So many bytes that are drawn; random.randbytes is not in Python 3.8."""
    return chance.getrandbits(8 * count).to_bytes(count, "little") if count else b""


def write_ram_map(file, last):
    """A memory map: System RAM from the first page up to the byte `last`."""
    write_map(file, [(PAGE, last, RAM)])


def write_pool(file, first, count):
    """A pool of so many pages from the first on."""
    with to_write(file, True) as out:
        out.write(f"{first:x}-{first + count - 1:x}\n")


def read_record(file):
    """The entry and the segments of a load record."""
    record = Record(file)
    return record.entry, record.segments


def run(words, folder):
    """Runs the program with these words: its status, and what it said on standard error."""
    status, _, said = program.run(words, folder)
    return status, said


def unknown(words):
    """What the program does not know of these words: the command or an option; None where it knows all."""
    _, told, _ = program.run([words[0], "--help"], TOP)
    if not re.match(rf"Usage: \S+ {re.escape(words[0])} ", told):
        return f"command {words[0]}"
    return next((f"option {word}" for word in words if word.startswith("--") and word not in told), None)
