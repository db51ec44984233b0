"""Memory files with a list in them that goes round, for the measurement of trace."""
import random
import struct

from inputs import PAGE, memory_files

LIST, DATA, SWAP = 0x20, 0x100000, 0x10
# the words of a page of a list: pairs of a destination and a source word, a word that does nothing, and the link
WORDS = PAGE // 8
PAIRS = (WORDS - 2) // 2


def head():
    """The head word: a link to the first page of the list."""
    return f"{LIST * PAGE | 2:x}"


def swap():
    """The address of the swap page, which is not held at first."""
    return f"{SWAP * PAGE:x}"


def write_steps(file):
    """A list of one page: 511 destination words and a link to the page itself."""
    words = [DATA * PAGE | 1] * (WORDS - 1) + [LIST * PAGE | 2]
    memory_files.write_memory(file, [(LIST, struct.pack(f"<{WORDS}Q", *words))])


def write_moves(file, held):
    """Moves between `held` pages, each from a random one (always the same) to the next of them in random order."""
    chance = random.Random(held)
    numbers = list(range(DATA, DATA + held))
    order = chance.sample(numbers, held)
    pages = []
    lists = -(-held // PAIRS)
    for k in range(lists):
        words = []
        for pair in range(k * PAIRS, (k + 1) * PAIRS):
            words += [order[pair % held] * PAGE | 1, chance.choice(numbers) * PAGE | 8]
        words += [0, (LIST + (k + 1) % lists) * PAGE | 2]
        pages.append((LIST + k, struct.pack(f"<{WORDS}Q", *words)))
    pages += [(number, struct.pack("<Q", number) * WORDS) for number in numbers]
    memory_files.write_memory(file, pages)


def steps_of(moves):
    """How many steps so many of these moves take, that of the head word included."""
    return 1 + moves // PAIRS * WORDS + moves % PAIRS * 2
