"""Words of a list of page copies: docs/FORMATS.md, The list."""
from companion.numbers import END, PAGE

KINDS = {1: "destination", 2: "link", 4: "done", 8: "source"}


def kind_of(word):
    """The kind of a word with exactly one flag, else None."""
    return KINDS.get(word % PAGE)


def address_of(word):
    return word & ~(PAGE - 1)


def walk(memory, head):
    """The number, the place and the value of each word from the head on, up to one that cannot be followed; the head has
    no place."""
    number, place, word, seen = 0, None, head, set()
    while True:
        yield number, place, word
        kind, address = kind_of(word), address_of(word)
        if kind in (None, "done") or address >= END or (place is None and kind != "link"):
            return
        if kind == "link":
            if address in seen:
                return
            seen.add(address)
            place = address
        elif place % PAGE == PAGE - 8:
            return
        else:
            place += 8
        number, word = number + 1, memory.word(place)


def pairs(words):
    """The number of each source word, of (kind, address), with its pair's destination and source."""
    destination = None
    for number, (kind, address) in enumerate(words):
        if kind == "destination":
            destination = address
        elif kind == "source" and destination is not None:
            yield number, destination, address
            destination += PAGE


def pairs_of(words):
    """The pairs of words as `walk` gives them."""
    return pairs((kind_of(word), address_of(word)) for _, _, word in words)


def merged(found):
    """Pairs as runs (first number, destination, source, pages), in which all three rise by one word or page at a time."""
    run = None
    for number, destination, source in found:
        if run and (run[0] + run[3], run[1] + PAGE * run[3], run[2] + PAGE * run[3]) == (number, destination, source):
            run[3] += 1
            continue
        if run:
            yield tuple(run)
        run = [number, destination, source, 1]
    if run:
        yield tuple(run)
