"""Numbers, sizes and runs of pages, as the command line gives them and as people read them.

Addresses and page numbers are printed in hexadecimal with 0x, and taken with it or without. Sizes have binary units.
"""
from companion.refusals import WrongWords

PAGE = 4096
# one more than the last address and the last page number that the program takes
END = 1 << 46
END_PAGE = END // PAGE
UNITS = {"K": 10, "M": 20, "G": 30, "T": 40}


def number_of(text, base, what):
    """A number of the command line; a hexadecimal one may begin with 0x."""
    digits = text[2:] if base == 16 and text[:2] in ("0x", "0X") else text
    try:
        if not digits.isalnum():
            raise ValueError
        return int(digits, base)
    except ValueError:
        raise WrongWords(f"{what} is not a {'hexadecimal ' * (base == 16)}number: {text!r}") from None


def size_of(text, what="the size"):
    """A size of the command line: a number of bytes, or with K, M, G or T behind it, also as MiB."""
    word = text[:-2] if text[-2:] in ("iB", "ib") else text
    unit = UNITS.get(word[-1:].upper())
    digits = word[:-1] if unit else text
    try:
        count = int(digits) if digits.isascii() and digits.isdigit() else 0
    except ValueError:
        # more digits than Python reads
        count = 0
    if count == 0:
        raise WrongWords(f"{what} {text!r} is not a size: give a number of bytes, or 256M, 8G")
    return count << (unit or 0)


def size_text(count):
    """A number of bytes in binary units: 13.5 MiB, 4 KiB, 17 bytes."""
    if count < 1024:
        return counted(count, "byte")
    for unit, shift in (("KiB", 10), ("MiB", 20), ("GiB", 30), ("TiB", 40)):
        if count < 1024 << shift or unit == "TiB":
            shown = f"{count / (1 << shift):.1f}"
            return f"{shown[:-2] if shown.endswith('.0') else shown} {unit}"
    raise AssertionError("the last unit takes every size")


def option_size(count):
    """A size as crashkernel= and --ram take it: 192M."""
    return f"{count >> 20}M" if count % (1 << 20) == 0 else f"{count >> 10}K" if count % 1024 == 0 else str(count)


def counted(count, name):
    return f"{count} {name}{'s' * (count != 1)}"


def address(number):
    return f"{number:#x}"


def span(first, last):
    """The addresses of pages, both included."""
    return f"{first * PAGE:#x}-{last * PAGE + PAGE - 1:#x}"


def up(number, step):
    """The least multiple of a step that is not below a number."""
    return -(-number // step) * step


def runs(numbers):
    """The runs (first, last) of whole numbers, rising."""
    first = last = None
    for number in sorted(numbers):
        if first is not None and number != last + 1:
            yield first, last
            first = None
        if first is None:
            first = number
        last = number
    if first is not None:
        yield first, last


def common(some, others):
    """The runs (first, end) that two rising lists of runs have in common."""
    found, k = [], 0
    for first, end in some:
        while k < len(others) and others[k][1] <= first:
            k += 1
        at = k
        while at < len(others) and others[at][0] < end:
            found.append((max(first, others[at][0]), min(end, others[at][1])))
            at += 1
    return found


def without(some, others):
    """The runs (first, end) of some, where none of the others is."""
    found, others = [], sorted(others)
    for first, end in some:
        for low, high in others:
            if high > first and low < end:
                if low > first:
                    found.append((first, low))
                first = max(first, high)
        if first < end:
            found.append((first, end))
    return found
