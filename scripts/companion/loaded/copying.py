"""Whether a kernel runs a list without preserved context by exchanges of pages, as Linux did before 6.14, or by copies. Its
code says it: the version does not, since distributions take changes over."""

# The code has three copies of a page: source to swap page, destination to source, swap page to destination. Where plain
# lists are copied, the first two are skipped by a short jump.
COPY = bytes.fromhex("f348a5")  # rep movsq
SHORT_JUMP_IF_ZERO = 0x74
MOST_CODE, BEFORE = 4096, 64
UNKNOWN = "the code that runs lists in this kernel has no form that is known, and exchanges ask more of a list than copies"


def start_of(kernel):
    """Where the code that runs a list begins, which a load copies into the control page."""
    return kernel.symbols.get("__relocate_kernel_start") or kernel.symbol("relocate_kernel")


def code_of(kernel):
    """The code that runs a list, as it stands in the kernel."""
    first = start_of(kernel)
    end = kernel.symbols.get("__relocate_kernel_end", first + MOST_CODE)
    return kernel.virtual.read(first, min(end - first, MOST_CODE))


def is_by_exchanges(code):
    """Whether each source and destination are exchanged; None where the code has neither form."""
    places, at = [], code.find(COPY)
    while at >= 0:
        places.append(at)
        at = code.find(COPY, at + 1)
    if len(places) < 3:
        return None
    first, second, third = places[:3]
    if third - first > BEFORE:
        return None
    for at in range(max(0, first - BEFORE), first - 1):
        if code[at] == SHORT_JUMP_IF_ZERO and second < at + 2 + code[at + 1] <= third:
            return False
    return True
