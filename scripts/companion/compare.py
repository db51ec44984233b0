"""kernelyet compare: what differs between two loads."""
from companion import reports
from companion.lists import merged, pairs_of, walk
from companion.memory_files import Memory
from companion.numbers import counted, size_text
from companion.parameters import KINDS, Parameters
from companion.parsers import Parser
from companion.progress import Progress
from companion.records import Record

TEXT = """Says what differs between two load records: kind and mode, the command line,
the kernel, the initrd and every other part, by its bytes, its size and its
place, where the kernel is entered, the map that it is handed, and the pages of
the list. With both memories it compares the lists too."""
EPILOG = """A part is found in both by what it is. Status 0 where nothing differs; 1 where
something does, or an input is refused; 2 where the words are refused."""


def parser():
    words = Parser("compare", "[OPTIONS] RECORD OTHER [MEMORY OTHER-MEMORY]", TEXT, EPILOG)
    words.word_of("RECORD", "a load record")
    words.word_of("OTHER", "another one")
    words.word_of("MEMORY", "the memory file of each, both or none", nargs="*", default=[])
    reports.option_json(words)
    return words


def parts_of(record):
    """The segments by their names; those of one name are numbered from the second on."""
    found = {}
    for i, (segment, name) in enumerate(zip(record.segments, record.names())):
        name = name or "segment"
        found[name if name not in found else f"{name} {i}"] = segment
    return found


def where_differs(one, other):
    """Where two texts of bytes differ first; None where they are the same."""
    both = min(len(one), len(other))
    if one == other:
        return None
    step, first = 1 << 16, both
    for at in range(0, both, step):
        if one[at : at + step] != other[at : at + step]:
            first = next(i for i in range(at, both) if one[i] != other[i])
            break
    return first


def exact_size(count):
    """A number of bytes, and the same in a larger unit where it has one."""
    return counted(count, "byte") + f" ({size_text(count)})" * (count >= 1024)


def segment_differences(name, one, other):
    """How a part of two loads differs."""
    if one is None or other is None:
        yield f"{name}", *(("none" if it is None else f"{size_text(len(it.data))} at {it.mem:#x}") for it in (one, other))
        return
    if one.mem != other.mem:
        yield f"{name}: place", f"{one.mem:#x}", f"{other.mem:#x}"
    if len(one.data) != len(other.data):
        yield f"{name}: bytes", *(exact_size(len(it.data)) for it in (one, other))
    if one.memsz != other.memsz:
        yield f"{name}: memory", *(size_text(it.memsz) for it in (one, other))
    first = where_differs(one.data, other.data)
    # the pages of parameters and headers have addresses in them, which are compared one by one
    if first is not None and name not in ("boot parameters", "crash headers"):
        yield f"{name}: contents", *(f"{it.data[first : first + 8].hex(' ') or 'ended'} at byte {first:#x}"
                                     for it in (one, other))


def parameters_of(record):
    return Parameters(record) if any(segment.is_parameters() for segment in record.segments) else None


def words_of(parameters):
    return (parameters.command_text().split() if parameters else [])


def command_differences(one, other):
    """Which words of the command line are in one alone."""
    mine, theirs = words_of(one), words_of(other)
    if mine == theirs:
        return
    only = [" ".join(word for word in some if word not in rest) for some, rest in ((mine, theirs), (theirs, mine))]
    if any(only):
        yield "command line: words in one alone", *(text or "none" for text in only)
    else:
        yield "command line: order of words", " ".join(mine), " ".join(theirs)


def row_differences(one, other):
    rows = [{(start, start + size, kind) for start, size, kind in it.rows()} if it else set() for it in (one, other)]
    if rows[0] != rows[1]:
        yield "map of the kernel: rows in one alone", *(
            ", ".join(f"{start:#x}-{end - 1:#x} {KINDS.get(kind, kind)}" for start, end, kind in sorted(some - rest)[:4])
            or "none"
            for some, rest in (rows, rows[::-1]))


def number_differences(one, other):
    """How the numbers of two records differ."""
    kinds = [f"{'crash' if it.kind else 'normal'} kernel" + ", context preserved" * it.mode for it in (one, other)]
    if kinds[0] != kinds[1]:
        yield "kind", *kinds
    for name in ("entry", "rax", "rbx", "rsi", "head", "control", "swap", "regions"):
        values = [getattr(it, name) for it in (one, other)]
        if values[0] != values[1]:
            yield name, *(f"{value:#x}" for value in values)


def list_differences(one, other, memories):
    """How the lists of two loads differ, by their memories."""
    lists = [list(walk(memory, record.head)) for record, memory in zip((one, other), memories)]
    found = [list(pairs_of(words)) for words in lists]
    counts = [f"{len(words)} words, {counted(len(pairs), 'pair')}, {counted(len(list(merged(pairs))), 'run')}"
              for words, pairs in zip(lists, found)]
    if counts[0] != counts[1]:
        yield "list", *counts
    sources = [{to: source for _, to, source in pairs} for pairs in found]
    moved = [to for to in sources[0].keys() & sources[1].keys() if sources[0][to] != sources[1][to]]
    if moved:
        first = min(moved)
        yield f"list: {counted(len(moved), 'destination')} with other sources", *(
            f"{first:#x} <- {it[first]:#x}" for it in sources)


def differences(one, other, memories):
    """What differs: what it is, and what it is in each."""
    parameters = [parameters_of(it) for it in (one, other)]
    yield from command_differences(*parameters)
    parts = [parts_of(it) for it in (one, other)]
    for name in dict.fromkeys([*parts[0], *parts[1]]):
        yield from segment_differences(name, parts[0].get(name), parts[1].get(name))
    yield from row_differences(*parameters)
    yield from number_differences(one, other)
    if memories:
        yield from list_differences(one, other, memories)


def main(arguments):
    words = parser()
    given = words.parse_args(arguments)
    if len(given.memory) not in (0, 2):
        words.error("give the memory files of both, or none")
    one, other = Record(given.record), Record(given.other)
    with Progress(f"comparing {given.record} with {given.other}"):
        found = list(differences(one, other, [Memory(path) for path in given.memory]))
    lines = [f"{what}:\n  {given.record}: {mine}\n  {given.other}: {theirs}" for what, mine, theirs in found]
    lines.append(counted(len(found), "difference") if found else "nothing differs")
    objects = [{"what": what, "one": mine, "other": theirs} for what, mine, theirs in found]
    reports.show(given, "compare", {"one": given.record, "other": given.other, "differences": objects}, lines)
    return 1 if found else 0
