"""kernelyet look: what stands in memory files, load records and lists."""
from companion import look_lists, look_steps, look_texts, memory_files, records, reports, shown
from companion.lists import address_of, kind_of, walk
from companion.numbers import END, PAGE, address, counted, number_of, runs, size_of, size_text
from companion.parsers import Parser, choose
from companion.progress import Progress
from companion.refusals import WrongWords
from companion.written import write_bytes

TEXT = """Shows what stands in memory files, load records and lists.

  look pages MEMORY               the pages that are not all zeros, as runs
  look bytes MEMORY ADDRESS       a hexdump
  look differ MEMORY OTHER        the pages that differ, as runs
  look record RECORD              every number of a load record, and what each
                                  segment is
  look list MEMORY RECORD         the list of a load record, its pairs as runs;
                                  of a fault, what stands there and what must
  look steps MEMORY HEAD          what the machine does at each step of a list
  look text                       what a command of the program printed, in its
                                  parts
  look make-record RECORD ADDRESS=FILE..
                                  a load record for a list that another loader
                                  wrote"""
EPILOG = """Status 0; 1 where an input is refused, `differ` finds a difference, or `list` a
fault; 2 where the words are refused. look COMMAND --help describes one."""


def words_for(name, words, text, call):
    made = Parser(f"look {name}", words, text)
    made.set_defaults(call=call)
    return made


def parsers():
    """The parser of each word behind look."""
    pages = words_for("pages", "[OPTIONS] MEMORY", "Shows the pages that are not all zeros, as runs.", show_pages)
    pages.word_of("MEMORY", "the memory file")
    dump = words_for("bytes", "[OPTIONS] MEMORY ADDRESS [SIZE]", "Shows bytes of a memory file, as a hexdump.", show_bytes)
    dump.word_of("MEMORY", "the memory file")
    dump.word_of("ADDRESS", "where it begins, hexadecimal")
    dump.word_of("SIZE", "how many bytes, as 4096 or 4K; 256 without it", nargs="?")
    differ = words_for("differ", "[OPTIONS] MEMORY OTHER [RECORD]", "Shows the pages that differ, as runs.", show_differ)
    differ.word_of("MEMORY", "a memory file")
    differ.word_of("OTHER", "another one")
    differ.word_of("RECORD", "a load record: what each of the pages is to this load is said", nargs="?")
    record = words_for("record", "[OPTIONS] RECORD", "Shows every number of a load record, and what each segment is.",
                       show_record)
    record.word_of("RECORD", "the load record")
    for made in (pages, dump, differ, record):
        reports.option_json(made)
    return {"pages": pages, "bytes": dump, "differ": differ, "record": record, "list": look_lists.parser(),
            "steps": look_steps.parser(), "text": look_texts.parser(), "make-record": parser_of_make_record()}


def parser_of_make_record():
    made = words_for("make-record", "--head HEAD --control ADDRESS [OPTIONS] RECORD ADDRESS=FILE..",
                     "Writes a load record, version 2, for a list that stands in a memory already. The\n"
                     "segments are the FILEs at their addresses, zero-filled to whole pages.", make_record)
    made.option("head", "the head word of the list", "HEAD", required=True)
    made.option("control", "the control page", "ADDRESS", required=True)
    made.option("swap", "the swap page: with context preserved", "ADDRESS")
    made.option("entry", "where the kernel is entered; the first segment's address without it", "ADDRESS")
    for register in ("rax", "rbx", "rsi"):
        made.option(register, f"what {register} has at the start; 0 without it", "NUMBER")
    made.word_of("RECORD", "the load record to write")
    made.word_of("ADDRESS=FILE", "a segment: where it goes, and its bytes", nargs="+")
    return made


def show_pages(given):
    memory = memory_files.Memory(given.memory)
    found = list(runs(memory.place))
    lines = [shown.page_run(*run) for run in found]
    lines.append(f"{counted(len(memory.place), 'page')} of at most {memory_files.MOST_PAGES}")
    reports.show(given, "look pages", {"pages": len(memory.place), "runs": [shown.run_object(*run) for run in found]}, lines)
    return 0


def show_bytes(given):
    memory = memory_files.Memory(given.memory)
    at = number_of(given.address, 16, "ADDRESS")
    # fewer without SIZE, where memory ends before
    size = size_of(given.size, "SIZE") if given.size else max(1, min(256, END - at))
    if at + size > END:
        raise WrongWords(f"ADDRESS and SIZE must end at {END:#x} or below")
    parts = [{"start": first, "hex": data.hex()} for first, data in held_parts(memory, at, at + size)]
    reports.show(given, "look bytes", {"start": at, "end": at + size, "parts": parts}, dump_lines(memory, at, at + size))
    return 0


def held_parts(memory, start, end):
    """The bytes from a start up to an end that are of pages which the memory file has: (address, bytes)."""
    for page in memory.place:
        first, behind = max(start, page * PAGE), min(end, (page + 1) * PAGE)
        if first < behind:
            yield first, memory.bytes_at(first, behind - first)


def dump_lines(memory, start, end):
    """A hexdump, in which zeros have one line together."""
    at = start
    for first, data in held_parts(memory, start, end):
        if at < first:
            yield f"{at:#014x}  zeros up to {first - 1:#x}"
        yield from shown.hexdump(first, data)
        at = first + len(data)
    if at < end:
        yield f"{at:#014x}  zeros up to {end - 1:#x}"


def part_of(record, roles, page):
    """What a page is to a load."""
    i, _ = record.part(page)
    found = [] if i is None else [f"segment {i} {record.names()[i]}".rstrip()]
    found += [name for name, pages in roles.items() if page in pages]
    return ", ".join(found) or "no page of the load"


def roles_of(memory, record):
    """The pages of a load beside its segments, by what they are."""
    words = list(walk(memory, record.head))
    return {
        "link page": {address_of(word) // PAGE for _, _, word in words if kind_of(word) == "link"},
        "source": {address_of(word) // PAGE for _, _, word in words if kind_of(word) == "source"},
        "control page": {record.control // PAGE} - {0},
        "swap page": {record.swap // PAGE} - {0},
    }


def show_differ(given):
    one, other = memory_files.Memory(given.memory), memory_files.Memory(given.other)
    record = records.Record(given.record) if given.record else None
    roles = roles_of(one, record) if record else {}
    parts = {}
    with Progress(f"comparing {given.memory} with {given.other}"):
        for page in one.place.keys() | other.place.keys():
            if one.page(page) != other.page(page):
                parts.setdefault(part_of(record, roles, page) if record else "", []).append(page)
    found = [(*run, name) for name, pages in sorted(parts.items(), key=lambda item: min(item[1])) for run in runs(pages)]
    count = sum(map(len, parts.values()))
    lines = [shown.page_run(*run) for run in found] + [f"{counted(count, 'page')} differ{'s' * (count == 1)}"]
    objects = [shown.run_object(first, last, part=name or None) for first, last, name in found]
    reports.show(given, "look differ", {"pages": count, "runs": objects}, lines)
    return 1 if count else 0


def show_record(given):
    record = records.Record(given.record)
    lines = [f"version {record.version}, {'crash' if record.kind else 'normal'} kernel" + ", context preserved" * record.mode,
             shown.head_line(record),
             f"start entry {record.entry:#x} rax {record.rax:#x} rbx {record.rbx:#x} rsi {record.rsi:#x}"]
    if record.regions:
        lines.append(f"regions {record.regions:#x} digest {record.digest:#x}")
    lines += [*shown.segment_lines(record),
              f"{counted(record.pages(), 'page')} of at most {records.MOST_SEGMENT_PAGES}, "
              f"{counted(len(record.segments), 'segment')} of at most {records.MOST_SEGMENTS}"]
    reports.show(given, "look record", shown.record_object(record), lines)
    return 0


def make_record(given):
    names = ("head", "control", "swap", "entry", "rax", "rbx", "rsi")
    numbers = {name: number_of(getattr(given, name), 16, f"--{name}") for name in names if getattr(given, name) is not None}
    segments = []
    for word in given.address:
        start, equals, path = word.partition("=")
        if not equals:
            raise WrongWords(f"{word!r} is not a segment: give ADDRESS=FILE")
        with open(path, "rb") as file:
            segments.append((number_of(start, 16, "a segment's address"), file.read()))
    if len(segments) > records.MOST_SEGMENTS or any(at % PAGE for at, _ in segments):
        raise WrongWords(f"a load has at most {records.MOST_SEGMENTS} segments, each at a multiple of {address(PAGE)}")
    made = records.record_bytes(numbers.pop("head"), numbers.pop("control"), segments, **numbers)
    write_bytes(given.record, made)
    print(f"{given.record}: {counted(len(segments), 'segment')}, {size_text(len(made))}")
    return 0


def main(arguments):
    given = choose("look", TEXT, EPILOG, parsers(), arguments)
    return given.call(given)
