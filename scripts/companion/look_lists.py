"""kernelyet look list: the list of a load record, and where it is not accepted."""
from companion import memory_files, program, records, reports, shown
from companion.lists import address_of, kind_of, merged, pairs_of, walk
from companion.numbers import PAGE, counted
from companion.parsers import Parser
from companion.progress import Progress
from companion.refusals import Wrong

# Faults that speak of earlier words of the same page.
OF_EARLIER = {"TwiceWritten", "SourceSpoiled", "LinkSpoiled", "PairsMeet", "LinkAgain"}


def parser():
    words = Parser("look list", "[OPTIONS] MEMORY RECORD",
                   "Shows the list of a load record: its words, and the pairs as runs, each with its\n"
                   "segment. Of a fault it shows what stands there, and what must stand there.")
    words.word_of("MEMORY", "the memory file")
    words.word_of("RECORD", "the load record")
    reports.option_json(words)
    words.set_defaults(call=show_list)
    return words


def checked(memory, record):
    """The line that `check` prints, what it says of a fault, and the number of the faulty word or None."""
    with Progress(f"checking the list of {record}"):
        status, printed, said = program.run(["check", "--", memory, record])
    if status not in (0, 1):
        raise Wrong(program.sentence(said))
    line = printed.splitlines()[0]
    return line, program.sentence(said) if status else "", int(line.split()[1][:-1]) if line.startswith("word ") else None


def run_objects(words, record):
    """The pairs of a list as runs."""
    for number, destination, source, count in merged(pairs_of(words)):
        i, place = record.part(destination // PAGE)
        yield {"word": number, "pages": count, "destination": destination, "source": source, "segment": i, "offset": place}


def run_line(run):
    number, count = run["word"], run["pages"]
    whose = "no segment" if run["segment"] is None else f"segment {run['segment']} +{run['offset']:#x}"
    name = f"word {number}" if count == 1 else f"words {number}-{number + count - 1}"
    stays = ", in its place already" * (run["destination"] == run["source"])
    return f"  {name}: {run['destination']:#x} <- {run['source']:#x}, {counted(count, 'page')}: {whose}{stays}"


def word_lines(words, record):
    """The words of a list: links and destinations, and the pairs as runs."""
    by_number = {run["word"]: run for run in run_objects(words, record)}
    for number, _, word in words:
        kind, address = kind_of(word), address_of(word)
        if number in by_number:
            yield run_line(by_number[number])
        elif kind == "link":
            yield f"link page {address:#x}, from word {number + 1} on"
        elif kind in ("destination", "done"):
            yield f"  word {number}: {kind}" + f" {address:#x}" * (kind == "destination")


def earlier_lines(words, record, fault):
    """The earlier words that have to do with the pages of the faulty one."""
    word = next(word for number, _, word in words if number == fault)
    mine = {kind_of(word): address_of(word)}
    found = list(pairs_of(words))
    mine.update({"destination": destination for number, destination, _ in found if number == fault})
    for name, page in mine.items():
        for number, destination, source in found:
            if number < fault and page == destination:
                yield f"  its {name} {page:#x} is the destination of word {number} ({destination:#x} <- {source:#x})"
            if number < fault and page == source and (record.mode or name == "link"):
                yield f"  its {name} {page:#x} is the source of word {number} ({destination:#x} <- {source:#x})"
        for number, _, word in words:
            if number < fault and kind_of(word) == "link" and address_of(word) == page:
                yield f"  its {name} {page:#x} is the link page of word {number}"


def difference_lines(destination, source, wanted, found):
    at = next(i for i in range(PAGE) if wanted[i] != found[i])
    yield f"  {source:#x} differs first at byte {at:#x}"
    low = at & ~15
    yield from shown.hexdump(destination + low, wanted[low : low + 32], "  wanted ")
    yield from shown.hexdump(source + low, found[low : low + 32], "  found  ")


def wrong_bytes_lines(memory, words, record, fault):
    """Where the source of the faulty pair differs from what its destination is to have."""
    destination, source = next((to, source) for number, to, source in pairs_of(words) if number == fault)
    i, place = record.part(destination // PAGE)
    yield f"  {destination:#x} is to be segment {i} +{place:#x}, and its source is {source:#x}"
    yield from difference_lines(destination, source, record.wanted(destination // PAGE), memory.page(source // PAGE))


def missing_lines(memory, record, line):
    page = int(line.split()[-1], 16) // PAGE
    i, place = record.part(page)
    yield (f"  {page * PAGE:#x} is to be segment {i} +{place:#x}"
           + ", and is the destination of no pair" * (not record.kind))
    if record.kind:
        yield from difference_lines(page * PAGE, page * PAGE, record.wanted(page), memory.page(page))


def fault_lines(memory, words, record, line, fault):
    """What stands at and around the faulty word, and what must stand there."""
    for number, place, word in words:
        if fault - 2 <= number <= fault + 2:
            where = "the head" if place is None else f"{place:#x}"
            kind = kind_of(word) or f"flags {word % PAGE:#x}"
            yield f"{'>' if number == fault else ' '} word {number} at {where}: {word:#x}, {kind} {address_of(word):#x}"
    name = line.split()[2]
    if name in OF_EARLIER:
        yield from earlier_lines(words, record, fault)
    elif name == "WrongBytes":
        yield from wrong_bytes_lines(memory, words, record, fault)
    elif name == "Missing":
        yield from missing_lines(memory, record, line)


def show_list(given):
    memory, record = memory_files.Memory(given.memory), records.Record(given.record)
    line, said, fault = checked(given.memory, given.record)
    words = list(walk(memory, record.head))
    before = [it for it in words if fault is None or it[0] < fault]
    lines = [shown.head_line(record), *shown.segment_lines(record), *word_lines(before, record), line]
    found = {"is_accepted": fault is None, "words": len(words), "head": record.head,
             "links": [address_of(word) for _, _, word in before if kind_of(word) == "link"],
             "segments": shown.segment_objects(record), "runs": list(run_objects(before, record)), "fault": None}
    if fault is not None:
        name = line.split()[2]
        lines += [said, *fault_lines(memory, words, record, line, fault)]
        found["fault"] = {"word": fault, "name": name, "sentence": said}
    reports.show(given, "look list", found, lines)
    return 0 if fault is None else 1
