"""The documents that are made of what is reached: docs/BELIEVED.list, the quotes, counts and times of docs/BELIEVED.md, and the
marks of docs/DEFINITIONS.md."""
import re
import sys
import textwrap

from believed_aloud import minutes_of, parts_of
from believed_definitions import TOP, Definition
from believed_reach import INNER, TOP_CALL, Reached, clauses, definitions_named, examples, misplaced, reached_from, starts_of
from believed_tries import reached_by, refused_by, row_of_list, table_of_tries
from companion.refusals import Wrong

LIST = TOP / "docs" / "BELIEVED.list"
GUIDE = TOP / "docs" / "BELIEVED.md"
ENTRIES = TOP / "docs" / "DEFINITIONS.md"
README = TOP / "README.md"
ENTRY = re.compile(r"^(- |\| )(?:† )?(?=(\w+) ((?:`[^`\n]+`[,;]?\s+)*`[^`\n]+`))", re.M)


def tried(library, reached, news=None):
    """Each definition with an example that reaches it, and each with the example that refused a change of it, or None."""
    its, known = reached.definitions(), list(examples(library))
    return reached_by(library, its, known), refused_by(its, known, LIST.read_text(encoding="utf8"), news or {})


def list_of_names(library, refused):
    """The names of what is reached, a section for each root, each name with the example that refused a change of it."""
    for root, its in reached_from(library).items():
        added = "and the exit status of an answer" if root == TOP_CALL else "besides"
        yield f"{'' if root == TOP_CALL else chr(10)}# {root}: what its clauses reach, {added}\n\n"
        for it in sorted(its, key=Definition.title):
            yield row_of_list(it, refused) + "\n"


def row_of(what, its):
    """A row of counts of these definitions and types."""
    made = [it for it in its if not it.is_type]
    counts = [len(made), sum(it.length() for it in made), len({it.path for it in made}), len(its) - len(made)]
    return f"| {what} | " + " | ".join(str(count) for count in counts) + " |"


def table_of_numbers(library):
    """The table of counts in the guide."""
    plan = ["kexec_plan Plan.plan"]
    yield "| What | Definitions | Lines | Spec files | Types |"
    yield "|---|---|---|---|---|"
    for root, its in reached_from(library).items():
        added = "and `code_of`" if root == TOP_CALL else "besides"
        yield row_of(f"**all clauses of `{root}`**, {added}", its)
    rows = [(f"`{name}`, a clause of `kexec`", [f"clause {name}"], []) for name, it in clauses().items() if it[0] == TOP_CALL]
    rows += [("`HasBooted`", ["Boot.HasBooted"], []), ("`HasBooted`, `plan` taken as known", ["Boot.HasBooted"], plan)]
    rows += [("`load_inputs`, what `boot` reads of its files", ["Inputs.load_inputs"], []), ("`plan`", plan, [])]
    rows += [("`MemoryStarts`, `plan` taken as known", ["Booted.MemoryStarts"], plan)]
    for what, names, stop in rows:
        stops = {it for name in stop for it in definitions_named(library, name)}
        yield row_of(what, list(Reached(library, starts_of(library, names), stops).by))


def block(kind, name, path, text):
    return f"<!-- {kind} {name} -->\n`{path.relative_to(TOP)}`\n\n```\n{text}\n```\n<!-- end -->"


def quoted(library, found):
    """A definition, or a clause with the comment above it, as it stands now."""
    kind, name = found[1], found[2]
    if kind == "quote":
        (it,) = definitions_named(library, name)[:1]
        return block(kind, name, it.path, it.quote())
    _root, path, lines = clauses()[name]
    return block(kind, name, path, "\n".join(line[4:].rstrip() for line in lines).rstrip())


def in_lines(library, name):
    """The definitions that such a block names, each with the beginning of those of its lines that are wanted."""
    crate, file, *heads = name.replace(":", "").replace(",", "").split(" ")
    for head in heads:
        (it,) = definitions_named(library, f"{crate} {file}.{head.partition('/')[0]}")[:1]
        yield it, head.replace("/", " ")


def lined(library, found):
    """Definitions of one file as what they say alone, without their types and comments: of a name with a case behind a stroke,
    as `after_runs/None`, what is said of this case. What takes more than a line stands apart."""
    text, apart = "", False
    for it, head in in_lines(library, found[1]):
        lines = it.said(head)
        if not lines:
            raise Wrong(f"{it.title()} has no line that begins with {head}")
        text += ("\n\n" if apart or len(lines) > 1 else "\n") + "\n".join(lines)
        apart = len(lines) > 1
    return block("lines", found[1], it.path, text.strip())


def names_of_entries(library):
    """The entries of all commands, as the table of them has them."""
    (it,) = definitions_named(library, "kexec_main Commands.entry_of")[:1]
    return textwrap.wrap(", ".join(f"`{name}`" for name in re.findall(r"= (\w+)", it.text())), 120)


def timed(text):
    """The guide with the time that it takes to read it aloud up to its second half, and whole."""
    for name, part in parts_of(text).items():
        text = re.sub(rf"<!-- {name} -->\d+<!-- end -->", f"<!-- {name} -->{minutes_of(part)}<!-- end -->", text)
    return text


def filled(library, tries, text):
    """The guide with its quotes, places, counts and times as they are now."""
    text = re.sub(r"<!-- (quote|clause) (.*?) -->\n.*?<!-- end -->", lambda found: quoted(library, found), text, flags=re.S)
    text = re.sub(r"<!-- lines (.*?) -->\n.*?<!-- end -->", lambda found: lined(library, found), text, flags=re.S)
    made = {"numbers": lambda: table_of_numbers(library), "tries": lambda: table_of_tries(*tries),
            "entries": lambda: names_of_entries(library)}
    text = re.sub(rf"<!-- ({'|'.join(made)}) -->\n.*?<!-- end -->",
                  lambda found: "\n".join([f"<!-- {found[1]} -->", *made[found[1]](), "<!-- end -->"]), text, flags=re.S)
    return timed(text)


def marked(reached, text):
    """The entries of the definitions, those that are reached with a dagger. A name without its file is in that of the name
    before it; a name that begins with a capital and has no other behind it may be that of a whole file."""
    titles = {it.title().replace("◌", "") for it in reached.by}
    files = {title.rsplit(".", 1)[0] for title in titles}

    def mark(found):
        part, is_reached = "", False
        for name in re.findall(r"`([^`]+)`", found[3]):
            if "." in name:
                part = name.rsplit(".", 1)[0]
            title = f"{found[2]} {name}" if "." in name else f"{found[2]} {part}.{name}"
            is_reached = is_reached or title in titles or f"{found[2]} {name}" in files
        return found[1] + ("† " if is_reached else "")

    return ENTRY.sub(mark, text)


def files_as_they_must_be(library, reached, news=None):
    """The files that this script writes, each with its text."""
    tries = tried(library, reached, news)
    guide = filled(library, tries, GUIDE.read_text(encoding="utf8"))
    first, whole = (re.search(rf"<!-- {name} -->(\d+)<!-- end -->", guide)[1] for name in ("first", "whole"))
    times = rf"\g<1>{first} minutes for the shortest boot, {whole} for all"
    return {
        LIST: "".join(list_of_names(library, tries[1])),
        GUIDE: guide,
        ENTRIES: marked(reached, ENTRIES.read_text(encoding="utf8")),
        README: re.sub(r"(docs/BELIEVED.md \|[^|\n]*?)\d+ minutes for the shortest boot, \d+ for all", times,
                       README.read_text(encoding="utf8")),
    }


def unexplained(library, guide):
    """The definitions that a quote of the guide uses, and that it neither quotes nor names outside quotes."""
    prose = re.sub(r"<!-- (quote|lines|clause|numbers|tries).*?<!-- end -->", "", guide, flags=re.S)
    said = set(re.findall(r"[\w'>=]+", " ".join(re.findall(r"`([^`]+)`", prose))))
    quotes = [definitions_named(library, name)[0] for name in re.findall(r"<!-- quote (.*?) -->", guide)]
    quotes += [it for name in re.findall(r"<!-- lines (.*?) -->", guide) for it, _head in in_lines(library, name)]
    for it in quotes:
        for used in library.used(it):
            if not isinstance(used, str) and used not in quotes and used.name.strip("◌") not in said:
                yield used, it


def faults_of(library, reached, guide):
    """What no writing mends: names in the guide that are not reached or not explained, and definitions in the wrong folder."""
    for used, it in unexplained(library, guide):
        yield f"{GUIDE.relative_to(TOP)} quotes {it.title()}, and says nothing of {used.title()}"
    names = {it.title() for it in reached.by}
    for name in re.findall(r"`(\w+ \w+\.\w+)`", guide):
        if name not in names:
            yield f"{GUIDE.relative_to(TOP)} names {name}, which is not reached"
    for it in misplaced(library, reached):
        yield f"{it.place()}: {it.name} belongs into {'specs/' if it in reached.by else f'specs/{INNER}/'}"


def write_tried(library, news):
    """Writes the files with what was refused now, each definition with an example."""
    return write_or_check(library, Reached(library, starts_of(library, []), set()), True, news)


def write_or_check(library, reached, writes, news=None):
    """Writes the files, or says what differs; 1 where something does, or a fault is left."""
    wanted = files_as_they_must_be(library, reached, news)
    faults = list(faults_of(library, reached, wanted[GUIDE]))
    for path, text in wanted.items():
        old = path.read_text(encoding="utf8") if path.exists() else ""
        if writes:
            path.write_text(text, encoding="utf8")
        elif old != text:
            faults.append(f"{path.relative_to(TOP)} is not as it must be; scripts/believed --write writes it")
            gone, new = set(old.split("\n")) - set(text.split("\n")), set(text.split("\n")) - set(old.split("\n"))
            faults += [f"  {sign} {line}" for sign, lines in (("-", gone), ("+", new)) for line in sorted(lines)[:20]]
    for fault in faults:
        print(fault if fault.startswith("  ") else f"believed: {fault}", file=sys.stderr)
    return 1 if faults else 0
