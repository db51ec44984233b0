"""kernelyet picture: a machine's memory to scale, or a list of page copies."""
import os
import shutil
import sys

from companion import maps, picture_list, picture_memory, picture_text, plan, planning, program, reports
from companion.memory_files import Memory
from companion.parsers import Parser, choose
from companion.progress import Progress
from companion.records import Record, is_record
from companion.refusals import Wrong, WrongWords
from companion.scene import scene_of
from companion.written import write_text

# the examples with a picture, and whether their lists preserve context
EXAMPLES = [("first", False), ("comes-back", True), ("elf", False), ("spoiled", False), ("resident", False)]
TEXT = """Draws a machine's memory to scale, or a list of page copies.

  picture plan KERNEL [INITRD]    the memory of a machine, as `plan` loads it
  picture load RECORD [MEMORY]    the memory of a load that was made, also of a
                                  crash kernel
  picture list [FILE]             the list that `dump` printed, as an SVG"""
EPILOG = """Memory is drawn for the terminal, or with --svg as an SVG. picture COMMAND --help
describes one."""


def svg_option(words):
    words.option("svg", "write the picture as an SVG to this file; - is standard output", "FILE")


def parsers():
    """The parser of each word behind picture."""
    plans = Parser("picture plan", "[OPTIONS] KERNEL [INITRD]",
                   "Draws the memory of a machine, into which a Linux kernel is loaded as `plan` does\nit.")
    planning.options(plans)
    plans.set_defaults(call=draw_plan)
    loads = Parser("picture load", "[OPTIONS] RECORD [MEMORY]",
                   "Draws the memory of a load. With the memory behind the load its link pages,\n"
                   "sources, control and swap page are drawn too; MEMORY may stand first, as for\n"
                   "check.")
    loads.word_of("RECORD", "the load record")
    loads.word_of("MEMORY", "the memory file", nargs="?")
    loads.option("map", "the memory map of the machine", "FILE")
    loads.set_defaults(call=draw_load)
    for words in (plans, loads):
        svg_option(words)
    return {"plan": plans, "load": loads, "list": parser_of_list()}


def parser_of_list():
    words = Parser("picture list", "[OPTIONS] [FILE]",
                   "Draws the list that `dump` printed. On the left stands the list: the head, and\n"
                   "each link page with its words; pairs of which destinations and sources rise page\n"
                   "by page are one row, named by its segment. Beside it stand the pages before and\n"
                   "after the run, with an arrow from each source to its destination. With context\n"
                   "preserved the arrows of the exchange go both ways. A word with a fault ends the\nlist.")
    words.word_of("FILE", "what dump printed; standard input without it", nargs="?")
    words.option("kept", "with context preserved")
    words.option("record", "the load record of the list: it says whether context is preserved, and what the segments are",
                 "FILE")
    svg_option(words)
    words.option("check", "compare the pictures of the examples, in the source tree, with what this makes")
    words.option("make", "make these pictures")
    words.set_defaults(call=draw_list)
    return words


def put(given, text):
    """Writes an SVG to the file of --svg, or to standard output."""
    if given.svg and given.svg != "-":
        write_text(given.svg, text)
        print(f"{given.svg}: written")
    else:
        sys.stdout.write(text)


def draw(given, pieces, title):
    """Draws memory: as an SVG where that is asked for, else for the terminal."""
    if given.svg:
        put(given, picture_memory.as_svg(pieces, title))
        return
    columns = min(64, max(16, shutil.get_terminal_size().columns - 18))
    for line in picture_text.as_text(pieces, title, columns - columns % 16):
        print(line)


def draw_plan(given):
    program.ready()
    with planning.temporary_folder() as folder:
        made, _ = plan.made_by(given, folder)
        if made.record is None:
            raise Wrong(f"there is no load to be drawn: {made.refusal}")
        memory = Memory(f"{folder}/loaded.kxmem")
        title = f"{os.path.basename(given.kernel)} in the memory of {made.machine.source}"
        draw(given, scene_of(made.machine.rows, made.record, memory), title)
    return 0


def draw_load(given):
    rows = maps.read_map(given.map)[1] if given.map else None
    if given.memory and is_record(given.memory):
        # in the order of check, dump and exec
        given.record, given.memory = given.memory, given.record
    memory = Memory(given.memory) if given.memory else None
    with Progress(f"reading {given.record}"):
        pieces = scene_of(rows, Record(given.record), memory)
    draw(given, pieces, os.path.basename(given.record))
    return 0


def example_pictures():
    """Each example's picture: its file, and what it is to be."""
    folder = f"{program.TOP}/examples"
    if program.IS_INSTALLED or not os.path.isdir(folder):
        raise WrongWords("--check and --make are for the source tree: there are no examples with pictures here")
    for name, is_kept in EXAMPLES:
        with open(f"{folder}/{name}/dump", encoding="ascii") as dump:
            yield f"{folder}/{name}/list.svg", picture_list.draw(picture_list.List(dump.read()), is_kept)


def compare_examples(is_made):
    """Compares the examples' pictures with what this makes of their dumps, or makes them."""
    status = 0
    for path, wanted in example_pictures():
        found = None
        if os.path.isfile(path):
            with open(path, encoding="utf-8") as file:
                found = file.read()
        if found == wanted:
            continue
        if is_made:
            write_text(path, wanted)
        else:
            status = 1
            print(f"{os.path.relpath(path, program.TOP)} is not what picture list --make makes", file=sys.stderr)
    return status


def draw_list(given):
    if given.check or given.make:
        return compare_examples(given.make)
    record = Record(given.record) if given.record else None
    told = picture_list.List(reports.text_given(given.file), record.names() if record else ())
    with Progress("drawing the list"):
        drawn = picture_list.draw(told, given.kept or (record is not None and record.mode == 1))
    put(given, drawn)
    return 0


def main(arguments):
    given = choose("picture", TEXT, EPILOG, parsers(), planning.marked(arguments))
    if given.call is draw_plan:
        planning.check_options(parsers()["plan"], given)
    return given.call(given)
