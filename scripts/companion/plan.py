"""kernelyet plan: says where each part of a Linux kernel would lie in a machine, or what is missing."""
import shlex

from companion import maps, planning, program, reports
from companion.crash_sizes import ROOM, STEP, Needs, linked_bytes
from companion.numbers import END, PAGE, counted, option_size, size_of, size_text
from companion.parsers import Parser

TEXT = """Says where each part of a Linux kernel would lie in a machine, or what is
missing. The proved program loads the kernel into an empty memory, in a
temporary folder; nothing on this machine changes."""
EPILOG = f"""With --crash it says how large crashkernel= must be, by arithmetic: to load the
kernel, and to run it. The second is a rule of thumb: what is loaded, the
unpacked initrd, {ROOM >> 20} MiB for the kernel's own memory and its processes, and 1/64
for the records of the pages, in steps of 16 MiB. Without root= in the command
line Linux unpacks into half of the memory at most, and as much as the unpacked
initrd stays free beside it. Without an area in the map the kernel is tried in
one of that size. The command line is printed as a shell takes it, with the
words that a crash kernel needs.

Status 0 where the kernel loads; 1 where it does not, or an input is refused; 2
where the words are refused. Warnings do not change it."""


def parser():
    words = Parser("plan", "[OPTIONS] KERNEL [INITRD]", TEXT, EPILOG)
    planning.options(words)
    words.option("keep", "keep the map, the pool, the memory and what the load wrote in this folder", "FOLDER")
    reports.option_json(words)
    return words


class Crash:
    """The area of a crash kernel, and what it needs of one."""

    def __init__(self, plan):
        size = linked_bytes(plan.given.purgatory) if plan.given.purgatory else 0
        self.needs = Needs(plan.kernel, plan.initrd, plan.machine.rows, plan.notes(), plan.given.command, size)
        self.is_tried = False
        if plan.given.crash:
            plan.machine.with_crash(size_of(plan.given.crash, "--crash"))
        elif maps.crash_area(plan.machine.rows) is None:
            self.is_tried = True
            plan.machine.with_crash(self.needs.advised()[1])
        first, end = maps.crash_area(plan.machine.rows)
        self.start, self.end = first * PAGE, end * PAGE
        self.to_load, self.to_run = self.needs.advised(self.start)
        self.is_enough = self.end - self.start >= self.needs.to_run(self.start)


def hole(runs, low, high):
    """The largest of some runs of pages between two addresses: (start, end) in bytes, or None."""
    found = [(max(first, low // PAGE), min(end, high // PAGE)) for first, end in runs]
    first, end = max(found, key=lambda run: run[1] - run[0], default=(0, 0))
    return (first * PAGE, end * PAGE) if first < end else None


def holes_of(plan):
    """The largest holes, by what they are."""
    free = maps.free_runs(plan.machine.rows)
    if plan.is_crash:
        area = maps.crash_area(plan.machine.rows)
        return [("the crash area", (area[0] * PAGE, area[1] * PAGE) if area else None)]
    return [("the largest hole from 1 MiB to 4 GiB", hole(free, 1 << 20, 1 << 32)),
            ("the largest hole above 4 GiB", hole(free, 1 << 32, END))]


def half_of_ram(plan):
    """The bytes that the parts want together, and half of the RAM, which is the most that a load takes."""
    ram = sum(end - first for first, end in maps.free_runs(plan.machine.rows))
    return sum(size for _, size, *_ in wanted_of(plan)), ram * PAGE // 2


def wanted_of(plan):
    """What the parts want: (name, bytes, the multiple at which it may begin, whether below 4 GiB)."""
    size, alignment = plan.kernel.memory()
    yield "kernel", size, alignment, not plan.kernel.may_lie_above_4_gib()
    if plan.initrd:
        yield "initrd", plan.initrd.bytes, PAGE, not plan.kernel.may_lie_above_4_gib()


def part_lines(plan):
    """Where the parts lie, as people read it."""
    names = plan.record.names()
    for segment, name in zip(plan.record.segments, names):
        size = size_text(len(segment.data))
        memory = f" in {size_text(segment.memsz)}" * (segment.memsz - len(segment.data) >= PAGE)
        yield (f"{name or 'segment':15}  {size}{memory} at {segment.mem:#x} (to {segment.mem + segment.memsz - 1:#x})")
    yield f"{'entry':15}  {plan.record.entry:#x}, rsi {plan.record.rsi:#x}"


def pool_of(plan):
    """The pages of the pool that a load takes."""
    segments = plan.record.pages()
    links = -(-(segments + len(plan.record.segments)) // 511)
    whole = sum(last - first + 1 for first, last in plan.pool)
    return {"pages": whole, "used": segments + links + 1, "segments": segments, "links": links}


def pool_lines(plan):
    pool = pool_of(plan)
    yield (f"{'pool':15}  {pool['used']} of {counted(pool['pages'], 'page')} used: {pool['segments']} for the parts, "
           f"{counted(pool['links'], 'link page')}, the control page")
    if not plan.wrong_pool():
        yield f"{'':15}  each page of it is free RAM of the map"


def crash_lines(plan, crash):
    used = f", {size_text(plan.record.pages() * PAGE)} of it used" if plan.record else ""
    area = f"{size_text(crash.end - crash.start)} at {crash.start:#x}{used}"
    yield f"{'crash area':15}  {area}" + "; the map has none, this one was tried" * crash.is_tried
    yield f"{'to load':15}  crashkernel={option_size(crash.to_load)} or more"
    guess = " (a guess)" * bool(plan.initrd and plan.initrd.is_guess)
    initrd = f", {size_text(crash.needs.unpacked)} for the unpacked initrd{guess}" * bool(plan.initrd)
    yield f"{'to run':15}  crashkernel={option_size(crash.to_run)} or more, as a rule of thumb:"
    yield (f"{'':15}  {size_text(crash.needs.to_load(crash.start))} for the parts{initrd}, "
           f"{size_text(crash.needs.room)} to work in, and 1/64 of that")
    if plan.record and not crash.is_enough:
        yield f"{'':15}  the area is smaller: the kernel loads, and may run out of memory when it starts"


def refusal_lines(plan):
    """What a refusal lacks: the sizes, and the holes that there are."""
    yield f"it does not load: {plan.refusal}"
    for name, size, alignment, is_low in wanted_of(plan):
        yield (f"  the {name} wants {size_text(size)} in one piece" + f" at a multiple of {alignment:#x}" * (alignment > PAGE)
               + " below 4 GiB" * is_low)
    together, half = half_of_ram(plan)
    if together > half and not plan.is_crash:
        yield f"  together they want {size_text(together)}, and a load takes at most half of the RAM: {size_text(half)}"
    for name, found in holes_of(plan):
        yield f"  {name}: " + (f"{size_text(found[1] - found[0])} at {found[0]:#x}" if found else "none")


def lines_of(plan, crash):
    yield f"{'machine':15}  {plan.machine.source}"
    if plan.record:
        yield from part_lines(plan)
        if plan.pool is not None:
            yield from pool_lines(plan)
    else:
        yield from refusal_lines(plan)
    if crash:
        yield from crash_lines(plan, crash)
    for warning in plan.warnings():
        yield f"warning: {warning}"
    if plan.record and plan.command:
        yield f"{'command line':15}  --command {shlex.quote(plan.command)}"


def crash_object(plan, crash):
    needs = crash.needs
    return {"start": crash.start, "end": crash.end, "is_tried": crash.is_tried, "is_enough": crash.is_enough,
            "used": plan.record.pages() * PAGE if plan.record else None,
            "parts": [{"name": name, "bytes": size} for name, size in needs.parts], "unpacked_initrd": needs.unpacked,
            "room": needs.room, "step": STEP, "to_load": crash.to_load, "to_run": crash.to_run}


def object_of(plan, crash):
    parts = plan.record and [
        {"name": name or None, "start": segment.mem, "end": segment.mem + segment.memsz, "bytes": len(segment.data)}
        for segment, name in zip(plan.record.segments, plan.record.names())]
    refusal = plan.refusal and {
        "status": plan.status, "sentence": plan.refusal,
        "wanted": [{"name": name, "bytes": size, "alignment": alignment, "is_below_4_gib": is_low}
                   for name, size, alignment, is_low in wanted_of(plan)],
        "holes": [{"name": name, "start": found and found[0], "end": found and found[1]} for name, found in holes_of(plan)]}
    return {"loads": plan.record is not None, "machine": plan.machine.source, "parts": parts,
            "entry": plan.record and plan.record.entry, "rsi": plan.record and plan.record.rsi,
            "pool": pool_of(plan) if plan.record and plan.pool is not None else None,
            "crash": crash_object(plan, crash) if crash else None, "refusal": refusal,
            "warnings": list(plan.warnings()), "command": plan.command if plan.record else None}


def made_by(given, folder):
    """The plan, and its crash area where it has one."""
    plan = planning.Plan(given, planning.Machine(given), folder)
    crash = Crash(plan) if plan.is_crash else None
    plan.load()
    return plan, crash


def main(arguments):
    words = parser()
    given = words.parse_args(planning.marked(arguments))
    planning.check_options(words, given)
    program.ready()
    with planning.temporary_folder() as folder:
        plan, crash = made_by(given, folder)
        if given.keep:
            plan.keep(given.keep)
        reports.show(given, "plan", object_of(plan, crash), lines_of(plan, crash))
        return 0 if plan.record else 1
