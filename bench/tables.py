"""Runs of the program and of what it is compared with, and the tables that tell of them."""
import contextlib
import os
import resource
import shutil
import subprocess
import sys
import time

TOP = os.path.dirname(os.path.dirname(os.path.realpath(__file__)))
sys.path.append(f"{TOP}/scripts")
import kexec_files

MIB = 1 << 20
RUNS = 5
# what ./kexec asks the C library for
HUGE_PAGES = ["env", "GLIBC_TUNABLES=glibc.malloc.hugetlb=1"]
# the program of KEXEC, or ./kexec, which builds nothing here
PROGRAM = [*HUGE_PAGES, "KEXEC_BUILD=no", kexec_files.KEXEC]
# what is touched before the runs of a command: more than a command and its outputs take
TOUCHED = 2 << 30


class Clock:
    """What is measured as the time: wall time, or on a machine that has other work the processor's, user and system."""

    is_processor = False


def one_run(words, folder):
    """Runs the words once: time in seconds, the part of it in the program itself, and peak resident memory in bytes."""
    with kexec_files.to_write(f"{folder}/said") as said:
        start = time.perf_counter()
        child = subprocess.Popen(words, cwd=folder, stdin=subprocess.DEVNULL, stdout=said, stderr=subprocess.STDOUT)
        _, status, used = os.wait4(child.pid, 0)
        took = time.perf_counter() - start
    child.returncode = os.WEXITSTATUS(status) if os.WIFEXITED(status) else -os.WTERMSIG(status)
    if child.returncode:
        with open(f"{folder}/said", encoding="utf-8", errors="replace") as said:
            sys.exit(f"bench: '{' '.join(words)}' ended with status {child.returncode}: {said.read(2000)}")
    if Clock.is_processor:
        took = used.ru_utime + used.ru_stime
    return took, used.ru_utime, used.ru_maxrss * 1024


def touch_memory():
    """Touches memory and gives it back, in a process of its own, whose memory is not counted as that of what is measured.
    The host of a virtual machine may have taken back what was free, and whoever touches it first would pay for that. On a
    machine that has other work little is free, and this would disturb the others."""
    if Clock.is_processor:
        return
    touch = f"import mmap\nmemory = mmap.mmap(-1, {TOUCHED})\nfor at in range(0, {TOUCHED}, 4096): memory[at] = 1"
    subprocess.run([sys.executable, "-c", touch], check=True)


def best(words, folder, outputs):
    """The best of some runs, none of which finds its outputs there: to empty an old file takes the system its own time."""
    touch_memory()
    runs = []
    for _ in range(RUNS):
        for file in outputs:
            with contextlib.suppress(FileNotFoundError):
                os.remove(f"{folder}/{file}")
        runs.append(one_run(words, folder))
    return min(run[0] for run in runs), min(run[1] for run in runs), max(run[2] for run in runs)


def build(folder, source, variable, compiler, *flags):
    """Builds a program to compare with, or answers None where its compiler, which the variable can name, is not there."""
    program = f"{folder}/{source.replace('.', '-')}-program"
    compiler = os.environ.get(variable, compiler)
    if not shutil.which(compiler):
        print(f"bench: there is no {compiler}, so nothing is measured beside {source}", file=sys.stderr)
        return None
    if subprocess.run([compiler, *flags, "-o", program, f"{TOP}/bench/{source}"]).returncode:
        sys.exit(f"bench: {source} was not built")
    return program


def copying_time(folder, inputs, outputs):
    """The same bytes read and written by dd: seconds, the best runs."""
    total = 0.0
    for file in inputs:
        total += best(["dd", f"if={file}", "of=/dev/null", "bs=64K", "status=none"], folder, [])[0]
    for file in outputs:
        total += best(["dd", f"if={file}", "of=copied", "bs=64K", "status=none"], folder, ["copied"])[0]
        os.remove(f"{folder}/copied")
    return total


def digest_time(folder, digested):
    """The digests by sha256sum: seconds, the best runs."""
    return sum(best(["sha256sum", file], folder, [])[0] for file in digested)


def remove(folder, *files):
    for file in files:
        os.remove(f"{folder}/{file}")


class Table:
    """The measured rows, printed as they come."""

    def __init__(self, folder):
        self.folder = folder
        self.bare = build(folder, "bare.c", "CC", "cc", "-O2")
        print(
            "| What | Time, s | Own, s | Yardstick, s | Time to yardstick | Own to yardstick | Bare, s | Time to bare | Growth "
            "| Peak, MiB | Held, MiB | Peak to held |"
        )
        print("|---|---|---|---|---|---|---|---|---|---|---|---|", flush=True)

    def knows(self, words):
        """Whether the program has this command and its options; what it lacks is said."""
        lacking = kexec_files.unknown(words)
        if lacking:
            print(f"bench: a row is left out, since the program has no {lacking}", file=sys.stderr)
        return not lacking

    def bare_time(self, kind, pages, head, inputs, out):
        """The time of bare.c over the same bytes, its buffers in huge pages as those of the program are; None without it."""
        if not self.bare:
            return None
        size = os.path.getsize(f"{self.folder}/{out}")
        words = [*HUGE_PAGES, self.bare, kind, "bare-out", str(size), str(pages), str(head), *inputs]
        took = best(words, self.folder, ["bare-out"])[0]
        os.remove(f"{self.folder}/bare-out")
        return took

    def bytes_of(self, held):
        return held if isinstance(held, int) else os.path.getsize(f"{self.folder}/{held}")

    def add_one_block(self, what, file):
        """Measures dd of a file in one block: it holds the whole file, as a program does that makes one of it."""
        block = ["dd", f"if={file}", "of=copied", f"bs={self.bytes_of(file)}", "count=1", "iflag=fullblock", "status=none"]
        took = best(block, self.folder, ["copied"])[0]
        os.remove(f"{self.folder}/copied")
        print(f"| {what} | {took:.3f} |" + " |" * 10, flush=True)

    def add(self, what, words, inputs, outputs, moments, digested=(), before=None, bare=None, program=PROGRAM):
        """Measures a command. Each moment is a list of what is held together: files, of which each byte of a memory, a kernel
        or a record stands once, and twice only where a file is made beside what it is made of; and as a number the bytes
        that stand in no file. `bare` has what bare_time takes."""
        took, own, peak = best([*program, *words], self.folder, outputs)
        digests = digest_time(self.folder, digested)
        beside = copying_time(self.folder, inputs, outputs) + digests
        held = max(sum(map(self.bytes_of, moment)) for moment in moments)
        beside_cells = f"{beside:.3f} | {took / beside:.1f} | {own / beside:.1f}" if beside else " |  | "
        growth = f"{took / before:.2f}" if before else ""
        of_held = f"{peak / held:.2f}" if held >= MIB else ""
        least_work = self.bare_time(*bare) if bare else None
        bare_cells = f"{least_work + digests:.3f} | {took / (least_work + digests):.2f}" if least_work else " | "
        # the system counts the pages of this script, which starts the process, as the process's own
        script = resource.getrusage(resource.RUSAGE_SELF).ru_maxrss * 1024
        most = f"{peak / MIB:.0f}" if peak > script else f"below {script / MIB:.0f}"
        print(
            f"| {what} | {took:.3f} | {own:.3f} | {beside_cells} | {bare_cells} | {growth} "
            f"| {most} | {held / MIB:.0f} | {of_held} |",
            flush=True,
        )
        return took


class Traces:
    """The measured rows of trace, each beside plain.rs, printed as they come."""

    def __init__(self, folder):
        self.folder = folder
        self.plain = build(folder, "plain.rs", "RUSTC", "rustc", "--edition", "2021", "-O")
        print("\n| Trace | Time, s | Plain, s | Time to plain | Each, ns | Plain each, ns | Each to plain |")
        print("|---|---|---|---|---|---|---|", flush=True)

    def measure(self, words, limit, more, count):
        """The time, and the nanoseconds that the processor spends in the program for each of so many steps or moves: what a
        run takes more than one of a single step."""
        took, own, _ = best([*words, str(limit), *more], self.folder, ["out"])
        single = best([*words, "1", *more], self.folder, ["out"])[1]
        return took, (own - single) / count * 1e9

    def add(self, what, memory, head, limit, count, swap=None):
        """Measures a run of `limit` steps over a memory file, in which there are so many of what is told of."""
        words = [memory, "out", head]
        took, each = self.measure([*PROGRAM, "trace", *(["--swap", swap] if swap else []), *words], limit, [], count)
        plain_cells, plain_each = "|", None
        if self.plain:
            plain, plain_each = self.measure([*HUGE_PAGES, self.plain, *words], limit, [swap] if swap else [], count)
            plain_cells = f"{plain:.3f} | {took / plain:.2f}"
        # a small run takes no time that the system tells
        told = [one if one and one > 0 else None for one in (each, plain_each)]
        ratio = f"{each / plain_each:.2f}" if all(told) else ""
        each_cells = " | ".join(f"{one:.1f}" if one else "" for one in told)
        print(f"| {what} | {took:.3f} | {plain_cells} | {each_cells} | {ratio} |", flush=True)
        remove(self.folder, "out")


class Drills:
    """The measured rows of drill, each beside plain_drill.rs, printed as they come."""

    def __init__(self, folder):
        self.folder = folder
        self.plain = build(folder, "plain_drill.rs", "RUSTC", "rustc", "--edition", "2021", "-O")
        print("\n| Drill | Time, s | Plain, s | Time to plain | Each, µs | Plain each, µs | Peak, MiB |")
        print("|---|---|---|---|---|---|---|", flush=True)

    def add(self, what, count):
        """Measures the events of a file, in which there are so many of what is told of."""
        files = ["memory", "pool", "out", "events"]
        took, _, peak = best([*PROGRAM, "drill", "--map", "map", *files], self.folder, ["out"])
        plain_cells, plain_each = "|", ""
        if self.plain:
            plain = best([*HUGE_PAGES, self.plain, *files], self.folder, ["out"])[0]
            plain_cells, plain_each = f"{plain:.3f} | {took / plain:.2f}", f"{plain / count * 1e6:.2f}"
        each_cells = f"{took / count * 1e6:.2f} | {plain_each}"
        print(f"| {what} | {took:.3f} | {plain_cells} | {each_cells} | {peak // MIB} |", flush=True)
        remove(self.folder, "out")
