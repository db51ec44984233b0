"""Many runs of the experiment, one for each line of a file, and their table."""
import os
import shlex
import subprocess
import sys
from concurrent.futures import ThreadPoolExecutor

from companion.numbers import counted
from companion.refusals import Wrong

HEAD = ("Linux", "Loaded by", "RAM", "KASLR", "Levels", "Segments, bytes", "Runs lists by", "Words", "Differed before",
        "Compared", "Differ", "All of RAM: compared, differ")


def lines_of(path):
    """The runs of a file: the words of each line; what follows # is a remark."""
    with open(path, encoding="utf-8") as file:
        rows = [shlex.split(line, comments=True) for line in file]
    found = [words for words in rows if words]
    if not found:
        raise Wrong(f"{path} has no run: a line has the options of one, as --way load --kernel vmlinuz")
    return found


def run(words):
    """One run, by this command itself: its status, and what it said."""
    command = [sys.executable, os.path.realpath(sys.argv[0]), "guest", "--loaded", *words]
    ended = subprocess.run(command, stdin=subprocess.DEVNULL, stdout=subprocess.PIPE, stderr=subprocess.STDOUT, text=True,
                           errors="replace")
    return ended.returncode, ended.stdout


def tell(path, common, together):
    """Makes the runs, with some words that are common to all and so many at once, and prints what each said and the table;
    whether all were as they must be."""
    runs, rows, failed = [common + words for words in lines_of(path)], [], 0
    with ThreadPoolExecutor(together) as pool:
        for words, (status, said) in zip(runs, pool.map(run, runs)):
            print(f"$ kernelyet guest --loaded {shlex.join(words)}\n{said}status {status}\n", flush=True)
            rows += [line for line in said.splitlines() if line.startswith("| ")]
            failed += status != 0
    print(f"| {' | '.join(HEAD)} |\n|{'---|' * len(HEAD)}")
    for row in rows:
        print(row)
    cells = [row.strip("| ").split(" | ") for row in rows]
    compared, differ = (sum(int(row[HEAD.index(name)]) for row in cells) for name in ("Compared", "Differ"))
    print(f"{counted(len(runs), 'run')}, {failed} not as they must be; {counted(compared, 'destination page')} compared, "
          f"{differ} differ")
    return failed == 0
