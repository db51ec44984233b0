"""The proved program: where it is, what it is called, and running it."""
import os
import subprocess
import sys

from companion.refusals import NothingTried, Wrong

HERE = os.path.dirname(os.path.realpath(__file__))
# Where the package lies: scripts/ of the source tree, or share/kernelyet/ of where it is installed.
PLACE = os.path.dirname(HERE)
IS_INSTALLED = os.path.basename(PLACE) == "kernelyet"
TOP = os.path.dirname(os.path.dirname(PLACE)) if IS_INSTALLED else os.path.dirname(PLACE)
# Where the documents are.
DOCUMENTS = f"{TOP}/share/doc/kernelyet" if IS_INSTALLED else "docs"
# The launcher of the source tree.
LAUNCHER = f"{TOP}/kexec"
# The program, by a name that holds in every folder; tests name the one that the gate built.
KEXEC = os.path.abspath(os.environ.get("KEXEC") or (f"{TOP}/libexec/kernelyet/kexec" if IS_INSTALLED else LAUNCHER))
# The status of the launcher where the program is not built.
NOT_BUILT = 70
# The C library asks for huge pages behind large buffers; what the caller has set comes later, and counts.
TUNABLES = ":".join(["glibc.malloc.hugetlb=1", *filter(None, [os.environ.get("GLIBC_TUNABLES")])])


def environment():
    """What the program runs in: the launcher does not build it, which takes long, and nobody asked for it here."""
    return {**os.environ, "GLIBC_TUNABLES": TUNABLES, "KEXEC_BUILD": "no"}


def cannot_run(path, error):
    """Why the program cannot be run, in a sentence."""
    return f"{path} cannot be run: {error.strerror}"


def become(words, name):
    """Becomes the program, called by this name, with these words: streams, folder and status are its own. It says the name
    where it refuses, and in its help."""
    try:
        os.execve(KEXEC, [name, *words], environment())
    except OSError as error:
        print(f"{name}: {cannot_run(KEXEC, error)}", file=sys.stderr)
        return 70


def run(words, folder=None, given=None, path=None):
    """Runs the program, KEXEC where none is named: its status, what it printed, and what it said on standard
    error. Refused where it cannot be run, or the launcher would have to build it first."""
    try:
        ended = subprocess.run([path or KEXEC, *words], cwd=folder, input=given or "", capture_output=True, text=True,
                               env=environment(), errors="replace")
    except OSError as error:
        raise NothingTried(cannot_run(path or KEXEC, error)) from None
    if ended.returncode == NOT_BUILT:
        raise NothingTried(sentence(ended.stderr))
    return ended.returncode, ended.stdout, ended.stderr


def sentence(said):
    """The sentence of a refusal, without the name of the program in front of it."""
    lines = said.strip().splitlines() or ["it said nothing"]
    return lines[-1].partition(": ")[2] or lines[-1]


def ready(path=None):
    """Refuses a program that does not run: without words the program itself refuses, with status 2."""
    status = run([], path=path)[0]
    if status != 2:
        raise NothingTried(f"{path or KEXEC} does not run: it ended with status {status}")


def tool(words, folder):
    """Runs a tool, which must end well, and answers what it printed."""
    try:
        ended = subprocess.run(words, cwd=folder, stdin=subprocess.DEVNULL, capture_output=True, text=True)
    except OSError:
        raise NothingTried(f"there is no {words[0]}: gcc and binutils are needed") from None
    if ended.returncode:
        lines = ended.stderr.strip().splitlines() or ["it said nothing"]
        told = next((line for line in lines if "error" in line or "fail" in line), lines[0])
        raise Wrong(f"'{' '.join(words)}' ended with status {ended.returncode}: {told}")
    return ended.stdout
