"""How a script refuses: one sentence on standard error, and the status."""
import errno
import os
import re
import select
import shutil
import signal
import stat
import subprocess
import sys
import tempfile

# The faults of a device that takes no more.
FULL = (errno.ENOSPC, errno.EDQUOT, errno.EFBIG, errno.EIO)


class Wrong(Exception):
    """An input that is refused: the one sentence that is said."""

    status = 1


class WrongWords(Wrong):
    """Words of the command line that are refused."""

    status = 2


class NothingTried(Wrong):
    """Tools or files that are not there, without which nothing can be tried."""

    status = 2


def _end_by_signals():
    """Lets a signal end the script as an exit does, so that its temporary folders go."""
    signals = (signal.SIGTERM, signal.SIGHUP, signal.SIGINT)

    def end(number, _):
        # a second one is not to stop the clearing away
        for other in signals:
            signal.signal(other, signal.SIG_IGN)
        sys.exit(128 + number)

    for number in signals:
        signal.signal(number, end)


def _unnamed():
    """What found no room, where the fault names no file: standard output, where that is a file or a device; a terminal, a pipe
    or a socket is never full."""
    mode = os.fstat(1).st_mode
    can_be_full = stat.S_ISREG(mode) or (stat.S_ISCHR(mode) and not os.isatty(1))
    return "standard output" if can_be_full else f"a file, perhaps in {tempfile.gettempdir()}"


def _sentence_of_fault(error):
    """The sentence of a fault of the system: the file, and what is with it. Of a copy that finds no room, the second file is
    the one that is written; of a folder that was copied, the first file is told that was not."""
    if isinstance(error, shutil.Error):
        _, path, why = error.args[0][0]
        return f"{path}: " + re.sub(r"^\[Errno \d+\] |: '.*", "", why)
    if error.errno in FULL:
        return f"{error.filename2 or error.filename or _unnamed()}: {error.strerror}"
    return f"{error.filename}: {error.strerror}" if error.filename else str(error)


def _has_lost_its_reader():
    """Whether standard output is a pipe that nobody reads any more."""
    output = select.poll()
    output.register(1, 0)
    return any(events & select.POLLERR for _, events in output.poll(0))


def _leave_output():
    """Lets nothing more be written to standard output."""
    os.dup2(os.open(os.devnull, os.O_WRONLY), 1)


def call(main, name=None):
    """Runs a script's main and ends with its status.

    A wrong input, a file that cannot be read or written, or a tool that fails is one sentence behind the script's name, and
    status 1. A reader of its output that went away ends it as well.
    """
    name = name or os.path.basename(sys.argv[0])
    _end_by_signals()
    try:
        if sys.stdout is None:
            raise Wrong("standard output is closed")
        # a file's name that is not text of this locale is printed as the bytes that it has
        sys.stdout.reconfigure(errors="surrogateescape")
        status = main()
        sys.stdout.flush()
    except Wrong as wrong:
        print(f"{name}: {wrong}", file=sys.stderr)
        status = wrong.status
    except OSError as error:
        is_unread = isinstance(error, BrokenPipeError) and _has_lost_its_reader()
        if not is_unread:
            print(f"{name}: {_sentence_of_fault(error)}", file=sys.stderr)
        if is_unread or (error.errno in FULL and not error.filename):
            _leave_output()
        status = 0 if is_unread else 1
    except subprocess.CalledProcessError as error:
        print(f"{name}: '{' '.join(map(str, error.cmd))}' ended with status {error.returncode}", file=sys.stderr)
        status = 1
    sys.exit(status)
