"""What is being done, on standard error, where that is a terminal and it takes more than a second."""
import os
import sys
import threading
import time

from companion.numbers import size_text


class Progress:
    """Shows a line while the block of a `with` runs, and clears it behind. `watch` gives the text behind the name, such as
    how far it is; without it the seconds are counted."""

    def __init__(self, what, watch=None, after=1.0):
        self.what, self.watch, self.after = what, watch, after
        self.is_over, self.thread = threading.Event(), None
        self.is_shown = sys.stderr is not None and sys.stderr.isatty()

    def __enter__(self):
        if self.is_shown:
            self.thread = threading.Thread(target=self._show, daemon=True)
            self.thread.start()
        return self

    def __exit__(self, *_):
        self.is_over.set()
        if self.thread:
            self.thread.join()

    def _show(self):
        wait, seconds = self.after, 0.0
        while not self.is_over.wait(wait):
            seconds += wait
            wait = 0.2
            told = self.watch() if self.watch else f"{seconds:.0f} s"
            print(f"\r\033[K{self.what}: {told}", end="", file=sys.stderr, flush=True)
        if seconds:
            print("\r\033[K", end="", file=sys.stderr, flush=True)


class Silence:
    """Tells on standard error, where that is a terminal, for how many seconds nothing was said by what is waited for. The line
    is cleared away before the next words are printed."""

    def __init__(self):
        self.last, self.is_shown, self.lock = time.monotonic(), False, threading.Lock()
        self.is_told = sys.stderr is not None and sys.stderr.isatty()

    def tell(self, said):
        """Tells it, after a second of silence; what was said before is not written over."""
        seconds = time.monotonic() - self.last
        with self.lock:
            if self.is_told and seconds >= 1:
                line_end = "" if self.is_shown or not said or said.endswith(b"\n") else "\n"
                print(f"{line_end}\r\033[Knothing was said for {seconds:.0f} s", end="", file=sys.stderr, flush=True)
                self.is_shown = True

    def end(self):
        """Something is said, or nothing more is waited for."""
        with self.lock:
            if self.is_shown:
                print("\r\033[K", end="", file=sys.stderr, flush=True)
            self.last, self.is_shown = time.monotonic(), False


def growth(paths, whole=0):
    """A watch over the sizes of files that are written, of so many bytes together, where that is known."""

    def told():
        done = sum(os.path.getsize(path) for path in paths if os.path.exists(path))
        return bar(done, whole) if whole else f"{size_text(done)} written"

    return told


def bar(done, whole):
    """How far it is: a bar and a share."""
    share = min(1.0, done / whole) if whole else 1.0
    return f"[{'#' * int(30 * share):30}] {100 * share:.0f} %"
