"""How far a work has come, on standard error, once it takes longer than two seconds.

At a terminal it is one line, drawn again five times a second, and taken away at the end: a bar, if it is known what is
left, how much is done, and the time. Elsewhere it is a line a minute.
"""

import io
import os
import sys
import threading
import time
from contextlib import contextmanager, nullcontext, suppress
from pathlib import Path

BAR = 16


class Progress:
    """How far a work has come. A thread shows it, so that the time goes on while the work tells nothing."""

    SILENT, EVERY, MINUTE = 2.0, 0.2, 60.0
    # Works of which one follows on another within this time, or is part of it, are silent together.
    PAUSE = 1.0
    whole_began, last_ended = 0.0, -PAUSE
    # Those that are at work, an inner one behind the one that it is part of: the last one alone is shown. Who looks
    # which one that is, and draws, holds the lock.
    at_work = []
    lock = threading.Lock()

    def __init__(self, what, total=None, stream=None, at_terminals_alone=False):
        # A tool may be started with no standard error.
        self.what, self.total, self.stream = what, total, stream or sys.stderr or io.StringIO()
        self.done, self.part, self.note = None, None, ""
        self.began, self.is_drawn = time.monotonic(), False
        self.is_terminal = self.stream.isatty()
        self.is_silent = at_terminals_alone and not self.is_terminal
        self.ended = threading.Event()
        self.thread = threading.Thread(target=self.show_all, daemon=True)

    def __enter__(self):
        if not self.at_work and self.began - Progress.last_ended > self.PAUSE:
            Progress.whole_began = self.began
        self.at_work.append(self)
        if not self.is_silent:
            self.thread.start()
        return self

    def __exit__(self, *_):
        self.ended.set()
        if not self.is_silent:
            self.thread.join()
        self.at_work.remove(self)
        Progress.last_ended = time.monotonic()
        with self.lock:
            self.clear()

    def tell(self, done, part=None):
        """Says how much is done, and which part of the whole that is if there is no total."""
        self.done, self.part = done, part

    def over(self, items):
        """Yields some items one after another, and says how many are done."""
        for done, item in enumerate(items, 1):
            yield item
            self.done = done

    @contextmanager
    def aside(self):
        """Takes the line off the terminal while something else is written."""
        with self.lock:
            self.clear()
            yield

    def show_all(self):
        if not self.is_terminal:
            self.show_each_minute()
            return
        wait = max(self.SILENT - (time.monotonic() - Progress.whole_began), self.EVERY)
        while not self.ended.wait(wait):
            wait = self.EVERY
            with self.lock:
                if self.at_work[-1] is self:
                    self.show(f"\r{f'{self.bar()}{self.text()}'[:self.width() - 1]}\x1b[K")
                    self.is_drawn = True

    def show_each_minute(self):
        """Writes a line at each whole minute of this work and those before it that it follows on."""
        began = Progress.whole_began
        minute = int((time.monotonic() - began) // self.MINUTE) + 1
        while not self.ended.wait(max(began + minute * self.MINUTE - time.monotonic(), 0)):
            minute += 1
            with self.lock:
                if self.at_work[-1] is self:
                    self.show(f"{Path(sys.argv[0]).name}: {self.text()}\n")

    def show(self, text):
        # Nobody may be there to read it any more.
        with suppress(OSError, ValueError):
            self.stream.write(text)
            self.stream.flush()

    def clear(self):
        if self.is_drawn:
            self.show("\r\x1b[K")
            self.is_drawn = False

    def width(self):
        try:
            return os.get_terminal_size(self.stream.fileno()).columns or 80
        except OSError:
            return 80

    def bar(self):
        part = self.part
        if part is None and self.total and self.done is not None:
            part = self.done / self.total
        if part is None:
            return ""
        full = int(BAR * min(max(part, 0), 1))
        return f"[{'#' * full}{'-' * (BAR - full)}] "

    def text(self):
        """What is done, how long it took so far, and what there is to say besides."""
        seconds = int(time.monotonic() - self.began)
        took = f"{seconds // 60} min {seconds % 60} s" if seconds >= 60 else f"{seconds} s"
        of = f" of {self.total:,}" if self.total else ""
        count = f"{self.done:,}{of} " if self.done is not None else ""
        return f"{count}{self.what}, {took}" + (f"; {self.note}" if self.note else "")


def print_line(text):
    """Prints a line on standard output, which may be the terminal that shows how far the work has come."""
    with Progress.at_work[-1].aside() if Progress.at_work else nullcontext():
        print(text, flush=True)
