"""How far a long piece of work is, in a line on a terminal."""
import sys
import time

INTERVAL = 0.1


class Line:
    """A line on standard error that is written over itself, some times a second."""

    def __init__(self, what):
        self.what, self.next, self.written = what, 0.0, False

    def __call__(self, done, total):
        now = time.monotonic()
        if now >= self.next or done == total:
            self.next, self.written = now + INTERVAL, True
            sys.stderr.write(f"\r{self.what}: {done:,} of {total:,} runs, {100 * done // max(total, 1)}%")
            sys.stderr.flush()

    def end(self):
        """Ends the line, if there is one."""
        if self.written:
            sys.stderr.write("\n")
            sys.stderr.flush()


def reporter(progress, what):
    """What is called with how many are done and of how many, and what is called at the end.

    `progress` is None for a line if standard error is a terminal, True for a line, False for nothing, or a function.
    """
    if callable(progress):
        return progress, lambda: None
    if progress is None:
        progress = sys.stderr is not None and sys.stderr.isatty()
    line = Line(what)
    return (line, line.end) if progress else (lambda done, total: None, lambda: None)
