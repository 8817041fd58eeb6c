"""A line on standard error that tells how far long work is, where that is a terminal."""
import sys
import time

EVERY = 0.1  # seconds between two looks of the line


class Progress:
    """Tells of one work after another on the same line; silent where standard error is no terminal."""

    def __init__(self, stream=None):
        self.stream = stream or sys.stderr
        self.is_shown = self.stream.isatty()
        self.last = 0.0

    def tell(self, words):
        """Shows these words, unless others were shown a moment ago."""
        now = time.monotonic()
        if self.is_shown and now - self.last >= EVERY:
            self.stream.write(f"\r\x1b[K{words}")
            self.stream.flush()
            self.last = now

    def end(self):
        """Clears the line."""
        if self.is_shown and self.last:
            self.stream.write("\r\x1b[K")
            self.stream.flush()
            self.last = 0.0
