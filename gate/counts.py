"""The counts of a verification, what failed, and its time."""
import threading
import time

# How many lines of what a failed part printed are repeated at the end, and how many characters of a line.
LAST_LINES = 12
LINE_LIMIT = 400


class Counts:
    """What passed, failed and was skipped. Lines and counts come from many threads."""

    def __init__(self):
        self.passed = self.failed = self.skipped = 0
        self.failures = []
        self.lock = threading.Lock()

    def say(self, line):
        with self.lock:
            print(line, flush=True)

    def passes(self, count=1):
        with self.lock:
            self.passed += count

    def adds_failures(self, count, lines=()):
        """The lines are repeated at the end."""
        with self.lock:
            self.failed += count
            self.failures += lines

    def fails(self, line, printed=""):
        """printed: what the part that failed has printed."""
        line = f"test: FAILED: {line}"
        self.say(line)
        last = printed.splitlines()[-LAST_LINES:]
        self.adds_failures(1, [line, *(f"    {it}" for it in last)])

    def skips(self, line, count=1):
        with self.lock:
            self.skipped += count
        self.say(f"test: SKIPPED: {line}")

    def closing(self):
        """Returns the lines at the end: what failed, and the counts."""
        failures = [it[:LINE_LIMIT] for it in self.failures]
        skipped = f", {self.skipped} skipped" if self.skipped else ""
        return "\n".join([*failures, f"{self.passed} passed, {self.failed} failed{skipped}"])


class Clock:
    """The minutes that a verification may take; None if it has no limit."""

    def __init__(self, minutes=None):
        self.minutes = minutes
        self.ends = None if minutes is None else time.monotonic() + 60 * minutes

    def left(self):
        """Returns the seconds that are left, or None."""
        return None if self.ends is None else max(self.ends - time.monotonic(), 0)

    def is_up(self):
        return self.left() == 0

    def when_up(self, work):
        """Does the work when the time is up. Returns a function that cancels this."""
        if self.ends is None:
            return lambda: None
        timer = threading.Timer(self.left(), work)
        timer.daemon = True
        timer.start()
        return timer.cancel
