"""Shows the progress of long work: on a terminal in one line that is rewritten each second, elsewhere in a line when a
part begins and one when it ends."""
import os
import shutil
import sys
import threading
import time

import crates

TABLE = os.path.join(os.path.dirname(os.path.realpath(__file__)), "durations.txt")


def durations(file=TABLE):
    """Returns the seconds that each part took on the table's machine."""
    try:
        with open(file, encoding="utf-8") as lines:
            rows = [line.partition("#")[0].strip().rpartition(" ") for line in lines]
    except OSError:
        return {}
    return {name: float(seconds) for name, _, seconds in rows if name}


def write_durations(file, heading, seconds):
    """Writes a table that durations() reads."""
    with open(file, "w", encoding="utf-8") as it:
        it.write(f"# {heading}\n")
        it.writelines(f"{name} {took:.0f}\n" for name, took in seconds.items())


def words_of(seconds):
    """Returns a number and its unit."""
    return (f"{seconds / 60:.0f}", "min") if seconds >= 60 else (f"{seconds:.0f}", "s")


def listed(names):
    return " and ".join(filter(None, [", ".join(names[:-1]), *names[-1:]]))


class Progress:
    """How far a work of several parts is. Each part has begin() and end(); the work is a `with` block."""

    def __init__(self, after, at_once, done=(), stored=None, doing="proving", kind="crates", prefix="", out=None):
        """after: for each part those that it waits for; done: the parts that are done already; stored: the seconds
        of a part as durations() has them; doing and kind: the words of the line."""
        self.after, self.at_once, self.done = after, at_once, {it: None for it in done}
        self.stored = durations() if stored is None else stored
        self.doing, self.kind, self.prefix = doing, kind, prefix
        self.out = out or sys.stderr
        self.running, self.took, self.began = {}, {}, time.monotonic()
        self.lock, self.ended = threading.RLock(), threading.Event()
        self.is_terminal = self.out.isatty()
        self.writer = threading.Thread(target=self.rewrite, daemon=True)

    def __enter__(self):
        if self.is_terminal:
            self.writer.start()
        return self

    def __exit__(self, *_):
        self.ended.set()
        if self.is_terminal:
            self.writer.join()
            self.write("\r\033[K")

    def begin(self, name):
        with self.lock:
            self.running[name] = time.monotonic()
            self.tell(f"{self.doing} {name}, {self.count()}")

    def end(self, name, how="is done", is_done=True):
        """The words say how the part ended, as 'is proved', and is_done whether that was well."""
        with self.lock:
            took = time.monotonic() - self.running.pop(name)
            if is_done:
                self.took[name], self.done[name] = took, None
            self.tell(f"{name} {how}, {took:.0f} s, {self.count()}")

    def count(self):
        return f"{len(self.done)} of {len(self.after)} {self.kind}"

    def tell(self, line):
        """Writes a line that stays, unless one line is rewritten."""
        if not self.is_terminal:
            self.write(f"{self.prefix}{line}\n")

    def write(self, text):
        try:
            self.out.write(text)
            self.out.flush()
        except OSError:
            # (a reader that has gone stops no work)
            pass

    def rewrite(self):
        while not self.ended.wait(1):
            width = shutil.get_terminal_size().columns - 1
            self.write(f"\r{self.line()[:width]}\033[K")

    def line(self):
        with self.lock:
            so_far, unit = words_of(time.monotonic() - self.began)
            words = [f"{self.doing} {listed([*self.running])}"] if self.running else []
            words += [self.count()] if len(self.after) > 1 else []
            words.append(f"{so_far} {unit} so far")
            left = self.seconds_left()
        if left is not None:
            to_go, its_unit = words_of(left)
            words.append(f"about {to_go} to go" if its_unit == unit else f"about {to_go} {its_unit} to go")
        return ", ".join(words)

    def scale(self):
        """Returns how much longer a part takes here than in the table, by the parts that were seen."""
        now = time.monotonic()
        seen = [(self.took[it], self.stored[it]) for it in self.took]
        # A running part counts once it has taken longer than it did there.
        seen += [(now - began, self.stored[it]) for it, began in self.running.items()
                 if now - began > self.stored[it]]
        there = sum(it for _, it in seen)
        return sum(it for it, _ in seen) / there if there else 1

    def seconds_left(self):
        """Returns the seconds that the rest probably takes, or None if the table lacks a part of it."""
        left = [it for it in self.after if it not in self.done]
        if not left or not all(it in self.stored for it in [*left, *self.took]):
            return None
        scale, now = self.scale(), time.monotonic()
        lasts = {it: self.stored[it] * scale for it in left}
        ends = {it: max(lasts[it] - (now - began), 0) for it, began in self.running.items()}
        tasks = {it: crates.Task([on for on in self.after[it] if on in lasts], lasts[it], None) for it in left}
        return last_end(tasks, ends, self.at_once)


def last_end(tasks, ends, at_once):
    """Returns when the last task ends, if those of `ends` are running and end then, and the others are begun as by
    crates.side_by_side."""
    length, ended, moment = crates.behind(tasks), set(), 0
    left = sorted((it for it in tasks if it not in ends), key=lambda it: -length[it])
    ends = dict(ends)
    while left or ends:
        for it in [it for it in left if ended.issuperset(tasks[it].after)][:max(at_once - len(ends), 0)]:
            left.remove(it)
            ends[it] = moment + tasks[it].seconds
        if not ends:
            break
        first = min(ends, key=ends.get)
        moment = max(moment, ends.pop(first))
        ended.add(first)
    return moment
