"""Runs the toolchain's own gate, `rt ci`, and shows its output. For a crate that is proved, it shows only rt's lines."""
import os
import re
import subprocess
import threading

import crates
import usage

ENDED = re.compile(r"rt: (\w+)(: its tests are)? (?:is )?(proved|NOT PROVED|kept)\b")
FAILED = re.compile(r"rt: .*(NOT PROVED|FAILED)")
CLOSING = re.compile(r"(\d+) passed, (\d+) failed")


def part_of(crate, is_tests):
    return f"the tests of {crate}" if is_tests else crate


class Gate:
    """One run of `rt ci`: its counts, and how much time of the processors it took."""

    def __init__(self, kit, folder, log, usage_of, counts, parts):
        """folder: the repository; log: the file that gets all lines; usage_of: measures processor time; counts: what passed
        and failed; parts: the names of each crate and of the tests of each."""
        self.kit, self.folder, self.log, self.usage, self.counts, self.parts = kit, folder, log, usage_of, counts, parts
        self.block, self.closing, self.proved, self.seconds, self.lock = None, None, 0, 0, threading.Lock()
        self.failures = []

    def run(self, clock, shown):
        """Runs it in the time that the clock leaves, and shows its progress. Returns whether all passed."""
        self.shown, self.usage.begun = shown, self.begun
        status = self.follow(clock)
        if self.closing is None:
            self.counts.passes(self.proved)
            self.counts.fails(self.why_unfinished(status, clock))
            return False
        passed, failed = map(int, self.closing)
        self.counts.passes(passed)
        self.counts.adds_failures(max(failed, 1) if status else failed, self.failures)
        if self.counts.failed:
            return False
        # (of tests that passed in an earlier run, rt says nothing)
        for it in [it for it in self.parts if it not in shown.done]:
            self.end(it, "are kept")
        return True

    def why_unfinished(self, status, clock):
        if clock.is_up():
            return (f"the {clock.minutes:g} minutes were up when {self.proved} of {len(self.parts)} proofs and tests of crates "
                    "were done: run this again, which takes over what is proved, or give it more time")
        return f"rt ci ended with the status {status} and without its closing line: see {self.log}"

    def follow(self, clock):
        words = [f"{self.kit}/bin/rt", "ci"]
        # With RT_JOBS each check has one job: each further one would load the libraries again.
        room = {**os.environ, "RT_JOBS": str(crates.lanes())}
        with open(self.log, "w", encoding="utf-8") as log, subprocess.Popen(
            words, cwd=self.folder, env=room, stdin=subprocess.DEVNULL, stdout=subprocess.PIPE,
            stderr=subprocess.STDOUT, universal_newlines=True, errors="replace",
        ) as ran:
            cancel = clock.when_up(ran.terminate)
            try:
                for line in ran.stdout:
                    log.write(line)
                    log.flush()
                    self.take(line.rstrip("\n"))
            except BaseException:
                ran.terminate()
                raise
            self.seconds = usage.waited(ran)
            cancel()
        return ran.returncode

    def begun(self, work):
        crate, kind = work
        part = part_of(crate, kind == "tests")
        with self.lock:
            if part in self.parts and part not in self.shown.done and part not in self.shown.running:
                self.shown.begin(part)

    def take(self, line):
        """Shows the line now, or holds it back until its crate has ended, or keeps it as the closing line."""
        closing, ended = CLOSING.fullmatch(line), ENDED.match(line)
        if FAILED.match(line):
            self.failures.append(line)
        if closing:
            self.closing = closing.groups()
        elif line.startswith("== "):
            self.block = [line]
        elif self.block is None:
            self.show(line)
        else:
            self.block.append(line)
        if ended:
            for it in self.block or []:
                if ended[3] == "NOT PROVED" or it.startswith("rt: "):
                    self.show(it)
            self.block, self.proved = None, self.proved + (ended[3] != "NOT PROVED")
            self.end(part_of(ended[1], bool(ended[2])), f"{'are' if ended[2] else 'is'} {ended[3]}")

    def end(self, part, how):
        with self.lock:
            if part in self.parts:
                if part not in self.shown.running:
                    self.shown.begin(part)
                self.shown.end(part, how)

    def show(self, line):
        if self.shown.is_terminal:
            self.shown.write("\r\033[K")
        self.counts.say(line)
