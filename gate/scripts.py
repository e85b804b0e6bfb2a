"""The tests that run the programs and the libraries: the scripts of tests/, side by side. They prove nothing."""
import contextlib
import os
import re
import signal
import subprocess
import threading

import crates
import usage

# Each script, those first that take longest, and those after which it is run. The first of those that are over the
# libraries for C waits for these if they are built.
WITH_LIBRARIES = "c_interface"
TESTS = {
    "sweep_memory": (), "c_interface": (), "apexports_script": (), "wrong_hosts": ("c_interface",),
    "recorder": ("c_interface",), "orders": (),
    "gate": (), "judge_apart": (), "hostile_sizes": (), "sizes": (), "largest_configurations": (), "prebuilt": (),
    "python": ("c_interface",), "page": ("python",), "python_installed": ("page",), "package": ("python_installed",),
    "c_builds": ("package",), "serve": ("c_builds",), "runs": (), "judge": (), "judge_readings": (), "stream": (),
    "departures_of_one_lie": (), "run_cases": (),
    "examples": (), "dekarino": (), "mistakes": (), "drawings": (), "documents": ("serve",), "terminal": (),
    "refused_texts": (),
}
# Those that need the toolchain, or more minutes, and the words that they are run with.
WHOLE = {"edits": (), "sweep_memory": ("all",)}
# The status of a script that cannot run its tests here.
SKIPPED = 77
SAID_SKIPPED = re.compile(r"^(\w+: SKIPPED: .*)$", re.M)


class Scripts:
    """One run of the scripts, and the minutes of processors that each took."""

    def __init__(self, root, counts, clock, is_whole):
        self.root, self.counts, self.clock, self.is_whole, self.minutes = root, counts, clock, is_whole, {}
        # The scripts that run. Whoever begins or ends one holds the lock, so that none is left out.
        self.running, self.lock = set(), threading.RLock()
        # (variables that would change where the scripts find their parts)
        self.environment = {it: text for it, text in os.environ.items() if it not in ("CDPATH", "PYTHONSAFEPATH")}

    def tasks(self, shown, libraries=()):
        """Returns the scripts as tasks. libraries: the names of the tasks that build these."""
        names = [*TESTS, *(["edits"] if self.is_whole else [])]
        seconds = {name: len(names) - at for at, name in enumerate(names)}

        def after(name):
            return [*(f"tests/{it}" for it in TESTS.get(name, ())), *(libraries if name == WITH_LIBRARIES else ())]

        return {f"tests/{name}": crates.Task(after(name), seconds[name], lambda jobs, it=name: self.run(it, shown))
                for name in names}

    def run(self, name, shown):
        shown.begin(f"tests/{name}")
        try:
            self.try_script(name)
        except OSError as error:
            self.counts.fails(f"tests/{name} could not be run: {error}")
        shown.end(f"tests/{name}")
        return True

    def try_script(self, name):
        words = WHOLE.get(name, ()) if self.is_whole else ()
        if self.clock.is_up():
            self.counts.fails(f"tests/{name} was not run: the {self.clock.minutes:g} minutes were up")
            return
        with self.lock:
            ran = subprocess.Popen([f"{self.root}/tests/{name}", *words], cwd=self.root, env=self.environment,
                                   stdin=subprocess.DEVNULL, stdout=subprocess.PIPE, stderr=subprocess.STDOUT,
                                   universal_newlines=True, errors="replace", start_new_session=True)
            self.running.add(ran.pid)
        cancel = self.clock.when_up(lambda: usage.kill_group(ran.pid))
        text = ran.stdout.read()
        self.minutes[f"tests/{name}"] = usage.waited(ran) / 60
        self.running.discard(ran.pid)
        cancel()
        self.tell(name, ran.returncode, text)

    def end(self):
        """Ends the scripts that run, before the process itself ends: no other can begin any more. Each is in a session of its
        own, so Ctrl-C does not reach it."""
        self.lock.acquire()
        for it in list(self.running):
            with contextlib.suppress(OSError):
                os.killpg(it, signal.SIGTERM)

    def tell(self, name, status, text):
        skipped = SAID_SKIPPED.findall(text)
        said = SAID_SKIPPED.sub("", text).strip("\n")
        if said:
            self.counts.say(said)
        for line in skipped:
            self.counts.skips(line.replace(": SKIPPED", "", 1))
        if status == SKIPPED:
            if not skipped:
                self.counts.skips(f"tests/{name}")
        elif status:
            was_up = f", since the {self.clock.minutes:g} minutes were up" if status < 0 and self.clock.is_up() else ""
            self.counts.fails(f"tests/{name} ended with the status {status}{was_up}", said)
        else:
            self.counts.passes()
