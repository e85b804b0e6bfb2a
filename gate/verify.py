"""The verification, which the script 'test' runs.

verify.py                        runs every test with the built or prebuilt programs and libraries
verify.py all                    proves everything and runs each crate's tests, by the toolchain's own gate over a copy of
                                 the sources; runs every test with what this built; compares prebuilt/ with it; and tries
                                 every must-fail edit
verify.py all --within MINUTES   the same in this time: must-fail edits are tried as long as there is time, those first
                                 that were not refused before in the form that they have now
verify.py edits CRATE..          proves everything, and tries the must-fail edits of these crates
"""
import contextlib
import os
import shutil
import signal
import subprocess
import sys
import tempfile
import traceback

import counts
import crates
import must_fail
import progress
import proving
import scripts
import toolchain
import usage

HERE = os.path.dirname(os.path.realpath(__file__))
ROOT = os.path.dirname(HERE)
# What each part took in the run of which this is a copy of out/durations.txt.
TABLE = os.path.join(HERE, "test_durations.txt")
USAGE = "usage: ./test [all [--within MINUTES] | edits CRATE..]"
HELP = f"""\
{USAGE}

./test                        runs every test, with the programs that are there; takes minutes, needs Python 3.9 or later
./test all                    also checks every proof and every must-fail edit; takes hours, needs the toolchain
./test all --within MINUTES   the same within that time; must-fail edits only as far as it goes
./test edits CRATE..          proves everything, and tries the must-fail edits of these crates

The last line counts what passed, failed and was skipped. Ctrl-C ends it. docs/BUILDING.md says more.
"""


def shown_for(parts, after):
    """Returns what says how far the parts are; those of `after` wait for all before them."""
    waits = {**{it: [] for it in parts}, **{it: list(parts) for it in after}}
    return progress.Progress(waits, crates.lanes(), (), progress.durations(TABLE), kind="parts", prefix="test: ")


def on_signals(stop):
    """Has each signal that ends a program call `stop`."""
    for it in (signal.SIGHUP, signal.SIGINT, signal.SIGTERM):
        signal.signal(it, stop)


def run_scripts(root, counted):
    """Runs all that runs."""
    made = scripts.Scripts(root, counted, counts.Clock(), is_whole=False)
    for name in ("apexports", "dekarino"):
        done = subprocess.run([f"{root}/tests/program", name], stdin=subprocess.DEVNULL, stdout=subprocess.DEVNULL,
                              stderr=subprocess.PIPE, universal_newlines=True, check=False)
        if done.returncode:
            counted.fails(f"{done.stderr.strip()}: build it by ./{name} --version, or by ./test all")
            return

    def stop(number, _):
        made.end()
        print("\ntest: ended by a signal", file=sys.stderr, flush=True)
        os._exit(128 + number)

    on_signals(stop)
    with shown_for([f"tests/{it}" for it in scripts.TESTS], []) as shown:
        shown.doing = "running"
        crates.side_by_side(made.tasks(shown), crates.processors())


class Whole:
    """The whole verification, in a folder of this run."""

    def __init__(self, root, kit, room, counted, clock):
        self.root, self.kit, self.room, self.counts, self.clock = root, kit, room, counted, clock
        self.made = proving.Proving(root, kit, room, counted, clock)
        self.scripts = scripts.Scripts(root, counted, clock, is_whole=True)

    def run(self, only):
        """only: the crates whose edits alone are tried, or none for all and everything else."""
        rt = toolchain.loaded(self.kit)
        if rt is None:
            self.counts.fails(f"{self.kit}/bin/rt has a form that is not known here: take '{toolchain.WANTED}'")
            return
        # (its first call sets a signal's handler, which only this thread may)
        rt.rtlib.guarded()
        known = rt.rtlib.crates_below(self.made.copy)
        with_edits = [it for it in known if not only or it.name in only]
        edits = must_fail.MustFail(rt, with_edits, self.made.copy, self.made.edits, self.room, self.kit, self.counts,
                                   self.clock)
        libraries = {f"the library of {it.name}": it for it in known if it.is_static}
        self.run_parts(rt, edits, libraries, [] if only else [*libraries, *self.scripts.tasks(None), "prebuilt"])

    def run_parts(self, rt, edits, libraries, built):
        """built: the names of all that is tried with what is built."""
        with self.made.usage, shown_for(self.made.parts(), [*built, *edits.tasks(None)]) as shown:
            if self.made.prove(shown) and self.made.take_programs():
                shown.doing = "trying"
                if built:
                    self.try_built(rt, libraries, shown)
                self.try_edits(edits, shown)
        if built:
            heading = "The seconds that each part took in a run of ./test all."
            progress.write_durations(f"{self.root}/out/durations.txt", heading, shown.took)
        minutes = {**self.made.minutes, **self.scripts.minutes, "must-fail edits": self.made.usage.of_kind("edits") / 60}
        for line in usage.table(self.made.usage, minutes):
            self.counts.say(line)

    def try_built(self, rt, libraries, shown):
        """Builds the libraries for C, runs all that runs, and compares prebuilt/."""
        def build(part):
            return self.done(part, lambda: self.made.build_library(rt, libraries[part]), shown)

        tasks = {part: crates.Task([], len(scripts.TESTS), lambda jobs, it=part: build(it)) for part in libraries}
        tasks.update(self.scripts.tasks(shown, libraries))
        begun = crates.side_by_side(tasks, crates.processors())
        for it in [it for it in tasks if it not in begun]:
            self.counts.fails(f"{it} was not run, since what it needs failed")
        self.done("prebuilt", self.made.compare_prebuilt, shown)

    def done(self, part, work, shown):
        shown.begin(part)
        result = work()
        shown.end(part)
        return result

    def try_edits(self, edits, shown):
        cancel = self.clock.when_up(must_fail.end_checks)
        crates.side_by_side(edits.tasks(shown), shown.at_once)
        cancel()


def stop_by_signal(room, made):
    """Has a signal end what this run began, and take its folder away. made: the runs of scripts, as they are made."""
    def stop(number, _):
        for it in made:
            it.end()
        mine = os.getpgid(0)
        for process, (_, parent, _) in usage.processes().items():
            with contextlib.suppress(OSError):
                # (those of the prover are in a group of their own, which ends when this process has ended)
                if parent == os.getpid() and os.getpgid(process) == mine:
                    os.kill(process, signal.SIGTERM)
        shutil.rmtree(room, ignore_errors=True)
        os._exit(128 + number)

    on_signals(stop)


class Asked:
    """What is asked for by the words. Raises ValueError if they are none."""

    def __init__(self, words):
        self.is_whole, self.minutes, self.only = bool(words), None, []
        if words[:1] == ["edits"] and len(words) > 1:
            self.only = words[1:]
            if not set(self.only) <= {*crates.crates_of(ROOT)}:
                raise ValueError
        elif words[:2] == ["all", "--within"] and len(words) == 3:
            self.minutes = float(words[2])
            if not self.minutes > 0:
                raise ValueError
        elif words not in ([], ["all"]):
            raise ValueError


def run_whole(counted, clock, only):
    for it in ("RT_ALLOW_C", "RT_BACKEND", "RT_SECONDS"):
        os.environ.pop(it, None)
    kit = crates.toolchain()
    if kit is None:
        counted.fails("there is no command rt: put the toolchain's bin folder into PATH, or name the toolchain in "
                      "RATTLE_KIT; ./test alone needs none")
        return
    os.environ["PATH"] = f"{kit}/bin:{os.environ.get('PATH', os.defpath)}"
    with tempfile.TemporaryDirectory(prefix="dekarino-test-") as room:
        made = []
        stop_by_signal(room, made)
        whole = Whole(ROOT, kit, os.path.realpath(room), counted, clock)
        made.append(whole.scripts)
        whole.run(only)


def main(words):
    if words in (["-h"], ["--help"]):
        print(HELP, end="")
        return 0
    try:
        asked = Asked(words)
    except ValueError:
        print(USAGE, file=sys.stderr)
        return 2
    counted = counts.Counts()
    try:
        if asked.is_whole:
            run_whole(counted, counts.Clock(asked.minutes), asked.only)
        else:
            run_scripts(ROOT, counted)
    except (Exception, SystemExit):
        traceback.print_exc()
        counted.fails("the verification itself broke off: see standard error")
    print(counted.closing())
    return 1 if counted.failed or not counted.passed else 0


if __name__ == "__main__":
    sys.exit(main(sys.argv[1:]))
