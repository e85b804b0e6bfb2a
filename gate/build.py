"""Proves the crates beneath a program side by side, and then proves, builds and runs the program by `rt run`.

build.py NAME WORD..   for the program NAME, which is given the words in that run
build.py --record      proves both programs from nothing in a copy, and makes durations.txt again from what it took
"""
import contextlib
import os
import shutil
import signal
import subprocess
import sys
import tempfile
import threading
import time

import crates
import failures
import progress
import toolchain

HERE = os.path.dirname(os.path.realpath(__file__))
ROOT = os.path.dirname(HERE)
# The seconds that a command may take to end after the signal.
SECONDS_TO_END = 10
# Crates that are not on the longest chain get the processors that the chain leaves.
BEHIND = ["nice", "-n", "19"]


class Build:
    """One build: its checkout, its program, and the commands that run."""

    def __init__(self, root, name, words, kit):
        self.root, self.name, self.words, self.kit = root, name, words, kit
        self.graph = crates.crates_of(root)
        if name not in self.graph:
            failures.refuse(name, f"{root}/crates.txt has no line for {name}: put it back")
        self.names = [*crates.below(self.graph, name), name]
        self.logs = os.path.join(root, "out", "build")
        self.held, self.running, self.failed, self.ends, self.waits = [], {}, None, False, False
        self.lock = threading.Lock()

    def folder(self, crate):
        return os.path.join(self.root, "crates", crate)

    def log(self, crate):
        return os.path.join(self.logs, f"{crate}.log")

    def say(self, text):
        print(f"{self.name}: {text}", file=sys.stderr, flush=True)

    def prepare(self):
        """Makes the folders that builds write to, or ends the script if one cannot be made."""
        os.makedirs(self.logs, exist_ok=True)
        for it in [self.logs, *(f"{self.folder(crate)}/out" for crate in self.names)]:
            with contextlib.suppress(OSError):
                os.mkdir(it)
            if not os.access(it, os.W_OK | os.X_OK):
                failures.refuse(self.name, f"the program is not built from these sources, and {it} cannot be written: "
                                           "make it writable for you, or build in a checkout of your own")

    def hold(self, rt):
        """Keeps all other commands of the toolchain out of the crates; see toolchain.without_locks."""
        self.waits = True
        for it in self.names if rt else []:
            self.held.append(toolchain.held(
                self.folder(it), lambda at: self.say(f"another command rt works in {at}: waiting until it ends")))
        self.waits = False

    def let_go(self):
        for it in self.held:
            os.close(it)
        self.held = []

    def command(self, crate, jobs):
        """Returns the words that prove the crate, or prove, build and run the program."""
        if crate == self.name:
            self.let_go()
            return [f"{self.kit}/bin/rt", "run", "--", *self.words]
        behind = BEHIND if jobs < crates.most_jobs() else []
        return [*behind, sys.executable, "-B", f"{HERE}/toolchain.py", self.kit, "lib", "--jobs", str(jobs)]

    def run(self, crate, jobs):
        """Runs the command of the crate with its output in the log, and returns its status."""
        with open(self.log(crate), "wb") as log:
            with self.lock:
                if self.ends:
                    return None
                ran = self.running[crate] = subprocess.Popen(
                    self.command(crate, jobs), cwd=self.folder(crate), stdin=subprocess.DEVNULL, stdout=log,
                    stderr=subprocess.STDOUT, pass_fds=self.held)
            status = ran.wait()
        with self.lock:
            del self.running[crate]
        return status

    def end(self):
        """Ends all commands, which end those that they started, and starts no others."""
        with self.lock:
            self.ends, left = True, [*self.running.values()]
        for it in left:
            it.terminate()
        until = time.monotonic() + SECONDS_TO_END
        for it in left:
            try:
                it.wait(max(until - time.monotonic(), 0))
            except subprocess.TimeoutExpired:
                it.kill()

    def work(self, crate, shown):
        def done(jobs):
            if self.ends:
                return False
            shown.begin(crate)
            try:
                status = self.run(crate, jobs)
            except OSError as error:
                status = error
            if status and not self.ends:
                self.failed = self.failed or (crate, status)
                threading.Thread(target=self.end, daemon=True).start()
            how = "is proved" if status == 0 else "failed" if self.failed and self.failed[0] == crate else "was ended"
            shown.end(crate, how, is_done=status == 0)
            return status == 0

        return done

    def stored(self):
        """Returns the seconds that crates take. A crate that was proved before, from other sources, is left out: most of its
        proof is reused, so the table doesn't apply."""
        def was_proved(crate):
            return any(os.path.exists(f"{self.folder(crate)}/out/{it}") for it in ("rlib/stamp", f"{crate}.stamp"))

        return {it: seconds for it, seconds in progress.durations().items() if not was_proved(it)}

    def prove(self):
        """Returns whether all crates are proved and the program is built, and the seconds that each took."""
        rt = toolchain.loaded(self.kit)
        self.hold(rt)
        ready = toolchain.proved(rt, self.root, self.names[:-1]) if rt else []
        left = [it for it in self.names if it not in ready]
        if ready and len(left) > 1:
            self.say(f"going on from an earlier build: {len(ready)} of {len(self.names)} crates are proved")
        after, stored, at_once = {it: self.graph[it] for it in self.names}, self.stored(), crates.lanes()
        with progress.Progress(after, at_once, ready, stored, prefix=f"{self.name}: ") as shown:
            tasks = {it: crates.Task([on for on in crates.below(self.graph, it) if on in left], stored.get(it, 1),
                                     self.work(it, shown)) for it in left}
            crates.side_by_side(tasks, at_once)
        return not self.failed and not self.ends, shown.took


def build(root, name, words):
    """Builds the program, says what failed, and returns the result of prove()."""
    kit = crates.toolchain()
    if kit is None:
        failures.refuse(name, "there is no command rt: put the toolchain's bin folder into PATH, or name the "
                              "toolchain in RATTLE_KIT")
    line = failures.usable_toolchain(name, kit)
    made = Build(root, name, words, kit)
    made.prepare()

    def stop(number, _):
        # (a second signal changes nothing)
        signal.signal(number, signal.SIG_IGN)
        if made.waits:
            sys.exit(failures.STATUS)
        threading.Thread(target=made.end).start()

    signal.signal(signal.SIGTERM, stop)
    made.say("proving and building the program; the first time this takes some minutes")
    is_built, took = made.prove()
    if made.failed:
        crate, status = made.failed
        what = f"{'proving and building' if crate == name else 'proving'} {crate}"
        said, why = failures.of_crate(what, f"{made.folder(crate)}/out", made.log(crate), status, line)
        sys.stderr.write("".join(said))
        failures.refuse(name, why)
    return is_built, took


def record():
    """Makes durations.txt again."""
    seconds = {}
    with tempfile.TemporaryDirectory() as copy:
        shutil.copy(f"{ROOT}/crates.txt", copy)
        shutil.copytree(f"{ROOT}/crates", f"{copy}/crates", ignore=shutil.ignore_patterns("out"))
        with open(f"{copy}/config.toml", "w", encoding="utf-8") as config:
            config.write('partition = [{ name = "A" }]\n')
        for name in crates.programs(ROOT):
            words = [f"{copy}/config.toml"]
            is_built, took = build(copy, name, ["table" if name == "dekarino" else "check", *words])
            if not is_built:
                return 1
            seconds.update(took)
    heading = "The seconds that each crate took in a first build, by `python3 gate/build.py --record`."
    known = {name: seconds[name] for name in crates.crates_of(ROOT) if name in seconds}
    progress.write_durations(progress.TABLE, heading, known)
    return 0


def main(words):
    if words == ["--record"]:
        return record()
    return 0 if build(ROOT, words[0], words[1:])[0] else 1


if __name__ == "__main__":
    sys.exit(main(sys.argv[1:]))
