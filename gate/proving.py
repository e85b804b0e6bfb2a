"""Proves a copy of the sources by the toolchain's own gate, and takes what was built from there."""
import os
import subprocess
import tempfile

import ci
import copies
import crates
import must_fail
import usage


class Proving:
    """One run of the toolchain's gate over a copy. root: the checkout; room: a folder of this run; kit: the toolchain."""

    def __init__(self, root, kit, room, counts, clock):
        self.root, self.kit, self.room, self.counts, self.clock = root, kit, room, counts, clock
        self.copy, self.edits, self.minutes = f"{room}/checkout", f"{room}/edits", {}
        copies.copy_sources(root, self.copy)
        copies.copy_edits(root, self.edits)
        copies.archive(root, self.copy, f"{room}/before")
        os.makedirs(f"{root}/out", exist_ok=True)
        self.usage = usage.Usage(crates.crates_of(self.copy))

    def parts(self):
        """Returns the parts of the toolchain's gate: each crate, and its tests if it has some."""
        names = [*crates.crates_of(self.copy)]
        return [*names, *(ci.part_of(it, True) for it in names if must_fail.has_tests(f"{self.copy}/crates/{it}"))]

    def prove(self, shown):
        """Runs the toolchain's gate. Returns whether all is proved and every test passed."""
        gate = ci.Gate(self.kit, self.copy, f"{self.root}/out/test.log", self.usage, self.counts, self.parts())
        is_proved = gate.run(self.clock, shown)
        proofs, tests = (self.usage.of_kind(it) / 60 for it in ("proof", "tests"))
        rest = max(gate.seconds / 60 - proofs - tests, 0)
        self.minutes.update({"proofs": proofs, "tests of crates": tests, "other work of rt ci": rest})
        return is_proved

    def take_programs(self):
        """Puts the programs into the checkout. Returns whether they are those of its sources."""
        names = crates.programs(self.copy)
        for name in names:
            copies.take_back(self.copy, self.root, name, name)
        return all(self.record("program", name) for name in names)

    def record(self, kind, name):
        """Records what was built. Returns whether it is that of the checkout's sources."""
        if copies.record(self.root, kind, name, f"{self.room}/before"):
            return True
        self.counts.fails("a source was changed meanwhile, so what was built is not tried: run this again")
        return False

    def build_library(self, rt, crate):
        """Builds a static library over the libraries that the gate proved. Returns whether it is there."""
        words = [*crate.words(must_fail.ONE_JOB, keeps=False), "--toolchain", f"{self.kit}/toolchain"]
        words = [rt.rtlib.RATTLE, "build", *words, "--backend", "llvm", "-o", f"out/lib{crate.name}.a"]
        ran = subprocess.Popen([*rt.rtlib.guarded(), *words], cwd=crate.folder, stdin=subprocess.DEVNULL,
                               stdout=subprocess.PIPE, stderr=subprocess.STDOUT, universal_newlines=True,
                               errors="replace")
        cancel = self.clock.when_up(must_fail.end_checks)
        text = ran.stdout.read()
        self.minutes[f"library of {crate.name}"] = usage.waited(ran) / 60
        cancel()
        if ran.returncode:
            self.counts.fails(f"the static library of {crate.name} is not built:\n{text[-2000:]}")
            return False
        copies.take_back(self.copy, self.root, crate.name, f"lib{crate.name}.a")
        return self.record("library", crate.name)

    def compare_prebuilt(self):
        """Compares what is in prebuilt/ with what was built now."""
        with tempfile.TemporaryDirectory(dir=self.room) as made:
            done = subprocess.run([f"{self.root}/prebuilt/update", made], stdin=subprocess.DEVNULL,
                                  stdout=subprocess.PIPE, stderr=subprocess.STDOUT, universal_newlines=True,
                                  check=False)
            if done.returncode:
                self.counts.fails(f"prebuilt/update: {done.stdout.strip()}")
                return
            names = sorted(os.listdir(made))
            other = [it for it in names if bytes_of(f"{made}/{it}") != bytes_of(f"{self.root}/prebuilt/{it}")]
        if other:
            self.counts.fails(f"prebuilt/{other[0]} is not byte for byte what was proved and built from these sources: run "
                              "prebuilt/update, and commit what it makes")
        else:
            self.counts.passes()


def bytes_of(path):
    try:
        with open(path, "rb") as file:
            return file.read()
    except OSError:
        return None
