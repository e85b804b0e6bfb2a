"""Tries the must-fail edits of crates. A record has a line for each crate whose edits were all tried and refused, the
oldest first, with the digest of all that the verdicts rest on. Crates without such a line are tried first, then the
oldest."""
import hashlib
import os
import tempfile
import threading
import types

import crates
import edits
import said
import trials
import usage

HERE = os.path.dirname(os.path.realpath(__file__))
RECORD = os.path.join(HERE, "edits_tried")
HEADING = """\
# The crates whose must-fail edits were all refused, the oldest trial first, each with the SHA-256 of all that the verdicts
# rest on; written by ./test all.
"""
# The scripts that decide about an edit.
JUDGES = ("must_fail.py", "edits.py", "trials.py", "function_copies.py", "said.py", "toolchain.py")
PARTS = ("src", "specs", "proofs")
# Many checks run side by side, each with one job: each further one would load the libraries again.
ONE_JOB = ["--jobs", "1"]


class TimeIsUp(Exception):
    """The time of the verification is up, so the result of a check doesn't count."""


def files_below(folder):
    return sorted(f"{at}/{name}" for at, _, names in os.walk(folder) for name in names)


def texts_of(folder):
    """Returns the texts of the crate's sources by their paths in it."""
    found = {}
    for path in [it for part in PARTS for it in files_below(f"{folder}/{part}")]:
        with open(path, encoding="utf-8", errors="replace") as file:
            found[os.path.relpath(path, folder)] = file.read()
    return found


def has_tests(folder):
    return any("#[test]" in it for it in texts_of(folder).values())


def lines_of(root):
    """Returns the line of each crate in crates.txt."""
    with open(f"{root}/crates.txt", encoding="utf-8") as lines:
        return {line.partition(":")[0].split()[0]: line.strip() for line in lines if ":" in line.partition("#")[0]}


class Digests:
    """The digests of what the verdicts on crates' edits rest on. root: the sources; edits: what has the edits."""

    def __init__(self, root, edits_root, kit):
        self.root, self.edits_root, self.graph, self.lines = root, edits_root, crates.crates_of(root), lines_of(root)
        self.fixed = hashlib.sha256()
        for path in [f"{kit}/WHAT", *(f"{HERE}/{name}" for name in JUDGES)]:
            self.add(self.fixed, os.path.basename(path), path)

    def add(self, made, name, path):
        with open(path, "rb") as file:
            content = file.read()
        made.update(f"{name} {len(content)}\n".encode() + content)

    def of(self, crate):
        """Returns the digest of the crate's edits, its sources, those beneath it, the toolchain, and the judges."""
        made = self.fixed.copy()
        for name in [*crates.below(self.graph, crate), crate]:
            made.update(f"{self.lines[name]}\n".encode())
            for path in [it for part in PARTS for it in files_below(f"{self.root}/crates/{name}/{part}")]:
                self.add(made, os.path.relpath(path, self.root), path)
        for path in files_below(f"{self.edits_root}/crates/{crate}/must-fail"):
            self.add(made, os.path.relpath(path, self.edits_root), path)
        return made.hexdigest()


class Record:
    """The record, in its file."""

    def __init__(self, file=RECORD):
        self.file, self.lock = file, threading.Lock()

    def lines(self):
        """Returns the digest of each crate, the oldest first."""
        try:
            with open(self.file, encoding="utf-8") as lines:
                return dict(line.split() for line in lines if not line.startswith("#") and len(line.split()) == 2)
        except OSError:
            return {}

    def in_turn(self, digests):
        """Returns the names of the crates, given with their digests, in the order in which they are to be tried."""
        known = self.lines()
        age = {name: at for at, name in enumerate(known)}
        return sorted(digests, key=lambda it: age[it] if known.get(it) == digests[it] else -1)

    def add(self, crate, digest):
        with self.lock:
            lines = {**{it: one for it, one in self.lines().items() if it != crate}, crate: digest}
            with open(f"{self.file}.new", "w", encoding="utf-8") as it:
                it.write(HEADING + "".join(f"{name} {one}\n" for name, one in lines.items()))
            os.replace(f"{self.file}.new", self.file)


class MustFail:
    """One run of the edits, as long as there is time. rt: the toolchain's module; known: its crates, in the copy; copy:
    the sources; edits_root: the edits; room: a folder for what checks keep."""

    def __init__(self, rt, known, copy, edits_root, room, kit, counts, clock):
        self.rt, self.edits_root, self.room, self.counts, self.clock = rt, edits_root, room, counts, clock
        self.crates = {it.name: it for it in known if os.path.isdir(f"{edits_root}/crates/{it.name}/must-fail")}
        made = Digests(copy, edits_root, kit)
        self.digests, self.record = {it: made.of(it) for it in self.crates}, Record()

    def tasks(self, shown):
        names = self.record.in_turn(self.digests)
        return {f"the edits of {name}": crates.Task([], len(names) - at, lambda jobs, it=name: self.run(it, shown))
                for at, name in enumerate(names)}

    def run(self, crate, shown):
        part = f"the edits of {crate}"
        shown.begin(part)
        is_whole = False
        try:
            is_whole = self.try_crate(self.crates[crate])
        except (Exception, SystemExit) as error:
            self.counts.fails(f"{part} could not be tried: {error}")
        shown.end(part, is_done=is_whole)
        return True

    def try_crate(self, crate):
        """Tries the edits of a crate. Returns whether the time sufficed."""
        good, bad = self.rt.edits_of(types.SimpleNamespace(folder=f"{self.edits_root}/crates/{crate.name}"))
        left, failures, before = {f"{crate.name}/{os.path.basename(it)}" for it in good}, len(bad), self.counts.fails
        if self.clock.is_up():
            self.skip(crate.name, left)
            return False

        def tell(name, words, is_refused):
            nonlocal failures
            left.discard(name)
            if is_refused:
                self.counts.passes()
                self.counts.say(f"must-fail {name}: {words}")
            else:
                failures += 1
                before(f"must-fail {name}: {words}")

        for it in bad:
            before(f"{crate.name}/must-fail/{os.path.basename(it)} is no edit: give it a name in .edit, or in .md if it "
                   "is only to be read, and put it right into must-fail/")
        try:
            self.try_edits(crate, good, tell)
        except TimeIsUp:
            self.skip(crate.name, left)
            return False
        if not failures:
            self.record.add(crate.name, self.digests[crate.name])
        return True

    def skip(self, crate, left):
        is_known = self.record.lines().get(crate) == self.digests[crate]
        why = "which were refused before in just this form" if is_known else "which were not tried in this form yet"
        self.counts.skips(f"{len(left)} must-fail edits of {crate}, {why}: the time was up", len(left))

    def try_edits(self, crate, files, tell):
        sources, tried = texts_of(crate.folder), []
        for file in files:
            name = f"{crate.name}/{os.path.basename(file)}"
            texts, why = self.rt.read_edit(file, crate.folder)
            edit = None if why else edits.read(name, texts, sources, edits.broken_by(file))
            if edit is None:
                tell(name, why or "it changes nothing", False)
            else:
                tried.append(edit)
        with tempfile.TemporaryDirectory(prefix="kept-", dir=self.room) as kept:
            check = check_of(self.rt, crate, kept, self.clock.is_up)
            trials.Trials(crate.name, tried, sources, check,
                          lambda edit, verdict: tell(edit.name, verdict.words, verdict.is_refused)).run()


def check_of(rt, crate, kept, is_up=lambda: False):
    """Returns the check of the crate, a copy, with other and more texts, over what its checks before it proved in this
    run."""
    def check(texts, names):
        for path in texts:
            # (rt copies the crate's folders, and then writes the texts into these)
            os.makedirs(os.path.dirname(f"{crate.folder}/{path}"), exist_ok=True)
        only = [word for name in names for word in ("--only", name)]
        ran = rt.checked(crate, texts, [*ONE_JOB, *only], kept)
        if is_up():
            raise TimeIsUp
        return said.Said(ran.stdout, ran.returncode)

    return check


def end_checks():
    """Ends the checks that this process began: the prover's are in a group of their own."""
    mine = os.getpgid(0)
    for process, (_, parent, _) in usage.processes().items():
        if parent == os.getpid():
            try:
                group = os.getpgid(process)
            except OSError:
                continue
            if group != mine:
                usage.kill_group(group)
