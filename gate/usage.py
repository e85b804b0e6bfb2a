"""Measures the processor time that the prover takes for each crate, by looking at the processes below this one."""
import os
import signal
import threading

TICKS = os.sysconf("SC_CLK_TCK")
SECONDS_BETWEEN = 0.5
KINDS = ("proof", "tests", "edits")


def kind_of(words):
    """Returns the purpose of the prover's command, from its words: a crate's proof, its tests, or its must-fail edits."""
    return "tests" if "--test" in words else "edits" if "--incremental" in words else "proof"


def processes():
    """Returns for each process its number and start, its parent, and its seconds."""
    found = {}
    for name in filter(str.isdigit, os.listdir("/proc")):
        try:
            with open(f"/proc/{name}/stat", encoding="utf-8", errors="replace") as it:
                fields = it.read().rpartition(")")[2].split()
        except OSError:
            continue
        found[int(name)] = (int(fields[19]), int(fields[1]), (int(fields[11]) + int(fields[12])) / TICKS)
    return found


def words_of(process):
    try:
        with open(f"/proc/{process}/cmdline", "rb") as it:
            return it.read().decode(errors="replace").split("\0")
    except OSError:
        return []


def proved_by(words):
    """Returns the crate that the prover's command is for, and the kind of its work, or None for another command."""
    if not words or os.path.basename(words[0]) != "rattle" or "--crate-name" not in words[:-1]:
        return None
    return words[words.index("--crate-name") + 1], kind_of(words)


class Usage:
    """The seconds of processors by crate and kind, from when it is entered until it is left."""

    def __init__(self, crates, begun=lambda work: None):
        """crates: those to look for; begun: receives a crate and a kind once its prover is seen."""
        self.top, self.crates, self.begun = os.getpid(), crates, begun
        self.by_process, self.ended = {}, threading.Event()
        self.thread = threading.Thread(target=self.look_on, daemon=True)

    def __enter__(self):
        self.thread.start()
        return self

    def __exit__(self, *_):
        self.ended.set()
        self.thread.join()

    def look_on(self):
        while not self.ended.wait(SECONDS_BETWEEN):
            self.look()

    def look(self):
        found = processes()
        for process, (start, _, seconds) in found.items():
            if not self.is_below(process, found):
                continue
            work = proved_by(words_of(process))
            if work and work[0] in self.crates:
                if work not in self.seconds():
                    self.begun(work)
                self.by_process[process, start] = (work, seconds)

    def is_below(self, process, found):
        while process in found and process != self.top:
            process = found[process][1]
        return process == self.top

    def seconds(self):
        """Returns the seconds by crate and kind."""
        total = {}
        for work, seconds in [*self.by_process.values()]:
            total[work] = total.get(work, 0) + seconds
        return total

    def of_kind(self, kind):
        return sum(seconds for (_, it), seconds in self.seconds().items() if it == kind)


def waited(ran):
    """Waits for a command, and returns the seconds of processors that it and all that it waited for took."""
    _, status, used = os.wait4(ran.pid, 0)
    ran.returncode = -os.WTERMSIG(status) if os.WIFSIGNALED(status) else os.WEXITSTATUS(status)
    return used.ru_utime + used.ru_stime


def table(usage, parts):
    """Returns the lines with the seconds of each crate, and the minutes of each part."""
    seconds = usage.seconds()
    crates = sorted({crate for crate, _ in seconds}, key=lambda it: -sum(seconds.get((it, kind), 0) for kind in KINDS))
    lines = [f"{'seconds of a core':26}" + "".join(f"{kind:>9}" for kind in KINDS)]
    for crate in crates:
        lines.append(f"{crate:26}" + "".join(f"{seconds.get((crate, kind), 0):9.0f}" for kind in KINDS))
    lines.append("minutes of a core")
    lines += [f"{part:26}{minutes:9.1f}" for part, minutes in parts.items()]
    return [*lines, f"{'in all':26}{sum(parts.values()):9.1f}"]


def kill_group(process):
    """Ends a process and all of its group."""
    try:
        os.killpg(process, signal.SIGKILL)
    except OSError:
        pass
