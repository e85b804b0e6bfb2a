"""The crates of the repository with those that they use; the toolchain; the machine; tasks that run side by side."""
import concurrent.futures
import os
import re
import shutil
import time

# The memory that is enough for nearly every proof. The toolchain itself takes fewer jobs if memory is short.
MEMORY_EACH = 3_000_000_000
# More jobs than these gain nothing in a crate of the usual size.
MOST_JOBS = 4
# A chain of at least this part of the longest one also decides how long everything takes.
NEARLY = 0.75
# The limits of a control group, for versions 2 and 1 of control groups: the file of the limit, and the file and form of
# its second value: the memory that the group already uses, or the period of its quota.
MEMORY_LIMITS = [
    ("/sys/fs/cgroup/memory.max", "/sys/fs/cgroup/memory.stat", r"^anon (\d+)"),
    ("/sys/fs/cgroup/memory/memory.limit_in_bytes", "/sys/fs/cgroup/memory/memory.stat", r"^total_rss (\d+)"),
]
QUOTAS = [
    ("/sys/fs/cgroup/cpu.max", "/sys/fs/cgroup/cpu.max", r" (\d+)"),
    ("/sys/fs/cgroup/cpu/cpu.cfs_quota_us", "/sys/fs/cgroup/cpu/cpu.cfs_period_us", r"^(\d+)"),
]


def crates_of(root):
    """Returns, in the order of crates.txt, each crate's name and the repository's own crates that it uses."""
    said = {}
    with open(os.path.join(root, "crates.txt"), encoding="utf-8") as lines:
        for line in lines:
            head, colon, libraries = line.partition("#")[0].partition(":")
            if colon:
                said[head.split()[0]] = libraries.split()
    return {name: [it for it in libraries if it in said] for name, libraries in said.items()}


def programs(root):
    """Returns the names of the programs, the crates with a main."""
    return [it for it in crates_of(root) if os.path.exists(os.path.join(root, "crates", it, "src", "main.rt"))]


def below(crates, name):
    """Returns the crates that the crate uses, directly or through others, lowest first."""
    found = []
    for it in crates[name]:
        found += [each for each in [*below(crates, it), it] if each not in found]
    return found


def toolchain():
    """Returns the toolchain's folder, found as built_from.sh finds it, or None."""
    for rt in (shutil.which("rt"), os.path.join(os.environ.get("RATTLE_KIT") or "/opt/rattle", "bin/rt")):
        folder = os.path.dirname(os.path.dirname(os.path.realpath(rt))) if rt else ""
        if os.path.isfile(os.path.join(folder, "WHAT")):
            return folder
    return None


def number_in(file, pattern):
    """Returns the number that the pattern finds in the file, or None."""
    try:
        with open(file, encoding="utf-8") as it:
            found = re.search(pattern, it.read(), re.M)
    except OSError:
        return None
    return int(found[1]) if found else None


def processors():
    """Returns how many processors this process may use: those that taskset leaves it, within its group's quota."""
    found = len(os.sched_getaffinity(0))
    for file, other, form in QUOTAS:
        quota, period = number_in(file, r"^(\d+)"), number_in(other, form)
        if quota and period:
            found = min(found, max(quota // period, 1))
    return found


def free_memory():
    """Returns the bytes of memory that are free, within its group's limit."""
    found = [1024 * (number_in("/proc/meminfo", r"^MemAvailable:\s+(\d+)") or 0)]
    for file, other, form in MEMORY_LIMITS:
        limit, held = number_in(file, r"^(\d+)"), number_in(other, form)
        if limit and held is not None:
            found.append(limit - held)
    return min(found)


def most_jobs():
    """Returns how many jobs one proof may use."""
    return max(1, min(processors(), MOST_JOBS))


def lanes():
    """Returns how many proofs may run at once."""
    return max(1, min(processors(), free_memory() // MEMORY_EACH))


class Task:
    """A piece of work for one lane, to be done after the tasks with these names, in about this number of seconds."""

    def __init__(self, after, seconds, work):
        """The work gets the number of jobs that it may use, and returns whether it succeeded."""
        self.after, self.seconds, self.work = after, seconds, work


def behind(tasks):
    """Returns for each task the seconds of the longest chain that begins with it."""
    found = {}

    def chain(name):
        if name not in found:
            above = [it for it in tasks if name in tasks[it].after]
            found[name] = tasks[name].seconds + max(map(chain, above), default=0)
        return found[name]

    return {name: chain(name) for name in tasks}


def side_by_side(tasks, at_once=None):
    """Does the tasks, given by their names, as many at once as lanes() says or as at_once gives; each when all that it
    comes after went well, and first those with the longest chain behind them. Of those that run, one whose chain left
    is the longest, or nearly so, may use most_jobs(), and each other one fewer: one, and more if lanes are idle.
    Returns by name whether each went well; those that were not begun are left out."""
    at_once, most, length = at_once or lanes(), most_jobs(), behind(tasks)
    left, running, done, began = sorted(tasks, key=lambda it: -length[it]), {}, {}, {}
    with concurrent.futures.ThreadPoolExecutor(at_once) as pool:
        while left or running:
            ready = [it for it in left if all(done.get(below) for below in tasks[it].after)]
            for at, name in enumerate(ready):
                idle = at_once - len(running)
                if idle > 0:
                    left.remove(name)
                    began[name] = now = time.monotonic()
                    rules = all(length[name] > NEARLY * (length[it] - (now - began[it])) for it in running.values())
                    jobs = most if rules else max(1, min(most - 1, idle // (len(ready) - at)))
                    running[pool.submit(tasks[name].work, jobs)] = name
            if not running:
                break
            for it in concurrent.futures.wait(running, return_when=concurrent.futures.FIRST_COMPLETED).done:
                done[running.pop(it)] = it.result()
    return done
