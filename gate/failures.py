"""The message of a script that cannot build or try a program: what happened, where, and what to do."""
import os
import re
import shutil
import signal
import sys
import tempfile

import toolchain

# The status of a failure in a script rather than in the program.
STATUS = 125
# If a disk has less room than this, a failed proof counts as failed because the disk is full.
LEAST_ROOM = 1 << 20
TAIL = 40
# Lines of the toolchain that say nothing about a failure.
COUNTS = re.compile(r"(library|statements|crate) \w+: modules loaded=|logic /")


def refuse(name, why):
    """Ends the script with its reason."""
    print(f"{name}: {why}", file=sys.stderr, flush=True)
    sys.exit(STATUS)


def usable_toolchain(name, kit):
    """Returns the toolchain's line, and ends the script if it is too old."""
    line = toolchain.version(kit)
    if toolchain.is_too_old(line):
        has = f"is '{line}'" if line else "does not know 'rt version'"
        refuse(name, f"the toolchain in {kit} is too old: it {has}, and these sources want '{toolchain.WANTED}': "
                     "put the bin folder of that one into PATH, or name it in RATTLE_KIT")
    if line != toolchain.WANTED:
        print(f"{name}: the toolchain in {kit} is '{line}', and these sources were proved with '{toolchain.WANTED}'",
              file=sys.stderr, flush=True)
    return line


def tail(log):
    with open(log, encoding="utf-8", errors="replace") as lines:
        return [line for line in lines if not COUNTS.match(line)][-TAIL:]


def full_disk(folders, said):
    """Returns the first of the folders whose disk is full, by its room or by what was said."""
    for it in folders:
        if os.path.isdir(it) and shutil.disk_usage(it).free < LEAST_ROOM:
            return it
    return folders[0] if re.search(r"No space left on device|os error 28|Errno 28|Disk quota exceeded", said) else None


def signal_of(status):
    """Returns the name of the signal by which a command, or one that it ran, was killed, or None."""
    # rt hands on the number of a signal as a status below zero, of which a byte is left.
    number = -status if status < 0 else 256 - status if status > 192 else status - 128
    try:
        return signal.Signals(number).name[3:] if number > 0 else None
    except ValueError:
        return None


def of_crate(what, folder, log, status, line):
    """Returns the lines to show, and then what happened to the crate and what to do. what: the words for what was
    done, as 'proving apex_ports'; line: that of the toolchain."""
    again = "and run this again, which goes on from what is proved"
    if isinstance(status, OSError):
        return [], f"{what} failed, since there is no {log}: {status.strerror}: make room for it, {again}"
    said = tail(log)
    disk, by = full_disk([folder, tempfile.gettempdir()], "".join(said)), signal_of(status)
    if disk:
        return said, (f"{what} failed, since the disk of {disk} is full: make room there (the proofs of all crates "
                      f"take some gigabytes), {again}")
    if status == toolchain.CHANGED:
        return said, "a source changed while the program was built, as the line above says: run this again"
    if by:
        return said, (f"{what} was killed by the signal {by}; a system mostly sends KILL to what takes too much "
                      f"memory: end other programs, or give it fewer processors, as by 'taskset -c 0', {again}")
    older = "" if line == toolchain.WANTED else f", or take the toolchain '{toolchain.WANTED}'"
    return said, (f"{what} failed with the status {status}; its last lines are above, and all are in {log}: "
                  f"fix it{older}, {again}")
