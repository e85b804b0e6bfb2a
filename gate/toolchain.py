"""The toolchain's command rt: which one it is, what it has proved, and its work in several crates at once."""
import contextlib
import fcntl
import importlib.machinery
import importlib.util
import io
import os
import re
import subprocess
import sys

# The status of a command that found a library beneath its crate changed since it was proved.
CHANGED = 124
# The line of `rt version` of the oldest toolchain with which the sources are proved.
WANTED = "rattle-kit-13b logic dac8208d650f15bf"


def version(folder):
    """Returns the line of `rt version`, or None if rt does not know these words."""
    said = subprocess.run([f"{folder}/bin/rt", "version"], stdin=subprocess.DEVNULL, stdout=subprocess.PIPE,
                          stderr=subprocess.DEVNULL, universal_newlines=True, errors="replace", check=False)
    line = said.stdout.strip()
    return line if said.returncode == 0 and line and "\n" not in line else None


def number_of(line):
    """Returns a key that orders toolchains, as (13, 'b'), or None if the line has another form."""
    found = re.match(r"rattle-kit-(\d+)([a-z]*) ", line)
    return (int(found[1]), found[2]) if found else None


def is_too_old(line):
    """Returns whether the toolchain with this line of `rt version` is one from before the one that is wanted."""
    number = number_of(line) if line else (0, "")
    return number is not None and number < number_of(WANTED)


def loaded(folder):
    """Returns rt as a Python module, or None if it is not of the form that is known here."""
    loader = importlib.machinery.SourceFileLoader("rt", f"{folder}/bin/rt")
    made = importlib.util.module_from_spec(importlib.util.spec_from_loader("rt", loader))
    try:
        loader.exec_module(made)
        return made if callable(made.rtlib.lock) and callable(made.rtlib.Crate.is_built) else None
    except Exception:
        # (reading another toolchain's rt could do anything)
        return None


def proved(rt, root, names):
    """Returns those of the libraries that are proved from the present sources, as the module rt says."""
    try:
        with contextlib.redirect_stderr(io.StringIO()):
            known = {it: rt.rtlib.Crate(f"{root}/crates/{it}", root, {}) for it in names}
            return [it for it, crate in known.items() if crate.is_built()]
    except (Exception, SystemExit):
        # (when rt runs, it says itself what is wrong)
        return []


def held(folder, wait):
    """Returns what keeps every other rt out of the crate's folder until it is closed. If another works in it, calls
    wait first."""
    found = os.open(folder, os.O_RDONLY)
    try:
        fcntl.flock(found, fcntl.LOCK_EX | fcntl.LOCK_NB)
    except BlockingIOError:
        wait(folder)
        fcntl.flock(found, fcntl.LOCK_EX)
    except OSError:
        # (some file systems have no locks; rt goes on without them too)
        pass
    return found


def without_locks(folder, words):
    """Does what the command rt does in a crate, but for its locks: whoever calls this holds the folders of all crates,
    so that several can be proved at once over libraries which are proved already. Proves none of these."""
    rt = loaded(folder)
    if rt is None:
        os.execv(f"{folder}/bin/rt", ["rt", *words])

    def in_place_of_lock(crates):
        changed = [it.name for it in crates[:-1] if not it.is_built()]
        if changed:
            print(f"changed since it was proved: {', '.join(changed)}", flush=True)
            sys.exit(CHANGED)
        return []

    rt.rtlib.lock = in_place_of_lock
    return rt.main(words)


if __name__ == "__main__":
    sys.exit(without_locks(sys.argv[1], sys.argv[2:]))
