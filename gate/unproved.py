"""Runs a program without its proof, by `rt try`, for a first look before the proof is done.

unproved.py NAME WORD..   what the program writes, and its status, are those of the program NAME given the words
"""
import contextlib
import os
import re
import shutil
import signal
import subprocess
import sys
import tempfile

import crates
import failures
import progress

HERE = os.path.dirname(os.path.realpath(__file__))
ROOT = os.path.dirname(HERE)
NOTICE = "not proved: this answer is from an unproved build"
# The commands whose words name no file, those that take words NAME=FILE, and the options with a word behind them that
# names none.
NO_PATHS, OF_SCRIPTS = ("rows", "help"), ("run", "explain", "orders", "judge")
VALUED = ("--seconds", "--memory", "--states", "--when", "--never", "--why")
# What the toolchain writes after a program that ended.
ENDED = re.compile(rb"^run=ended status=(\d+) .*proved=no\n\Z", re.M)
OF_TOOLCHAIN = re.compile(rb"(^(interpreter|checked|races): .*\n)*\Z", re.M)
TOO_MUCH = re.compile(rb"^checked: no-answer: .*wrote more than \d+ bytes", re.M)
TOO_LONG = re.compile(rb"^checked: no-answer: .*did not end within the time limit", re.M)


def paths_in(words):
    """Returns for each word its part before a path, and the path; or the word and nothing."""
    found = []
    for at, word in enumerate(words):
        script = re.match(r"\w+=", word, re.ASCII)
        if at == 0 or word.startswith("-") or words[0] in NO_PATHS or words[at - 1] in VALUED:
            found.append((word, ""))
        elif script and words[0] in OF_SCRIPTS:
            found.append((script[0], word[script.end():]))
        else:
            found.append(("", word))
    return found


def readable(path, folder):
    """Returns the whole path of the file, since the program runs in another folder; what isn't a file, as standard
    input, is read here and put into one in the folder."""
    if not os.path.exists(path) or os.path.isfile(path) or os.path.isdir(path):
        return os.path.abspath(path)
    copy = os.path.join(folder, str(len(os.listdir(folder))))
    try:
        with open(path, "rb") as given, open(copy, "wb") as it:
            shutil.copyfileobj(given, it)
    except OSError:
        return os.path.abspath(path)
    return copy


def as_written(said, paths):
    """Returns the program's words with each path as the caller wrote it."""
    names = {os.fsencode(whole): os.fsencode(path) for whole, path in paths.items()}
    form = b"|".join(re.escape(it) for it in sorted(names, key=len, reverse=True))
    return re.sub(form, lambda it: names[it[0]], said) if names else said


def write_out(text):
    """Writes on standard output, as far as it is read."""
    try:
        sys.stdout.buffer.write(text)
        sys.stdout.flush()
    except BrokenPipeError:
        os.dup2(os.open(os.devnull, os.O_WRONLY), sys.stdout.fileno())


SIGNALS = (signal.SIGHUP, signal.SIGINT, signal.SIGTERM)


class Stopped(Exception):
    """The signal by which the run was to end."""


@contextlib.contextmanager
def spoken(name):
    """Says on a terminal how long it takes; elsewhere standard error is the program's."""
    if not sys.stderr.isatty():
        yield
        return
    with progress.Progress({name: []}, 1, stored={}, doing="building without a proof:") as shown:
        shown.begin(name)
        yield


def stop(number, _):
    """Ends the run. A second signal changes nothing."""
    for it in SIGNALS:
        signal.signal(it, signal.SIG_IGN)
    raise Stopped(number)


def try_program(kit, name, words):
    """Runs the program, and returns its standard output and the standard error of `rt try`."""
    with subprocess.Popen([f"{kit}/bin/rt", "try", "--", *words], cwd=f"{ROOT}/crates/{name}",
                          stdin=subprocess.DEVNULL, stdout=subprocess.PIPE, stderr=subprocess.PIPE) as ran:
        try:
            return ran.communicate()
        finally:
            ran.terminate()


def why_not(said):
    """Returns why the program gave no answer."""
    instead = "run the same without --unproved, which has no such limit"
    if TOO_MUCH.search(said):
        return f"an unproved build may write 1 MiB at most, and this answer is longer: {instead}"
    if TOO_LONG.search(said):
        return f"an unproved build may run for 60 seconds at most, and this run takes longer: {instead}"
    return "the unproved build gave no answer, and the toolchain says above why: fix that, and run this again"


def answer(name, words, folder):
    """Returns the status of the program, whose output is written; the folder is for copies."""
    kit = crates.toolchain()
    failures.usable_toolchain(name, kit)
    parts = paths_in(words)
    paths = {readable(path, folder): path for _, path in parts if path}
    whole = {path: it for it, path in paths.items()}
    words = [before + whole.get(path, path) for before, path in parts]
    with spoken(name):
        output, said = try_program(kit, name, words)
    write_out(as_written(output, paths))
    ended = ENDED.search(said)
    if not ended:
        sys.stderr.buffer.write(b"" if TOO_MUCH.search(said) or TOO_LONG.search(said) else said)
        sys.stderr.flush()
        failures.refuse(name, why_not(said))
    sys.stderr.buffer.write(as_written(OF_TOOLCHAIN.sub(b"", said[:ended.start()]), paths))
    sys.stderr.flush()
    return int(ended[1])


def main(name, *words):
    print(NOTICE, file=sys.stderr, flush=True)
    for it in SIGNALS:
        signal.signal(it, stop)
    try:
        with tempfile.TemporaryDirectory() as folder:
            return answer(name, words, folder)
    except Stopped as by:
        number = by.args[0]
    signal.signal(number, signal.SIG_DFL)
    os.kill(os.getpid(), number)
    return failures.STATUS


if __name__ == "__main__":
    sys.exit(main(*sys.argv[1:]))
