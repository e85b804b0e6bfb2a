"""What the programs give: the report of a trace by `apexports`, line by line, and a judged log by `dekarino`."""
import contextlib
import json
import os
import pathlib
import re
import subprocess
import tempfile
from dataclasses import dataclass
from typing import Iterator, List, Optional, Tuple, Union

from ._codes import Code, Direction, Mode, Validity
from ._errors import ConfigError, LogError, ProgramError, TraceError
from ._found import find
from ._replies import AnyValue, QueuingStatus, Sample, SamplingStatus
from ._rows import Row
from ._texts import Text, path_of

# The status of `dekarino judge` if replies depart.
DEPARTS = 4


@dataclass(frozen=True)
class ReportedCall:
    """The line of a call. Calls are numbered from 1."""

    number: int
    at: int
    partition: str
    call: str
    code: Code
    value: AnyValue


@dataclass(frozen=True)
class ReportedPartition:
    """The line of a partition."""

    name: str
    mode: Mode
    calls: int


@dataclass(frozen=True)
class ReportedQueuing:
    """The line of a queuing channel; `waiting` has the messages that wait, oldest first."""

    name: str
    accepted: int
    received: int
    cleared: int
    waiting: Tuple[bytes, ...]


@dataclass(frozen=True)
class ReportedSampling:
    """The line of a sampling channel; message and moment are None if it was never written."""

    name: str
    message: Optional[bytes]
    at: Optional[int]


@dataclass(frozen=True)
class Report:
    """A report: its text, and what its lines say."""

    text: str
    calls: Tuple[ReportedCall, ...]
    partitions: Tuple[ReportedPartition, ...]
    channels: Tuple[Union[ReportedQueuing, ReportedSampling], ...]


def _message(word: str) -> bytes:
    return b"" if word == "-" else bytes.fromhex(word)


def value_said(words: List[str]) -> AnyValue:
    """The value after a code."""
    if not words:
        return None
    if words[0] == "id":
        return int(words[1])
    if words[0] == "message":
        message = _message(words[1])
        return Sample(message, Validity[words[2]]) if len(words) == 3 else message
    if words[0] == "waiting":
        return QueuingStatus(int(words[1]), int(words[3]), int(words[5]), Direction[words[6]])
    return SamplingStatus(int(words[1]), int(words[3]), Direction[words[4]], Validity[words[6]])


def _call(words: List[str]) -> ReportedCall:
    is_made = words[4] != "not"
    return ReportedCall(int(words[0]), int(words[1]), words[2], words[3],
                        Code[words[4]] if is_made else Code.NOT_MADE, value_said(words[5:]) if is_made else None)


def _queuing(words: List[str]) -> ReportedQueuing:
    is_cleared = words[6] == "cleared"
    return ReportedQueuing(words[1], int(words[3]), int(words[5]), int(words[7]) if is_cleared else 0,
                           tuple(map(_message, words[10 if is_cleared else 8 :])))


def read_report(text: str) -> Report:
    """What the lines of a report say."""
    lines = [line.split(" ") for line in text.splitlines()]
    return Report(
        text, tuple(_call(it) for it in lines if it[0].isdigit()),
        tuple(ReportedPartition(it[1], Mode[it[3]], int(it[5])) for it in lines if it[0] == "partition"),
        tuple(_queuing(it) if it[0] == "queuing" else
              ReportedSampling(it[1], _message(it[2]) if len(it) > 3 else None, int(it[4]) if len(it) > 3 else None)
              for it in lines if it[0] in ("queuing", "sampling")))


@dataclass(frozen=True)
class Departure:
    """A reply of a log that isn't the standard's: its line in the log, from 1, and its call. `logged` and `expected` are
    replies as in a report. `row` gives the expected one, and `words` say why, if it refuses the call."""

    line: int
    at: int
    partition: str
    call: str
    logged: str
    expected: str
    row: Row
    words: str


def find_program(name: str) -> pathlib.Path:
    """The path of a program."""
    return find(name)


@contextlib.contextmanager
def _file(text: Text) -> Iterator[str]:
    """The path of a text."""
    if not isinstance(text, (bytes, bytearray, memoryview)):
        yield os.path.abspath(path_of(text))
        return
    with tempfile.TemporaryDirectory() as folder:
        path = os.path.join(folder, "text")
        with open(path, "wb") as file:
            file.write(text)
        yield path


def _run(program: str, *words: str) -> Tuple[int, str, str]:
    """The status of a program, and what it writes to its two outputs."""
    ran = subprocess.run([str(find_program(program)), *words], stdin=subprocess.DEVNULL, stdout=subprocess.PIPE,
                         stderr=subprocess.PIPE)
    return ran.returncode, ran.stdout.decode("ascii"), ran.stderr.decode(errors="replace").rstrip("\n")


def _refusal(status: int, said: str) -> Exception:
    """The exception for a program that refuses its texts."""
    fault = re.match(r"(?:config|(trace|log) line (\d+)) fault (\d+): (.*)", said)
    if fault is None:
        return ProgramError(f"the program ended with the status {status}: {said}")
    if fault[1] is None:
        return ConfigError(int(fault[3]), fault[4])
    line, number, words = int(fault[2]), int(fault[3]), fault[4]
    return TraceError(line, number, words) if fault[1] == "trace" else LogError(line, number, words)


def replay(config: Text, trace: Text) -> Report:
    """Replays a trace with the program. Each text is the path of a file, or bytes."""
    with _file(config) as config_path, _file(trace) as trace_path:
        status, output, said = _run("apexports", "replay", config_path, trace_path)
    if status != 0:
        raise _refusal(status, said)
    return read_report(output)


def _departure(line: str) -> Departure:
    """The departure in a line of JSON."""
    it = json.loads(line)
    return Departure(it["line"], it["at"], it["partition"], it["service"], it["logged"], it["standard"],
                     Row[it["row"].upper().replace(" ", "_")], it["words"])


def judge_by_program(config: Text, log: Text, time_outs: bool) -> Tuple[int, Tuple[Departure, ...]]:
    """How many calls a recorded log has, and its departures, by the program. Identifiers are those of the system."""
    options = ["--time-outs"] * time_outs + ["--own-ids"]
    with _file(config) as config_path, _file(log) as log_path:
        status, output, said = _run("dekarino", "judge", "--json", *options, config_path, log_path)
    if status not in (0, DEPARTS):
        raise _refusal(status, said)
    *departures, counts = output.splitlines()
    return json.loads(counts)["calls"], tuple(map(_departure, departures))
