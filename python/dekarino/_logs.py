"""Judging a recorded log as it is read, by the library alone."""
import functools
import io
import os
from collections import deque
from typing import Callable, Deque, Iterable, Iterator, Optional, Tuple, Union

from ._judging import LINE_LIMIT, Judge
from ._program import Departure, judge_by_program
from ._texts import Line, Text, bytes_of_line, path_of

# A log: a text, the path of its file, or its lines.
Log = Union[Text, Iterable[Line]]


class Judgement(Iterator[Departure]):
    """A judged log, which is read as it is asked for: an iteration gives each departure as soon as its line is read.
    Two are equal if their calls and departures are."""

    def __init__(self, calls: Union[int, Callable[[], int]], departures: Iterable[Departure]) -> None:
        self._calls = calls
        self._left = iter(departures)
        self._kept: Deque[Departure] = deque()
        self._error: Optional[Exception] = None

    def __iter__(self) -> Iterator[Departure]:
        return self

    def __next__(self) -> Departure:
        return self._kept.popleft() if self._kept else self._read()

    @property
    def calls(self) -> int:
        """How many calls the log has; it is read to its end."""
        self._read_all()
        return self._calls() if callable(self._calls) else self._calls

    @property
    def departures(self) -> Tuple[Departure, ...]:
        """The departures that an iteration hasn't given, in the log's order; it is read to its end."""
        self._read_all()
        return tuple(self._kept)

    def __eq__(self, other: object) -> bool:
        if not isinstance(other, Judgement):
            return NotImplemented
        return (self.calls, self.departures) == (other.calls, other.departures)

    def _read(self) -> Departure:
        """The next departure. What ended the reading ends it again."""
        if self._error is not None:
            raise self._error
        try:
            return next(self._left)
        except StopIteration:
            raise
        except Exception as error:
            self._error = error
            raise

    def _read_all(self) -> None:
        while True:
            try:
                self._kept.append(self._read())
            except StopIteration:
                return


def _lines(log: Log) -> Iterator[bytes]:
    """The lines of a log; of a file, a line that is too long is cut where that shows."""
    if isinstance(log, (bytes, bytearray, memoryview)):
        file: io.BufferedIOBase = io.BytesIO(log)
    elif isinstance(log, (str, os.PathLike)):
        file = open(path_of(log), "rb")
    else:
        return map(bytes_of_line, log)
    return _lines_of_file(file)


def _lines_of_file(file: io.BufferedIOBase) -> Iterator[bytes]:
    with file:
        yield from iter(functools.partial(file.readline, LINE_LIMIT + 2), b"")


def _departures(judge: Judge, lines: Iterator[bytes], time_outs: bool) -> Iterator[Departure]:
    with judge:
        for line in lines:
            departure = judge.add_line(line, time_outs=time_outs)
            if departure is not None:
                yield departure
            elif judge.has_ended:
                return


def judge(config: Text, log: Log, *, time_outs: bool = False, own_ids: bool = False) -> Judgement:
    """Judges a recorded log, in memory that doesn't grow with it. The configuration is the path of a file, or its text as
    bytes; a log can be an iterable of its lines too, as an open file. With `time_outs` each send and receive whose line
    says no time-out has one. With `own_ids` identifiers are those of the system: then the program judges the log, which
    is a path or bytes. A line that can't be read raises LogError when it is reached."""
    if own_ids:
        if not isinstance(log, (str, os.PathLike, bytes, bytearray, memoryview)):
            raise TypeError("with own_ids, a log is the path of a file, or its text as bytes")
        return Judgement(*judge_by_program(config, log, time_outs))
    judging = Judge(config)
    return Judgement(lambda: judging.calls, _departures(judging, _lines(log), time_outs))
