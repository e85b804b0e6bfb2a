"""Judging the calls of another layer as it makes them, by the library alone."""
import ctypes
import weakref
from types import TracebackType
from typing import Any, Callable, Optional, Tuple, Type, TypeVar

from . import _library
from ._codes import Code, Direction, Validity
from ._errors import LogError, NoCallError
from ._given import Argument, given_call, given_reply, service_named, whole
from ._library import MOMENT_LIMIT
from ._lock import end_call, lock, refuse_within_a_call
from ._module import Module
from ._program import Departure, value_said
from ._replies import AnyValue, QueuingStatus, Sample, SamplingStatus, reply_words
from ._rows import Row
from ._services import SERVICES, Service
from ._texts import Line, Text, bytes_of, bytes_of_line

# enough bytes for the words of any row, and for most of a fault: a faulty line is judged again for more
WORDS_ROOM = 4096
# The most bytes of a line of a log, and the number of the fault of a longer one.
LINE_LIMIT, TOO_LONG_LINE = 65536, 13
# The kinds of a line, and the wait of a call that waits until it can be served.
CALL, CALLS_END = 1, 2
INFINITE = 2
SERVICE_OF = {service.word: service for service in SERVICES.values()}
Value = TypeVar("Value")
NO_CALLS = {_library.NOT_OPEN: "the judge is closed",
            _library.TOO_LONG: f"a message has more than {_library.MESSAGE_LIMIT} bytes",
            _library.NO_NAME: "a name has 1 to 30 ASCII letters, digits and `_`",
            _library.NO_REPLY: "the service has no reply with this code and value"}


class Judge:
    """Judges the calls of another layer, one after another: whether each gets the reply that the standard has after the
    calls before it. The configuration is the path of a file, or its text as bytes."""

    def __init__(self, config: Text) -> None:
        text = bytes_of(config)
        with Module(text, keep_calls=False) as module:
            self.partitions: Tuple[str, ...] = module.partitions
        functions = _library.library()
        self._handle = _library.JudgeHandle()
        self._lent = ctypes.byref(self._handle)
        if functions.function("judge_open")(self._lent, text, len(text)) != 0:
            raise MemoryError("memory was refused")
        weakref.finalize(self, functions.function("judge_close"), self._lent).atexit = False
        self._close, self._judge, self._judge_line = map(functions.function, ("judge_close", "judge_call", "judge_line"))
        self._line, self._departure = _library.LineFields(), _library.DepartureFields()
        self._message = ctypes.create_string_buffer(_library.MESSAGE_LIMIT)
        self._set_room(WORDS_ROOM)
        self.calls, self.lines = 0, 0

    def _set_room(self, room: int) -> None:
        """Makes room for words of this length."""
        self._words = ctypes.create_string_buffer(room)
        self._places = ctypes.byref(self._departure), self._message, len(self._message), self._words, room
        self._line_places = ctypes.byref(self._line), *self._places

    def close(self) -> None:
        """Closes the judge. If it is closed, nothing is done."""
        self._within(lambda: self._close(self._lent))

    def __enter__(self) -> "Judge":
        return self

    def __exit__(self, kind: Optional[Type[BaseException]], error: Optional[BaseException],
                 trace: Optional[TracebackType]) -> None:
        self.close()

    def add(self, partition: str, service: str, code: Code, value: AnyValue = None, *, at: int = 0,
            **arguments: Argument) -> Optional[Departure]:
        """Judges a call and the reply that it got, and notes it. Returns None if the reply is the standard's, or else the
        departure, whose line is the number of the call from 1.

        The service has the standard's name, and the arguments have the names of a trace: `id`, `message`, `name`, `size`,
        `depth`, `direction`, `discipline`, `refresh`, `mode`. The value is what comes with NO_ERROR: an identifier, a
        received message, a Sample, or a status. A call that waited is given with the reply that it would have had without
        a time-out: NOT_AVAILABLE in the place of TIMED_OUT. What is no call or no reply of the service raises NoCallError,
        what is of a wrong type TypeError, and nothing is noted."""
        if partition not in self.partitions:
            raise NoCallError(f"there is no partition {partition}")
        called = service_named(service, arguments)
        fields, sent = given_call(called, arguments)
        given = given_reply(called, code, value)
        moment = whole(at, MOMENT_LIMIT, "the moment")
        caller = self._lent, self.partitions.index(partition), moment, ctypes.byref(fields), sent, len(sent)

        def judged() -> Optional[Departure]:
            answer = self._judge(*caller, ctypes.byref(given.fields), given.message, len(given.message), *self._places)
            self._need_call(answer)
            self.calls += 1
            if answer == 0:
                return None
            logged = reply_words(given.code, given.value)
            return Departure(self.calls, moment, partition, called.word, logged, *self._shown(called))

        return self._within(judged)

    @property
    def has_ended(self) -> bool:
        """Whether the last line that was judged ends the calls of its log, by the word `after`."""
        return bool(self._line.kind == CALLS_END)

    def add_line(self, line: Line, *, time_outs: bool = False) -> Optional[Departure]:
        """Judges a line of a log, and notes its call. Returns None if the reply is the standard's, and for a line without
        a call, or else the departure, whose line is the number of the lines so far. With `time_outs` a send or a receive
        whose line says no time-out has one. A line that can't be read raises LogError, and nothing is noted."""
        text = line if type(line) is bytes else bytes_of_line(line)
        refuse_within_a_call()
        try:
            with lock:
                return self._judged(text, time_outs)
        finally:
            end_call()

    def _judged(self, text: bytes, time_outs: bool) -> Optional[Departure]:
        """What a line is judged. The lock is held."""
        answer = self._judge_line(self._lent, text, len(text), time_outs, *self._line_places)
        if answer == _library.FAULTY_LINE and self._departure.words_length > len(self._words):
            self._set_room(self._departure.words_length)
            self._judge_line(self._lent, text, len(text), time_outs, *self._line_places)
        if answer in (_library.NO_MEMORY, _library.NOT_OPEN):
            self._need_call(answer)
        self.lines += 1
        if answer == _library.FAULTY_LINE:
            raise self._faulty()
        if answer == _library.TOO_LONG:
            raise self._too_long(text)
        self.calls += self._line.kind == CALL
        return None if answer == 0 else self._departure_of(text)

    def _faulty(self) -> LogError:
        """Why the last line can't be read. The lock is held."""
        said = self._said()
        words, said = said.split(": ", 1)
        found, expected = said.split("; expected ", 1)
        return LogError(self.lines, self._line.fault, words, self._line.column, found, expected)

    def _too_long(self, text: bytes) -> LogError:
        """Why such a text is no line."""
        end = text.find(b"\n")
        if 0 <= end < len(text) - 1 and end <= LINE_LIMIT:
            return LogError(self.lines, TOO_LONG_LINE, "line too long", end + 1, "a line feed", "the end of the line")
        return LogError(self.lines, TOO_LONG_LINE, "line too long", LINE_LIMIT + 1, f"more than {LINE_LIMIT} bytes",
                        "the end of the line")

    def _departure_of(self, text: bytes) -> Departure:
        """The departure of the last line. The lock is held."""
        asked, _, behind = text.decode("ascii").partition("->")
        moment, partition, word, *_ = asked.split()
        first, *rest = behind.partition("(")[0].split()
        logged = reply_words(Code.NOT_MADE, None) if first == "not" else reply_words(Code[first], value_said(rest))
        expected, row, words = self._shown(SERVICE_OF[word])
        if self._line.wait == INFINITE and row in (Row.QUEUE_FULL, Row.QUEUE_EMPTY):
            expected = "the call would still wait"
        return Departure(self.lines, int(moment), partition, word, logged, expected, row, words)

    def _need_call(self, answer: int) -> None:
        """Raises what the library's answer stands for, if the call wasn't judged."""
        if answer == _library.NO_MEMORY:
            raise MemoryError("memory was refused")
        if answer in NO_CALLS:
            raise NoCallError(NO_CALLS[answer])

    def _shown(self, service: Service) -> Tuple[str, Row, str]:
        """The standard's reply, its row and the words of the row. The lock is held."""
        departure, numbers = self._departure, self._departure.standard
        code = Code(numbers.code)
        message = ctypes.string_at(self._message, departure.message_length)
        value = _value(service, numbers, message) if code is Code.NO_ERROR else None
        return reply_words(code, value), Row(departure.row), self._said()

    def _said(self) -> str:
        """The words that the library gave. The lock is held."""
        return ctypes.string_at(self._words, min(self._departure.words_length, len(self._words))).decode("ascii")

    def _within(self, what: Callable[[], Value]) -> Value:
        """What the library answers between two other calls of it."""
        refuse_within_a_call()
        try:
            with lock:
                return what()
        finally:
            end_call()


def _value(service: Service, numbers: Any, message: bytes) -> AnyValue:
    """What comes with NO_ERROR in the standard's reply."""
    if service.word == "read":
        return Sample(message, Validity(numbers.validity))
    if service.word == "receive":
        return message
    if service.word == "queuing-status":
        return QueuingStatus(numbers.waiting, numbers.depth, numbers.size, Direction(numbers.direction))
    if service.word == "sampling-status":
        return SamplingStatus(numbers.refresh, numbers.size, Direction(numbers.direction), Validity(numbers.validity))
    return int(numbers.id) if "name" in service.arguments else None
