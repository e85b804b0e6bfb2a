"""Serves the calls of a module: with the lock, by the library. Each call is noted, and each refusal with its reason."""
import ctypes
import weakref
from collections import deque
from itertools import repeat
from typing import Any, Callable, Deque, Dict, Iterable, List, NamedTuple, Optional, Sequence, Tuple, TypeVar

from . import _library
from ._calls import Calls
from ._codes import Code
from ._errors import NoCallError
from ._faults import open_module
from ._library import MOMENT_LIMIT, number
from ._lock import end_call, is_held, later, lock, refuse_within_a_call
from ._readers import Readers
from ._replies import Answer, AnyValue, Asked, Reply, message_word, reply_words
from ._rows import Row
from ._services import NOTHING, SERVICES, Places, Service

CODES, ROWS = tuple(Code), tuple(Row)
# The number of the last calls that are kept with their words.
LAST = 20
# Why the library returns that there is no such call.
NO_CALLS = {_library.NOT_OPEN: "the module is closed", _library.NO_PARTITION: "there is no such partition",
            _library.NO_NAME: "a name has 1 to 30 ASCII letters, digits and `_`"}
Value = TypeVar("Value")


class Call(NamedTuple):
    """A call that a partition can make repeatedly: its names, its numbers, the library's function, and the reply if it is
    accepted and gives no value. `asker` is a number for the partition and the service together."""

    asked: Asked
    service: Service
    partition: int
    asker: int
    fields: _library.CallFields
    function: Callable[..., None]
    accepted: Reply[None]


# Calls that are made at once: their moment, what each sends, the places, and the number of calls noted before.
Made = Tuple[Call, int, Sequence[bytes], Places, int]
# The answer of the service and its value.
Served = Tuple[Answer, Any]
# A noted call: what all calls made at once sent, its index among them, the call, the moment, the answer, and the value.
Noted = Tuple[Sequence[bytes], int, Call, int, Answer, AnyValue]


class Server(Readers):
    """Serves the calls of a module's partitions, and reads the module. It closes when nothing refers to it any more."""

    def __init__(self, text: bytes, is_kept: bool) -> None:
        super().__init__()
        open_module(self.lent, text)
        weakref.finalize(self, self.functions.function("close"), self.lent).atexit = False
        self.moment = 0
        self.calls = Calls(is_kept)
        self._services: Dict[str, Callable[..., None]] = {}
        self._call_row, self._call_words = map(self.functions.function, ("call_row", "call_words"))
        self._made: Made
        self._last: Deque[Noted] = deque(maxlen=LAST)
        self._end: List[str] = []
        self.partitions = self.read(lambda: self.names("partition"))

    @property
    def closed(self) -> bool:
        """Whether the module is closed."""
        return not self.handle.is_open

    def need_open(self) -> None:
        """Raises NoCallError if the module is closed."""
        if self.closed:
            raise NoCallError(NO_CALLS[_library.NOT_OPEN])

    def close(self) -> None:
        """Closes the module; if it is within a call, when the call ends."""
        if is_held():
            later.append(self.close)
            return
        self.read(self._close)

    def _close(self) -> None:
        if not self.closed:
            self._end = [*self.state_lines()] if self.calls.is_kept else []
            self.functions.function("close")(self.lent)

    def read(self, what: Callable[[], Value]) -> Value:
        """Reads the module between two calls."""
        refuse_within_a_call()
        try:
            with lock:
                if len(self.calls.answers) != len(self.calls.ends):
                    self._note_rest()
                given = what()
            return given
        finally:
            end_call()

    def report_lines(self) -> List[str]:
        """The lines of the report. The lock is held."""
        return [*self.calls.lines(self.partitions), *(self._end if self.closed else self.state_lines())]

    def call(self, partition: int, asked: Asked, **numbers: int) -> Call:
        """A call that a partition can make."""
        service = SERVICES[asked.service]
        function = self._services.get(service.name)
        if function is None:
            function = self.functions.function_into(service.name.lower(), self.calls.answers)
            self._services[service.name] = function
        fields = _library.CallFields(service=service.number, **numbers)
        return Call(asked, service, partition, partition * len(SERVICES) + service.number, fields, function,
                    Reply(service.accepted, None, asked))

    def serve(self, call: Call, at: Optional[int], sent: bytes, *arguments: Any) -> Served:
        """Makes a call that sends a message or a name, with the arguments after the moment."""
        if is_held():
            refuse_within_a_call()
        try:
            with lock:
                calls = self.calls
                noted = len(calls.ends)
                if len(calls.answers) != noted:
                    noted = self._note_rest()
                moment = self.moment if at is None else number(at, MOMENT_LIMIT, "the moment")
                self._made = call, moment, (sent,), self.places, noted
                call.function(self.lent, call.partition, moment, *arguments)
                served = self._note(0)
            return served
        finally:
            if later or is_held():
                end_call()

    def serve_all(self, call: Call, at: Optional[int], sent: Sequence[bytes], places: Places,
                  *arguments: Iterable[Any]) -> List[Served]:
        """Makes a call for each thing that is sent, with the call's arguments after the moment."""
        def serve() -> List[Served]:
            self.need_open()
            moment = self.moment if at is None else number(at, MOMENT_LIMIT, "the moment")
            self._made = call, moment, sent, places, len(self.calls.ends)
            # (all of them are made before any other Python code runs)
            deque(map(call.function, repeat(self.lent), repeat(call.partition), repeat(moment), *arguments), maxlen=0)
            return self._note_all(len(sent))
        return self.read(serve)

    def _note(self, index: int) -> Served:
        """Notes the first call that isn't noted yet: the one with the index among those that were made at once."""
        call, moment, sent, places, _ = self._made
        calls, given = self.calls, call.service.given
        code, value, packed = calls.answers[len(calls.ends)], None, b""
        if code == 0:
            answer = call.service.accepted
            if given is not NOTHING:
                value = given.take(places, index)
                packed = given.pack(value)
        elif code < len(CODES):
            answer = self._why(call, moment, CODES[code], sent[index])
        else:
            calls.drop()
            raise NoCallError(NO_CALLS[code])
        self._last.append((sent, index, call, moment, answer, value))
        calls.note(moment, call.asker, packed)
        return answer, value

    def _note_all(self, count: int) -> List[Served]:
        """Notes the calls that were made at once."""
        call, moment, sent, places, _ = self._made
        calls, given, answer = self.calls, call.service.given, call.service.accepted
        if any(calls.answers[len(calls.ends) :]):
            return [*map(self._note, range(count))]
        values: Sequence[AnyValue] = [None] * count
        if given is not NOTHING:
            values = [given.take(places, index) for index in range(count)]
        self._last.extend((sent, index, call, moment, answer, values[index])
                          for index in range(max(0, count - LAST), count))
        calls.note_all(moment, call.asker, [b""] * count if given is NOTHING else [*map(given.pack, values)])
        return [*zip(repeat(answer), values)]

    def _note_rest(self) -> int:
        """Notes the calls that were made and aren't noted yet since an interrupt came first. Returns the number of noted
        calls."""
        calls = self.calls
        calls.take_back()
        while len(calls.answers) != len(calls.ends):
            index = len(calls.ends) - self._made[-1]
            if self._last and self._last[-1][0] is self._made[2] and self._last[-1][1] == index:
                self._last.pop()
            try:
                self._note(index)
            except NoCallError:
                pass
        return len(calls.ends)

    def _why(self, call: Call, moment: int, code: Code, sent: bytes) -> Answer:
        """Why a call was refused. This can be asked after the call as well as before it."""
        asked = self.lent, call.partition, moment, ctypes.byref(call.fields), sent, len(sent)
        buffer = self.places.buffer
        self._call_row(*asked, self.places.number)
        answer = self._call_words(*asked, buffer, _library.MESSAGE_LIMIT, self.count_place)
        # (there are no words if memory ran out)
        words = ctypes.string_at(buffer, self._count.value).decode("ascii") if answer == 0 else ""
        return Answer(code, ROWS[self.places.numbers[0]], words)

    def last_calls(self) -> Tuple[str, ...]:
        """The last calls with their replies, as `dekarino explain` prints them."""
        return tuple(_line(*it) for it in tuple(self._last))


def _line(sent: Sequence[bytes], index: int, call: Call, moment: int, answer: Answer, value: AnyValue) -> str:
    """The line of a call, with its words after the service as `arguments` names them."""
    words = [str(moment), call.asked.partition, call.service.word]
    for it in call.service.arguments:
        words.append(sent[index].decode("ascii") if it == "name" else
                     message_word(sent[index]) if it == "message" else str(getattr(call.fields, it)))
    why = f" ({answer.words})" if answer.words else ""
    return f"{' '.join(words)} -> {reply_words(answer.code, value)}{why}"
