"""The twelve services: their words in a trace, and how the values that they give are read, packed and unpacked."""
import ctypes
import struct
from typing import Any, Callable, Dict, Iterable, NamedTuple, Tuple

from ._codes import Code, Direction, Validity
from ._library import MESSAGE_LIMIT, QueuingFields, SamplingFields
from ._replies import Answer, AnyValue, QueuingStatus, Sample, SamplingStatus
from ._rows import ACCEPTED, SERVICE_NUMBERS


class Places:
    """Where the library writes what calls give: a message and a number for each call, and one status."""

    def __init__(self, calls: int = 1) -> None:
        self.buffer = ctypes.create_string_buffer(MESSAGE_LIMIT * calls)
        self.numbers, self.others = (ctypes.c_uint32 * calls)(), (ctypes.c_uint32 * calls)()
        self.queuing, self.sampling = QueuingFields(), SamplingFields()
        self._view = memoryview(self.buffer).cast("B")
        self.number, self.other = ctypes.byref(self.numbers), ctypes.byref(self.others)
        self.queuing_place, self.sampling_place = ctypes.byref(self.queuing), ctypes.byref(self.sampling)

    def messages(self) -> Iterable[int]:
        """The addresses of the messages."""
        return _addresses(self.buffer, MESSAGE_LIMIT)

    def each_number(self) -> Iterable[int]:
        """The addresses of the numbers."""
        return _addresses(self.numbers, ctypes.sizeof(ctypes.c_uint32))

    def message(self, index: int) -> bytes:
        """The message from a call."""
        begin = MESSAGE_LIMIT * index
        return self._view[begin : begin + self.numbers[index]].tobytes()


def _addresses(parts: Any, size: int) -> Iterable[int]:
    """The addresses of parts of the size."""
    begin = ctypes.addressof(parts)
    return range(begin, begin + ctypes.sizeof(parts), size)


class Given(NamedTuple):
    """The value that a service gives with NO_ERROR: how it is read from the places by the number of the call, packed,
    and unpacked."""

    take: Callable[[Places, int], AnyValue]
    pack: Callable[[Any], bytes]
    unpack: Callable[[bytes], AnyValue]


def _take_queuing(places: Places, index: int) -> QueuingStatus:
    it = places.queuing
    return QueuingStatus(it.waiting, it.depth, it.size, Direction(it.direction))


def _take_sampling(places: Places, index: int) -> SamplingStatus:
    it = places.sampling
    return SamplingStatus(it.refresh, it.size, Direction(it.direction), Validity(it.last_validity))


def _unpack_queuing(packed: bytes) -> QueuingStatus:
    waiting, depth, size, direction = _QUEUING.unpack(packed)
    return QueuingStatus(waiting, depth, size, Direction(direction))


def _unpack_sampling(packed: bytes) -> SamplingStatus:
    refresh, size, direction, validity = _SAMPLING.unpack(packed)
    return SamplingStatus(refresh, size, Direction(direction), Validity(validity))


_QUEUING, _SAMPLING = struct.Struct("<4I"), struct.Struct("<QIII")
NOTHING = Given(lambda places, index: None, lambda value: b"", lambda packed: None)
_NUMBER = Given(lambda places, index: int(places.numbers[index]), lambda value: bytes(value.to_bytes(4, "little")),
                lambda packed: int.from_bytes(packed, "little"))
_MESSAGE = Given(Places.message, bytes, bytes)
_SAMPLE = Given(lambda places, index: Sample(places.message(index), Validity(places.others[index])),
                lambda value: bytes(value.message) + bytes([value.validity]),
                lambda packed: Sample(packed[:-1], Validity(packed[-1])))
_QUEUING_STATUS = Given(_take_queuing, lambda value: _QUEUING.pack(*value), _unpack_queuing)
_SAMPLING_STATUS = Given(_take_sampling, lambda value: _SAMPLING.pack(*value), _unpack_sampling)


class Service(NamedTuple):
    """A service: its name and number, its word in a trace and the words after it, its value, and the answer to an accepted
    call."""

    name: str
    number: int
    word: str
    arguments: Tuple[str, ...]
    given: Given
    accepted: Answer


def _service(name: str, word: str, arguments: str, given: Given) -> Service:
    accepted = Answer(Code.NO_ERROR, ACCEPTED[name], "")
    return Service(name, SERVICE_NUMBERS[name], word, tuple(arguments.split()), given, accepted)


_ALL = [
    _service("CREATE_SAMPLING_PORT", "create-sampling", "name size direction refresh", _NUMBER),
    _service("WRITE_SAMPLING_MESSAGE", "write", "id message", NOTHING),
    _service("READ_SAMPLING_MESSAGE", "read", "id", _SAMPLE),
    _service("GET_SAMPLING_PORT_ID", "sampling-id", "name", _NUMBER),
    _service("GET_SAMPLING_PORT_STATUS", "sampling-status", "id", _SAMPLING_STATUS),
    _service("CREATE_QUEUING_PORT", "create-queuing", "name size depth direction discipline", _NUMBER),
    _service("SEND_QUEUING_MESSAGE", "send", "id message", NOTHING),
    _service("RECEIVE_QUEUING_MESSAGE", "receive", "id", _MESSAGE),
    _service("GET_QUEUING_PORT_ID", "queuing-id", "name", _NUMBER),
    _service("GET_QUEUING_PORT_STATUS", "queuing-status", "id", _QUEUING_STATUS),
    _service("CLEAR_QUEUING_PORT", "clear", "id", NOTHING),
    _service("SET_PARTITION_MODE", "mode", "mode", NOTHING),
]
# By their names, in the order of their numbers.
SERVICES: Dict[str, Service] = {it.name: it for it in _ALL}
