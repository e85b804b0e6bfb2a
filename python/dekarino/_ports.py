"""A partition and its ports: the twelve services. Each call holds the lock of the modules."""
from functools import cached_property
from itertools import repeat
from typing import Iterable, List, NoReturn, Optional, Tuple, Union

from ._codes import Mode
from ._errors import NoCallError
from ._library import MESSAGE_LIMIT, MOMENT_LIMIT, NUMBER_LIMIT, number
from ._readers import ConfiguredPort, named
from ._replies import Asked, IdReply, QueuingStatusReply, ReadReply, ReceiveReply, Reply, SamplingStatusReply
from ._server import Call, Server
from ._services import Places

Message = Union[bytes, bytearray, memoryview]
# The number of calls of a list that are made at once.
AT_ONCE = 64


class _Caller:
    """A caller: a partition, by itself or through a port."""

    def __init__(self, server: Server, index: int, partition: str) -> None:
        self._server, self._index = server, index
        self._who = partition

    def __reduce__(self) -> NoReturn:
        raise TypeError("what belongs to a module can neither be copied nor pickled")

    def _call(self, port: Optional[str], service: str, **numbers: int) -> Call:
        return self._server.call(self._index, Asked(self._who, port, service), **numbers)


class Partition(_Caller):
    """A partition of a module. `at` is the moment of a call in nanoseconds; without it, the call has the module's."""

    def __init__(self, server: Server, index: int, name: str) -> None:
        super().__init__(server, index, name)
        self.name = name

    def __repr__(self) -> str:
        return f"<Partition {self.name}>"

    @property
    def mode(self) -> Mode:
        """The partition's mode."""
        return Mode(self._server.read(lambda: self._server.number("partition_mode", self._index)))

    @property
    def calls(self) -> int:
        """The number of calls of the partition, including those that were not made since it was in IDLE."""
        return self._server.read(lambda: self._server.count("call_count", self._index))

    @property
    def ports(self) -> Tuple[ConfiguredPort, ...]:
        """What the configuration says about the partition's ports, in the order of their identifiers."""
        return self._server.read(lambda: self._server.ports(self._index))

    def port(self, name: str) -> ConfiguredPort:
        """What the configuration says about the port with the name."""
        ports = self.ports
        for it in ports:
            if it.name == name:
                return it
        names = ", ".join(it.name for it in ports) or "none"
        raise NoCallError(f"partition {self.name} has no port {name}; its ports are {names}")

    def create_queuing_port(self, name: str, *, size: int, depth: int, direction: int, discipline: int = 0,
                            at: Optional[int] = None) -> "QueuingPort":
        """CREATE_QUEUING_PORT. Returns the port, or raises ApexError."""
        given = {"size": size, "depth": depth, "direction": direction, "discipline": discipline}
        numbers = {what: number(it, NUMBER_LIMIT, what) for what, it in given.items()}
        return self.queuing_port(self._named("CREATE_QUEUING_PORT", name, at, **numbers).check())

    def create_sampling_port(self, name: str, *, size: int, direction: int, refresh: int,
                             at: Optional[int] = None) -> "SamplingPort":
        """CREATE_SAMPLING_PORT, with the refresh period in nanoseconds. Returns the port, or raises ApexError."""
        numbers = {"size": number(size, NUMBER_LIMIT, "size"),
                   "direction": number(direction, NUMBER_LIMIT, "direction"),
                   "refresh": number(refresh, MOMENT_LIMIT, "refresh")}
        return self.sampling_port(self._named("CREATE_SAMPLING_PORT", name, at, **numbers).check())

    def get_queuing_port_id(self, name: str, *, at: Optional[int] = None) -> IdReply:
        """GET_QUEUING_PORT_ID."""
        return self._named("GET_QUEUING_PORT_ID", name, at)

    def get_sampling_port_id(self, name: str, *, at: Optional[int] = None) -> IdReply:
        """GET_SAMPLING_PORT_ID."""
        return self._named("GET_SAMPLING_PORT_ID", name, at)

    def _named(self, service: str, name: str, at: Optional[int], **numbers: int) -> IdReply:
        """Makes a call with a port's name, which gives its identifier."""
        server, (word, length) = self._server, named(name)
        call = self._call(name, service, **numbers)
        answer, id = server.serve(call, at, word, word, length, *numbers.values(), server.places.number)
        return IdReply(answer, id, call.asked)

    def set_mode(self, mode: int, *, at: Optional[int] = None) -> Reply[None]:
        """SET_PARTITION_MODE."""
        wanted = number(mode, NUMBER_LIMIT, "mode")
        call = self._call(None, "SET_PARTITION_MODE", mode=wanted)
        return Reply(self._server.serve(call, at, b"", wanted)[0], None, call.asked)

    def queuing_port(self, id: int) -> "QueuingPort":
        """The queuing port with an identifier, whether it exists or not. No service is called."""
        return QueuingPort(self._server, self._index, self.name, id)

    def sampling_port(self, id: int) -> "SamplingPort":
        """The sampling port with an identifier, whether it exists or not. No service is called."""
        return SamplingPort(self._server, self._index, self.name, id)


def message_bytes(message: Message) -> bytes:
    """The bytes of a message."""
    try:
        return bytes(memoryview(message))
    except TypeError:
        raise TypeError(f"a message is bytes, bytearray or memoryview, and not {type(message).__name__}") from None


class _Port(_Caller):
    def __init__(self, server: Server, index: int, partition: str, id: int) -> None:
        super().__init__(server, index, partition)
        self.id = number(id, NUMBER_LIMIT, "an identifier")
        self.name = server.read(lambda: server.name("port_name", index, self.id)) or f"number {self.id}"

    def __repr__(self) -> str:
        return f"<{type(self).__name__} {self.name} of partition {self._who}, identifier {self.id}>"

    def _call_of_port(self, service: str) -> Call:
        return self._call(self.name, service, id=self.id)

    def _pass_on(self, call: Call, message: Message, at: Optional[int]) -> Reply[None]:
        """Makes a call that sends a message."""
        sent = message if type(message) is bytes else message_bytes(message)
        answer, _ = self._server.serve(call, at, sent, self.id, sent, len(sent))
        return call.accepted if answer is call.service.accepted else Reply(answer, None, call.asked)

    def _pass_all_on(self, call: Call, messages: Iterable[Message], at: Optional[int]) -> List[Reply[None]]:
        """Makes a call for each message."""
        sent = [it if type(it) is bytes else message_bytes(it) for it in messages]
        replies: List[Reply[None]] = []
        for begin in range(0, len(sent), AT_ONCE):
            some = sent[begin : begin + AT_ONCE]
            served = self._server.serve_all(call, at, some, self._server.places, repeat(self.id), some, map(len, some))
            replies += [call.accepted if answer is call.service.accepted else Reply(answer, None, call.asked)
                        for answer, _ in served]
        return replies


class QueuingPort(_Port):
    """A queuing port of a partition. Every time-out is zero. `at` is the moment of a call in nanoseconds; without it, the
    call has the module's."""

    @cached_property
    def _send(self) -> Call:
        return self._call_of_port("SEND_QUEUING_MESSAGE")

    @cached_property
    def _receive(self) -> Call:
        return self._call_of_port("RECEIVE_QUEUING_MESSAGE")

    @cached_property
    def _clear(self) -> Call:
        return self._call_of_port("CLEAR_QUEUING_PORT")

    @cached_property
    def _status(self) -> Call:
        return self._call_of_port("GET_QUEUING_PORT_STATUS")

    def send(self, message: Message, *, at: Optional[int] = None) -> Reply[None]:
        """SEND_QUEUING_MESSAGE."""
        return self._pass_on(self._send, message, at)

    def send_many(self, messages: Iterable[Message], *, at: Optional[int] = None) -> List[Reply[None]]:
        """SEND_QUEUING_MESSAGE for each of the messages. Returns the replies in the same order."""
        return self._pass_all_on(self._send, messages, at)

    def receive(self, *, at: Optional[int] = None) -> ReceiveReply:
        """RECEIVE_QUEUING_MESSAGE."""
        server, call = self._server, self._receive
        places = server.places
        answer, message = server.serve(call, at, b"", self.id, places.buffer, MESSAGE_LIMIT, places.number)
        return ReceiveReply(answer, message, call.asked)

    def receive_many(self, count: int, *, at: Optional[int] = None) -> List[ReceiveReply]:
        """RECEIVE_QUEUING_MESSAGE, `count` times. Returns the replies in order."""
        call, replies = self._receive, []
        for begin in range(0, number(count, NUMBER_LIMIT, "the count"), AT_ONCE):
            some = min(AT_ONCE, count - begin)
            places = Places(some)
            served = self._server.serve_all(call, at, [b""] * some, places, repeat(self.id), places.messages(),
                                            repeat(MESSAGE_LIMIT), places.each_number())
            replies += [ReceiveReply(answer, message, call.asked) for answer, message in served]
        return replies

    def clear(self, *, at: Optional[int] = None) -> Reply[None]:
        """CLEAR_QUEUING_PORT."""
        return Reply(self._server.serve(self._clear, at, b"", self.id)[0], None, self._clear.asked)

    def status(self, *, at: Optional[int] = None) -> QueuingStatusReply:
        """GET_QUEUING_PORT_STATUS."""
        server, call = self._server, self._status
        answer, status = server.serve(call, at, b"", self.id, server.places.queuing_place)
        return QueuingStatusReply(answer, status, call.asked)


class SamplingPort(_Port):
    """A sampling port of a partition. `at` is the moment of a call in nanoseconds; without it, the call has the
    module's."""

    @cached_property
    def _write(self) -> Call:
        return self._call_of_port("WRITE_SAMPLING_MESSAGE")

    @cached_property
    def _read(self) -> Call:
        return self._call_of_port("READ_SAMPLING_MESSAGE")

    @cached_property
    def _status(self) -> Call:
        return self._call_of_port("GET_SAMPLING_PORT_STATUS")

    def write(self, message: Message, *, at: Optional[int] = None) -> Reply[None]:
        """WRITE_SAMPLING_MESSAGE."""
        return self._pass_on(self._write, message, at)

    def write_many(self, messages: Iterable[Message], *, at: Optional[int] = None) -> List[Reply[None]]:
        """WRITE_SAMPLING_MESSAGE for each of the messages. Returns the replies in the same order."""
        return self._pass_all_on(self._write, messages, at)

    def read(self, *, at: Optional[int] = None) -> ReadReply:
        """READ_SAMPLING_MESSAGE."""
        server, call = self._server, self._read
        places = server.places
        answer, sample = server.serve(call, at, b"", self.id, places.buffer, MESSAGE_LIMIT, places.number, places.other)
        return ReadReply(answer, sample, call.asked)

    def status(self, *, at: Optional[int] = None) -> SamplingStatusReply:
        """GET_SAMPLING_PORT_STATUS."""
        server, call = self._server, self._status
        answer, status = server.serve(call, at, b"", self.id, server.places.sampling_place)
        return SamplingStatusReply(answer, status, call.asked)
