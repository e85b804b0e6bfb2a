"""What a module has: its names, its configuration, and the state of its partitions and channels."""
import ctypes
from typing import Any, Iterator, NamedTuple, Optional, Tuple

from . import _library
from ._codes import Direction, Mode
from ._errors import NoCallError
from ._replies import message_word
from ._services import Places


class ConfiguredPort(NamedTuple):
    """What the configuration says about a port. The refresh period is in nanoseconds, and 0 for a queuing port."""

    id: int
    name: str
    is_queuing: bool
    direction: Direction
    channel: str
    refresh: int


class WrittenSample(NamedTuple):
    """The message that a sampling channel holds, and the moment it was written."""

    message: bytes
    at: int


def named(name: str) -> Tuple[bytes, int]:
    """A name and its length, as C takes them. A name that isn't ASCII is none there."""
    word = name.encode("ascii", "replace")
    return word, len(word)


class Readers:
    """The readers of an open module. Whoever calls one holds the lock."""

    def __init__(self) -> None:
        self.functions = _library.library()
        self.handle = _library.Handle()
        self.lent = ctypes.byref(self.handle)
        self.places = Places()
        self._count = ctypes.c_uint64()
        self.count_place = ctypes.byref(self._count)

    def ask(self, reader: str, *arguments: Any) -> int:
        """The answer of a reader."""
        answer = self.functions.function(reader)(self.lent, *arguments)
        if answer == _library.NOT_OPEN:
            raise NoCallError("the module is closed")
        return answer

    def number(self, reader: str, *asked: int) -> int:
        """A number that the module has."""
        self.ask(reader, *asked, self.places.number)
        return int(self.places.numbers[0])

    def count(self, reader: str, *asked: int) -> int:
        """A count of calls or of messages."""
        self.ask(reader, *asked, self.count_place)
        return self._count.value

    def message(self, reader: str, *asked: int) -> bytes:
        """A name or a message that the module has; no bytes if it doesn't have it."""
        answer = self.ask(reader, *asked, self.places.buffer, _library.MESSAGE_LIMIT, self.places.number)
        return b"" if answer else self.places.message(0)

    def name(self, reader: str, *asked: int) -> str:
        """A name; empty if the module doesn't have it."""
        return self.message(reader, *asked).decode("ascii")

    def names(self, kind: str) -> Tuple[str, ...]:
        """The names of all partitions, or of all channels."""
        return tuple(self.name(f"{kind}_name", it) for it in range(self.number(f"{kind}_count")))

    def find(self, kind: str, name: str) -> int:
        """The number of the partition or of the channel with the name."""
        if self.ask(f"find_{kind}", *named(name), self.places.number) == 0:
            return int(self.places.numbers[0])
        names = ", ".join(self.names(kind)) or "none"
        raise NoCallError(f"there is no {kind} {name}; the {kind}s are {names}")

    def port(self, partition: int, id: int) -> ConfiguredPort:
        """What the configuration says about a port that exists."""
        it = _library.PortFields()
        self.ask("port_configuration", partition, id, ctypes.byref(it))
        return ConfiguredPort(id, self.name("port_name", partition, id), it.is_queuing, Direction(it.direction),
                              self.name("channel_name", it.channel), it.refresh)

    def ports(self, partition: int) -> Tuple[ConfiguredPort, ...]:
        """What the configuration says about a partition's ports."""
        return tuple(self.port(partition, id) for id in range(1, self.number("port_count", partition) + 1))

    def channel(self, channel: int) -> _library.ChannelFields:
        """What the configuration says about a channel."""
        it = _library.ChannelFields()
        self.ask("channel_configuration", channel, ctypes.byref(it))
        return it

    def waiting(self, channel: int) -> Tuple[bytes, ...]:
        """The messages that wait on a channel, oldest first."""
        count = self.count("waiting_count", channel)
        return tuple(self.message("waiting_message", channel, it) for it in range(count))

    def sample(self, channel: int) -> Optional[WrittenSample]:
        """The sample that a sampling channel holds."""
        answer = self.ask("last_sample", channel, self.places.buffer, _library.MESSAGE_LIMIT, self.places.number,
                          self.count_place)
        return None if answer else WrittenSample(self.places.message(0), self._count.value)

    def state_lines(self) -> Iterator[str]:
        """The lines of the partitions and of the channels in a report."""
        yield from map(self._partition_line, range(self.number("partition_count")))
        yield from map(self._channel_line, range(self.number("channel_count")))

    def _partition_line(self, partition: int) -> str:
        mode = Mode(self.number("partition_mode", partition)).name
        calls = self.count("call_count", partition)
        return f"partition {self.name('partition_name', partition)} mode {mode} calls {calls}"

    def _channel_line(self, channel: int) -> str:
        name = self.name("channel_name", channel)
        if not self.channel(channel).is_queuing:
            sample = self.sample(channel)
            held = "empty" if sample is None else f"{message_word(sample.message)} at {sample.at}"
            return f"sampling {name} {held}"
        accepted, received, cleared = (
            self.count(f"{it}_count", channel) for it in ("accepted", "received", "cleared"))
        waiting = self.waiting(channel)
        words = [f"queuing {name} accepted {accepted} received {received}",
                 *([f"cleared {cleared}"] if cleared else []), f"waiting {len(waiting)}", *map(message_word, waiting)]
        return " ".join(words)
