"""A channel of a module."""
from typing import NoReturn, Optional, Tuple

from ._readers import WrittenSample
from ._server import Server


class Channel:
    """A channel: its size in bytes, its depth in messages, and what it has passed on. A sampling channel has depth 0, and
    its counts are 0."""

    def __init__(self, server: Server, index: int, name: str) -> None:
        self._server, self._index, self.name = server, index, name
        it = server.read(lambda: server.channel(index))
        self.is_queuing, self.size, self.depth = bool(it.is_queuing), int(it.size), int(it.depth)

    def __reduce__(self) -> NoReturn:
        raise TypeError("what belongs to a module can neither be copied nor pickled")

    def __repr__(self) -> str:
        kind = f"queuing, size {self.size}, depth {self.depth}" if self.is_queuing else f"sampling, size {self.size}"
        return f"<Channel {self.name}, {kind}>"

    def _count(self, name: str) -> int:
        return self._server.read(lambda: self._server.count(name, self._index))

    @property
    def accepted(self) -> int:
        """The number of messages that the channel accepted."""
        return self._count("accepted_count")

    @property
    def received(self) -> int:
        """The number of messages that were received."""
        return self._count("received_count")

    @property
    def cleared(self) -> int:
        """The number of messages that were cleared."""
        return self._count("cleared_count")

    @property
    def waiting(self) -> int:
        """The number of messages that wait."""
        return self._count("waiting_count")

    @property
    def messages(self) -> Tuple[bytes, ...]:
        """The messages that wait, oldest first."""
        return self._server.read(lambda: self._server.waiting(self._index))

    @property
    def sample(self) -> Optional[WrittenSample]:
        """The sample that a sampling channel holds; None before its first write, and for a queuing channel."""
        return self._server.read(lambda: self._server.sample(self._index))
