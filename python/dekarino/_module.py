"""A module: its partitions, its channels, and the report of its calls."""
from types import TracebackType
from typing import NoReturn, Optional, Tuple, Type

from ._channel import Channel
from ._errors import NoCallError
from ._library import MOMENT_LIMIT, number
from ._ports import Partition
from ._server import Server
from ._texts import Text, bytes_of


class Module:
    """The ports of a module. Its configuration is the path of a file, or its text as bytes. Any thread may call; one call
    is served at a time. The module has a report only if it keeps its calls."""

    def __init__(self, config: Text, *, keep_calls: bool = True) -> None:
        self._server = Server(bytes_of(config), keep_calls)

    @classmethod
    def open(cls, config: Text, *, keep_calls: bool = True) -> "Module":
        """Opens a module with a configuration."""
        return cls(config, keep_calls=keep_calls)

    def close(self) -> None:
        """Closes the module. If it is already closed, nothing happens. If a `__del__` or a signal handler calls this during
        a call of the module, the module is closed when that call ends."""
        self._server.close()

    def __enter__(self) -> "Module":
        return self

    def __exit__(self, kind: Optional[Type[BaseException]], error: Optional[BaseException],
                 trace: Optional[TracebackType]) -> None:
        self.close()

    def __reduce__(self) -> NoReturn:
        raise TypeError("a module can neither be copied nor pickled")

    def __repr__(self) -> str:
        return f"<Module of {', '.join(self._server.partitions)}{', closed' if self.closed else ''}>"

    @property
    def closed(self) -> bool:
        """Whether the module is closed."""
        return self._server.closed

    def at(self, moment: int) -> None:
        """Sets the moment, in nanoseconds, of all later calls that have none of their own. It is 0 at first."""
        self._server.need_open()
        self._server.moment = number(moment, MOMENT_LIMIT, "the moment")

    @property
    def partitions(self) -> Tuple[str, ...]:
        """The names of the partitions, in the order of the configuration."""
        self._server.need_open()
        return self._server.partitions

    @property
    def channels(self) -> Tuple[str, ...]:
        """The names of the channels, in the order of the configuration."""
        return self._server.read(lambda: self._server.names("channel"))

    def partition(self, name: str) -> Partition:
        """The partition with the name."""
        return Partition(self._server, self._server.read(lambda: self._server.find("partition", name)), name)

    def channel(self, name: str) -> Channel:
        """The channel with the name."""
        return Channel(self._server, self._server.read(lambda: self._server.find("channel", name)), name)

    def report(self) -> str:
        """The report of the calls so far, as the program `apexports` prints it; for a closed module, of all calls."""
        if not self._server.calls.is_kept:
            raise NoCallError("the module keeps no calls, as keep_calls=False asks, and so it has no report")
        return "".join(f"{line}\n" for line in self._server.read(self._server.report_lines))

    @property
    def last_calls(self) -> Tuple[str, ...]:
        """The last calls, at most 20, each as in a trace, with its reply and, if it was refused, the words of the row:
        the lines of `dekarino explain`."""
        return self._server.last_calls()
