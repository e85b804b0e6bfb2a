"""The replies of services: a code, and its values."""
from typing import Generic, NamedTuple, NoReturn, Optional, Tuple, TypeVar, Union, cast

from ._codes import Code, Direction, Validity
from ._errors import ApexError
from ._rows import Row


class Sample(NamedTuple):
    """The value of a read."""

    message: bytes
    validity: Validity


class QueuingStatus(NamedTuple):
    """The status of a queuing port."""

    waiting: int
    depth: int
    size: int
    direction: Direction


class SamplingStatus(NamedTuple):
    """The status of a sampling port. The refresh period is in nanoseconds."""

    refresh: int
    size: int
    direction: Direction
    last_validity: Validity


# The value with NO_ERROR: none, an identifier, a received message, or one of those above.
AnyValue = Union[None, int, bytes, Sample, QueuingStatus, SamplingStatus]
Value = TypeVar("Value")
Status = TypeVar("Status", QueuingStatus, SamplingStatus)


class Asked(NamedTuple):
    """A caller and the service that it called."""

    partition: str
    port: Optional[str]
    service: str


class Answer(NamedTuple):
    """A service's answer, and why: the code, the row of the reply table that gave it, and the row's words."""

    code: Code
    row: Row
    words: str


def message_word(message: bytes) -> str:
    """A message as in a trace and a report."""
    return message.hex() or "-"


def reply_words(code: Code, value: AnyValue) -> str:
    """A reply as in the program's report."""
    if code is Code.NOT_MADE:
        return "not made"
    if value is None:
        return code.name
    if isinstance(value, int):
        return f"{code.name} id {value}"
    if isinstance(value, bytes):
        return f"{code.name} message {message_word(value)}"
    if isinstance(value, Sample):
        return f"{code.name} message {message_word(value.message)} {value.validity.name}"
    if isinstance(value, QueuingStatus):
        return (f"{code.name} waiting {value.waiting} depth {value.depth} size {value.size} "
                f"{value.direction.name} processes 0")
    return (f"{code.name} refresh {value.refresh} size {value.size} {value.direction.name} "
            f"last {value.last_validity.name}")


class Reply(Generic[Value]):
    """A service's reply. `str` gives it in the words of the program's report. Two replies are equal if they are of the
    same service and have the same code, row, words and value."""

    __slots__ = ("_answer", "value", "_asked")
    value: Optional[Value]

    def __init__(self, answer: Answer, value: Optional[Value], asked: Asked) -> None:
        self._answer = answer
        self.value = value
        self._asked = asked

    @property
    def code(self) -> Code:
        """The return code."""
        return self._answer.code

    @property
    def row(self) -> Row:
        """The row of the reply table that gave the reply."""
        return self._answer.row

    @property
    def words(self) -> str:
        """The words of that row: why the call wasn't made or was refused. They are empty for an accepted call."""
        return self._answer.words

    def check(self) -> Value:
        """The value if the code is NO_ERROR; otherwise raises ApexError."""
        if self.code is not Code.NO_ERROR:
            asked = self._asked
            raise ApexError(self.code, asked.partition, asked.port, asked.service, self.row, self.words)
        return cast(Value, self.value)

    def _compared(self) -> Tuple[str, Answer, Optional[Value]]:
        return self._asked.service, self._answer, self.value

    def __eq__(self, other: object) -> bool:
        if not isinstance(other, Reply):
            return NotImplemented
        return self._compared() == other._compared()

    def __hash__(self) -> int:
        return hash(self._compared())

    def __bool__(self) -> NoReturn:
        raise TypeError("a reply is neither true nor false: ask for its .code, or let .check() raise")

    def __str__(self) -> str:
        return reply_words(self.code, cast(AnyValue, self.value))

    def __repr__(self) -> str:
        return f"<{self._asked.service}: {self}>"


class IdReply(Reply[int]):
    """The reply with a port's identifier."""

    __slots__ = ()

    @property
    def id(self) -> Optional[int]:
        return self.value


class ReceiveReply(Reply[bytes]):
    """The reply to a receive."""

    __slots__ = ()

    @property
    def message(self) -> Optional[bytes]:
        return self.value


class ReadReply(Reply[Sample]):
    """The reply to a read."""

    __slots__ = ()

    @property
    def message(self) -> Optional[bytes]:
        return None if self.value is None else self.value.message

    @property
    def validity(self) -> Optional[Validity]:
        return None if self.value is None else self.value.validity


class StatusReply(Reply[Status]):
    """The common parts of the replies with a port's status."""

    __slots__ = ()

    @property
    def size(self) -> Optional[int]:
        return None if self.value is None else self.value.size

    @property
    def direction(self) -> Optional[Direction]:
        return None if self.value is None else self.value.direction


class QueuingStatusReply(StatusReply[QueuingStatus]):
    """The reply with the status of a queuing port."""

    __slots__ = ()

    @property
    def waiting(self) -> Optional[int]:
        return None if self.value is None else self.value.waiting

    @property
    def depth(self) -> Optional[int]:
        return None if self.value is None else self.value.depth


class SamplingStatusReply(StatusReply[SamplingStatus]):
    """The reply with the status of a sampling port."""

    __slots__ = ()

    @property
    def refresh(self) -> Optional[int]:
        return None if self.value is None else self.value.refresh

    @property
    def last_validity(self) -> Optional[Validity]:
        return None if self.value is None else self.value.last_validity
