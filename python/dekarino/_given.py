"""Checks what is given to a judge before the library is called: a call with its arguments, and a reply. A wrong type
raises TypeError. What isn't a call, or isn't a reply of the service, raises NoCallError."""
from enum import IntEnum
from typing import Any, Dict, Mapping, NamedTuple, Tuple, Type, TypeVar, Union

from . import _library
from ._codes import Code, Direction, Validity
from ._errors import NoCallError
from ._library import NUMBER_LIMIT, number
from ._ports import Message, message_bytes
from ._replies import AnyValue, QueuingStatus, Sample, SamplingStatus
from ._services import SERVICES, Service

REFRESH_LIMIT = 2**64 - 1
Argument = Union[int, str, Message]
Kind = TypeVar("Kind", bound=IntEnum)
# The data with NO_ERROR, by the word of the service; other services with a name give an identifier.
GIVEN = {"read": "a Sample", "receive": "a message", "queuing-status": "a QueuingStatus",
         "sampling-status": "a SamplingStatus"}


class GivenCall(NamedTuple):
    """A call as the library takes it: its service, its numbers, and its name or its message."""

    fields: _library.CallFields
    sent: bytes


class GivenReply(NamedTuple):
    """A reply, and how the library takes it: its numbers, and its message."""

    code: Code
    value: AnyValue
    fields: _library.ReplyFields
    message: bytes


def service_named(name: str, arguments: Mapping[str, Argument]) -> Service:
    """The service of this name, which takes these arguments."""
    service = SERVICES.get(name)
    if service is None:
        raise NoCallError(f"there is no service {name}")
    if set(service.arguments) != set(arguments):
        raise NoCallError(f"{name} takes {', '.join(service.arguments)}, and not {', '.join(arguments) or 'nothing'}")
    return service


def given_call(service: Service, arguments: Mapping[str, Argument]) -> GivenCall:
    """A call of the service."""
    numbers: Dict[str, int] = {}
    sent = b""
    for name, argument in arguments.items():
        if name == "name":
            sent = _name(argument)
        elif name == "message":
            sent = _message(argument)
        else:
            numbers[name] = whole(argument, REFRESH_LIMIT if name == "refresh" else NUMBER_LIMIT, name)
    return GivenCall(_library.CallFields(service=service.number, **numbers), sent)


def given_reply(service: Service, code: Any, value: Any) -> GivenReply:
    """A reply of the service."""
    given = _one_of(Code, code, "the code")
    if given is Code.NO_ERROR:
        value, fields, message = _accepted(service, value)
        return GivenReply(given, value, _library.ReplyFields(code=given, **fields), message)
    if value is not None:
        raise NoCallError(f"{service.name} gives no value with {given.name}")
    return GivenReply(given, None, _library.ReplyFields(code=given), b"")


def whole(value: Any, limit: int, what: str) -> int:
    """The number, if it is from 0 to the limit. A truth value is not a number."""
    if isinstance(value, bool):
        raise TypeError(f"{what} is a whole number, and not bool")
    return number(value, limit, what)


def _accepted(service: Service, value: Any) -> Tuple[AnyValue, Dict[str, int], bytes]:
    """The data with NO_ERROR: numbers, and a message."""
    word, is_named = service.word, "name" in service.arguments
    if word == "read" and isinstance(value, Sample):
        sample = Sample(_message(value.message), _one_of(Validity, value.validity, "the validity"))
        return sample, {"validity": sample.validity}, sample.message
    if word == "receive" and isinstance(value, (bytes, bytearray, memoryview)):
        message = _message(value)
        return message, {}, message
    if word == "queuing-status" and isinstance(value, QueuingStatus):
        queuing = _queuing_status(value)
        return queuing, queuing._asdict(), b""
    if word == "sampling-status" and isinstance(value, SamplingStatus):
        sampling = _sampling_status(value)
        numbers = {"refresh": sampling.refresh, "size": sampling.size, "direction": sampling.direction}
        return sampling, {**numbers, "validity": sampling.last_validity}, b""
    if is_named and hasattr(value, "__index__"):
        id = whole(value, NUMBER_LIMIT, "the identifier")
        return id, {"id": id}, b""
    given = GIVEN.get(word, "an identifier" if is_named else "no value")
    if given == "no value" and value is None:
        return None, {}, b""
    raise NoCallError(f"{service.name} gives {given} with NO_ERROR, and not {type(value).__name__}")


def _queuing_status(status: QueuingStatus) -> QueuingStatus:
    return QueuingStatus(whole(status.waiting, NUMBER_LIMIT, "waiting"), whole(status.depth, NUMBER_LIMIT, "depth"),
                         whole(status.size, NUMBER_LIMIT, "size"),
                         _one_of(Direction, status.direction, "the direction"))


def _sampling_status(status: SamplingStatus) -> SamplingStatus:
    return SamplingStatus(whole(status.refresh, REFRESH_LIMIT, "refresh"), whole(status.size, NUMBER_LIMIT, "size"),
                          _one_of(Direction, status.direction, "the direction"),
                          _one_of(Validity, status.last_validity, "the last validity"))


def _one_of(kind: Type[Kind], value: Any, what: str) -> Kind:
    """The member with this number."""
    found = whole(value, NUMBER_LIMIT, what)
    try:
        return kind(found)
    except ValueError:
        raise NoCallError(f"{what} is {found}, which is no {kind.__name__}") from None


def _name(name: Any) -> bytes:
    """A name. The library takes no name that isn't ASCII."""
    if isinstance(name, str):
        return name.encode("ascii", "replace")
    if isinstance(name, bytes):
        return name
    raise TypeError(f"a name is str or bytes, and not {type(name).__name__}")


def _message(message: Any) -> bytes:
    """The bytes of a message, which has one of the three types."""
    if not isinstance(message, (bytes, bytearray, memoryview)):
        raise TypeError(f"a message is bytes, bytearray or memoryview, and not {type(message).__name__}")
    return message_bytes(message)
