"""The shared object: where it is, and those functions of c/apex_ports.h that it exports."""
import ctypes
import functools
import operator
import os
import pathlib
from typing import Any, Callable, Dict, Tuple

from ._errors import LibraryError, NoCallError
from ._found import FOLDER as FOLDER
from ._found import ROOT as ROOT
from ._found import find

MESSAGE_LIMIT = 1024
MOMENT_LIMIT = 2**63 - 1
NUMBER_LIMIT = 2**32 - 1

# What a function can return besides the return codes and NOT_MADE.
NOT_OPEN, NO_PARTITION, TOO_LONG, NO_NAME = 8, 9, 10, 11
NO_MEMORY, DEPARTS, NO_REPLY, FAULTY_LINE = 19, 20, 21, 22
OUT_OF_MEMORY = 11

_handle = ctypes.c_void_p
_u32, _u64, _length, _text = ctypes.c_uint32, ctypes.c_uint64, ctypes.c_size_t, ctypes.c_char_p
_place = ctypes.c_void_p
_caller = (_handle, _u32, _u64)


class Handle(ctypes.Structure):
    """The ports of a module, or none."""

    _fields_ = [("is_open", ctypes.c_bool), ("ports", ctypes.c_void_p)]


class QueuingFields(ctypes.Structure):
    """The status of a queuing port."""

    _fields_ = [("waiting", _u32), ("depth", _u32), ("size", _u32), ("direction", _u32)]


class SamplingFields(ctypes.Structure):
    """The status of a sampling port."""

    _fields_ = [("refresh", _u64), ("size", _u32), ("direction", _u32), ("last_validity", _u32)]


class CallFields(ctypes.Structure):
    """A call that is asked about: its service and its numbers."""

    _fields_ = [("refresh", _u64), ("service", _u32), ("id", _u32), ("size", _u32), ("depth", _u32),
                ("direction", _u32), ("discipline", _u32), ("mode", _u32)]


class JudgeHandle(ctypes.Structure):
    """The judge of a module, or none."""

    _fields_ = [("is_open", ctypes.c_bool), ("judge", ctypes.c_void_p)]


class ReplyFields(ctypes.Structure):
    """A reply that is judged: its code and its numbers."""

    _fields_ = [("refresh", _u64), ("code", _u32), ("id", _u32), ("waiting", _u32), ("depth", _u32), ("size", _u32),
                ("direction", _u32), ("validity", _u32)]


class DepartureFields(ctypes.Structure):
    """The standard's reply to a call that departs."""

    _fields_ = [("words_length", _u64), ("standard", ReplyFields), ("row", _u32), ("message_length", _u32)]


class LineFields(ctypes.Structure):
    """What a line of a log is: its kind, how long its call may wait, and its fault."""

    _fields_ = [("column", _u64), ("kind", _u32), ("wait", _u32), ("fault", _u32)]


class PortFields(ctypes.Structure):
    """What the configuration says about a port."""

    _fields_ = [("refresh", _u64), ("channel", _u32), ("direction", _u32), ("is_queuing", ctypes.c_bool)]


class ChannelFields(ctypes.Structure):
    """What the configuration says about a channel."""

    _fields_ = [("size", _u32), ("depth", _u32), ("is_queuing", ctypes.c_bool)]


# The parameters of each function.
PARAMETERS: Dict[str, Tuple[Any, ...]] = {
    "open_explained": (_handle, _text, _length, _place, _length, _place, _place, _length, _place),
    "close": (_handle,),
    "configuration_mistakes": (_text, _length, _place, _length, _place),
    "create_sampling_port": (*_caller, _text, _length, _u32, _u32, _u64, _place),
    "write_sampling_message": (*_caller, _u32, _text, _length),
    "read_sampling_message": (*_caller, _u32, _place, _length, _place, _place),
    "get_sampling_port_id": (*_caller, _text, _length, _place),
    "get_sampling_port_status": (*_caller, _u32, _place),
    "create_queuing_port": (*_caller, _text, _length, _u32, _u32, _u32, _u32, _place),
    "send_queuing_message": (*_caller, _u32, _text, _length),
    "receive_queuing_message": (*_caller, _u32, _place, _length, _place),
    "get_queuing_port_id": (*_caller, _text, _length, _place),
    "get_queuing_port_status": (*_caller, _u32, _place),
    "clear_queuing_port": (*_caller, _u32),
    "set_partition_mode": (*_caller, _u32),
    "partition_mode": (_handle, _u32, _place),
    "call_count": (_handle, _u32, _place),
    "accepted_count": (_handle, _u32, _place),
    "received_count": (_handle, _u32, _place),
    "cleared_count": (_handle, _u32, _place),
    "waiting_count": (_handle, _u32, _place),
    "last_sample": (_handle, _u32, _place, _length, _place, _place),
    "waiting_message": (_handle, _u32, _u64, _place, _length, _place),
    "partition_count": (_handle, _place),
    "channel_count": (_handle, _place),
    "port_count": (_handle, _u32, _place),
    "port_configuration": (_handle, _u32, _u32, _place),
    "channel_configuration": (_handle, _u32, _place),
    "partition_name": (_handle, _u32, _place, _length, _place),
    "port_name": (_handle, _u32, _u32, _place, _length, _place),
    "channel_name": (_handle, _u32, _place, _length, _place),
    "find_partition": (_handle, _text, _length, _place),
    "find_port": (_handle, _u32, _text, _length, _place),
    "find_channel": (_handle, _text, _length, _place),
    "call_row": (*_caller, _place, _text, _length, _place),
    "call_words": (*_caller, _place, _text, _length, _place, _length, _place),
    "judge_open": (_handle, _text, _length),
    "judge_close": (_handle,),
    "judge_call": (*_caller, _place, _text, _length, _place, _text, _length, _place, _place, _length, _place, _length),
    "judge_line": (_handle, _text, _length, _u32, _place, _place, _place, _length, _place, _length),
}


def find_library() -> pathlib.Path:
    """The path of the shared object: that in DEKARINO_LIBRARY, or else the one that is found."""
    named = os.environ.get("DEKARINO_LIBRARY")
    return pathlib.Path(named) if named else find("libdekarino.so")


class Library:
    """The functions of the shared object, each by its name without `apex_`. Other threads can run during a call."""

    def __init__(self, path: pathlib.Path) -> None:
        try:
            self._loaded = ctypes.CDLL(str(path.absolute()))
            self._functions = {name: self._function(name, _u32) for name in PARAMETERS}
        except (OSError, AttributeError) as error:
            raise LibraryError(f"{path} is no shared object of the C interface: {error}") from error

    def _function(self, name: str, result: Any) -> Any:
        """A new function object for each request."""
        function = self._loaded[f"apex_{name}"]
        function.argtypes, function.restype = PARAMETERS[name], result
        return function

    def function(self, name: str) -> Callable[..., int]:
        """The function with the name."""
        function: Callable[..., int] = self._functions[name]
        return function

    def function_into(self, name: str, answers: bytearray) -> Callable[..., None]:
        """The function with the name, which appends its answer before any other Python code runs."""
        function: Callable[..., None] = self._function(name, answers.append)
        return function


@functools.lru_cache(maxsize=None)
def library() -> Library:
    """The library, which is loaded when it is first needed."""
    return Library(find_library())


def number(value: int, limit: int, what: str) -> int:
    """The number, if it is from 0 to the limit."""
    found = operator.index(value)
    if not 0 <= found <= limit:
        raise NoCallError(f"{what} is {found}; it must be 0 to {limit}")
    return found
