"""Opens modules, and finds out why a configuration is refused."""
import ctypes
from typing import Any

from . import _library
from ._errors import FAULTS, ConfigError

# enough bytes for the path of any place, and for the lines of most texts; for longer lines the text is read again
PATH_ROOM, LINES_ROOM = 256, 65536


def open_module(handle: Any, text: bytes) -> None:
    """Opens a handle with the ports of a configuration. Raises ConfigError if it is refused, and says where."""
    path, lines = ctypes.create_string_buffer(PATH_ROOM), ctypes.create_string_buffer(LINES_ROOM)
    path_length, lines_length = ctypes.c_uint64(), ctypes.c_uint64()
    fault = _library.library().function("open_explained")(
        handle, text, len(text), path, PATH_ROOM, ctypes.byref(path_length), lines, LINES_ROOM,
        ctypes.byref(lines_length))
    if fault == 0:
        return
    if fault == _library.OUT_OF_MEMORY:
        raise MemoryError("memory was refused")
    if lines_length.value > LINES_ROOM:
        lines = _all_lines(text, lines_length)
    raise ConfigError(fault, FAULTS[fault - 1], _ascii(path, path_length), tuple(_ascii(lines, lines_length).splitlines()))


def _all_lines(text: bytes, length: ctypes.c_uint64) -> Any:
    """A buffer with the lines, of this length, about a refused text."""
    buffer = ctypes.create_string_buffer(length.value)
    mistakes = _library.library().function("configuration_mistakes")
    if mistakes(text, len(text), buffer, len(buffer), ctypes.byref(length)) == _library.OUT_OF_MEMORY:
        raise MemoryError("memory was refused")
    return buffer


def _ascii(buffer: Any, length: ctypes.c_uint64) -> str:
    return ctypes.string_at(buffer, length.value).decode("ascii")
