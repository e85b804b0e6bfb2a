"""A text: a configuration, a trace or a log, given as bytes or as the path of its file."""
import os
from typing import Union

# A text, or the path of its file.
Text = Union[str, "os.PathLike[str]", bytes, bytearray, memoryview]
# A line of a text.
Line = Union[str, bytes, bytearray, memoryview]


def path_of(text: Union[str, "os.PathLike[str]"]) -> str:
    """The path of a file. A text given as `str` is refused."""
    path = os.fspath(text)
    if "\n" in path or "\r" in path or ("=" in path and not os.path.exists(path)):
        start = path if len(path) <= 40 else f"{path[:40]}.."
        raise ValueError(f"{start!r} is a text and not the path of a file: give a text as bytes, by .encode()")
    return path


def bytes_of(text: Text) -> bytes:
    """The bytes of a text."""
    if isinstance(text, (bytes, bytearray, memoryview)):
        return bytes(text)
    with open(path_of(text), "rb") as file:
        return file.read()


def bytes_of_line(line: Line) -> bytes:
    """The bytes of a line."""
    if isinstance(line, str):
        return line.encode("utf-8", "surrogateescape")
    if isinstance(line, (bytes, bytearray, memoryview)):
        return bytes(line)
    raise TypeError(f"a line is str, bytes, bytearray or memoryview, and not {type(line).__name__}")
