"""The exceptions that the package raises."""
from typing import Optional, Tuple

from ._codes import Code
from ._rows import Row

# The words for a configuration's faults, from number 1.
FAULTS = ("not TOML", "shape", "name", "name twice", "number out of range", "unknown channel",
          "kind of port and channel differ", "not exactly one source", "destinations", "count out of limits")


class ApexError(Exception):
    """A service returned a code other than NO_ERROR. The row of the reply table says why."""

    def __init__(self, code: Code, partition: str, port: Optional[str], service: str, row: Row, words: str) -> None:
        super().__init__(code, partition, port, service, row, words)
        self.code = code
        self.partition = partition
        self.port = port
        self.service = service
        self.row = row
        self.words = words

    def __str__(self) -> str:
        port = "" if self.port is None else f", port {self.port}"
        return f"partition {self.partition}{port}: {self.service} answered {self.code.name} ({self.words})"


class NoCallError(ValueError):
    """The arguments make no call of the standard: no service was called, and nothing changed."""


class ConfigError(ValueError):
    """The configuration was refused, for a fault with its number. If a module was to be opened, `place` is the path of
    the fault's first place, and `lines` has a line for each place: what holds it, what is wrong, and what must be there.
    There are lines for at most 20 places, and then one with the number of the others."""

    def __init__(self, number: int, words: str, place: Optional[str] = None, lines: Tuple[str, ...] = ()) -> None:
        super().__init__(number, words, place, lines)
        self.number = number
        self.words = words
        self.place = place
        self.lines = lines

    def __str__(self) -> str:
        place = "" if self.place is None else f" at {self.place}"
        return "\n".join([f"config fault {self.number}: {self.words}{place}", *self.lines])


class _FaultyLine(ValueError):
    """A text of lines was refused, for a fault with its number, at a line."""

    # What kind of text it is.
    _text = ""

    def __init__(self, line: int, number: int, words: str) -> None:
        super().__init__(line, number, words)
        self.line = line
        self.number = number
        self.words = words

    def __str__(self) -> str:
        return f"{self._text} line {self.line} fault {self.number}: {self.words}"


class TraceError(_FaultyLine):
    """A trace was refused, for a fault with its number, at a line."""

    _text = "trace"


class LogError(_FaultyLine):
    """A recorded log was refused, by a fault with its number, at a line. `column` is that of the fault, from 1 and in
    bytes, `found` is the word there in quotes, or says what is missing, and `expected` is what must be there, with a hint
    if there is one. A log that the program judges has none of the three."""

    _text = "log"

    def __init__(self, line: int, number: int, words: str, column: Optional[int] = None, found: Optional[str] = None,
                 expected: Optional[str] = None) -> None:
        super().__init__(line, number, words)
        self.args += (column, found, expected)
        self.column = column
        self.found = found
        self.expected = expected

    def __str__(self) -> str:
        if self.column is None:
            return super().__str__()
        return f"{super().__str__()}, column {self.column}: {self.found}; expected {self.expected}"


class LibraryError(OSError):
    """The shared object or the program is missing, or is another file than expected."""


class ProgramError(OSError):
    """The program could not do what it was asked to do."""
