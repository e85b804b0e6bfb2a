"""The standard's enumerated types, with its numbers."""
from enum import IntEnum


class Code(IntEnum):
    """The standard's return codes, and NOT_MADE for a call that a partition in IDLE cannot make."""

    NO_ERROR = 0
    NO_ACTION = 1
    NOT_AVAILABLE = 2
    INVALID_PARAM = 3
    INVALID_CONFIG = 4
    INVALID_MODE = 5
    TIMED_OUT = 6
    NOT_MADE = 7


class Mode(IntEnum):
    """A partition's operating mode."""

    IDLE = 0
    COLD_START = 1
    WARM_START = 2
    NORMAL = 3


class Direction(IntEnum):
    """A port's direction."""

    SOURCE = 0
    DESTINATION = 1


class Discipline(IntEnum):
    """A queuing port's discipline, which has no effect here: no process waits."""

    FIFO = 0
    PRIORITY = 1


class Validity(IntEnum):
    """Whether a sample that was read is within the port's refresh period."""

    INVALID = 0
    VALID = 1
