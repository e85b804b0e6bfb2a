"""The rows of the reply table: why a service gives its reply."""
from enum import IntEnum
from typing import Dict


class Row(IntEnum):
    """The rows, with the numbers of c/apex_ports.h: a call that isn't made, the checks that refuse a call, and, from
    CREATED on, the accepted calls."""

    IN_IDLE = 0
    NOT_CONFIGURED = 1
    ALREADY_CREATED = 2
    SIZE_DIFFERS = 3
    DEPTH_DIFFERS = 4
    DIRECTION_DIFFERS = 5
    REFRESH_PERIOD_DIFFERS = 6
    UNKNOWN_DISCIPLINE = 7
    IN_NORMAL = 8
    NOT_CREATED = 9
    NO_SUCH_PORT = 10
    EMPTY_MESSAGE = 11
    MESSAGE_TOO_LONG = 12
    NOT_A_SOURCE = 13
    NOT_A_DESTINATION = 14
    QUEUE_FULL = 15
    QUEUE_EMPTY = 16
    NEVER_WRITTEN = 17
    UNKNOWN_MODE = 18
    ALREADY_IN_NORMAL = 19
    WARM_START_IN_COLD_START = 20
    CREATED = 21
    IDENTIFIED = 22
    SENT = 23
    RECEIVED = 24
    CLEARED = 25
    QUEUING_STATUS = 26
    WRITTEN = 27
    READ = 28
    SAMPLING_STATUS = 29
    MODE_SET = 30


# The row of an accepted call of each service. The services are in the order of their numbers.
ACCEPTED: Dict[str, Row] = {
    "CREATE_SAMPLING_PORT": Row.CREATED,
    "WRITE_SAMPLING_MESSAGE": Row.WRITTEN,
    "READ_SAMPLING_MESSAGE": Row.READ,
    "GET_SAMPLING_PORT_ID": Row.IDENTIFIED,
    "GET_SAMPLING_PORT_STATUS": Row.SAMPLING_STATUS,
    "CREATE_QUEUING_PORT": Row.CREATED,
    "SEND_QUEUING_MESSAGE": Row.SENT,
    "RECEIVE_QUEUING_MESSAGE": Row.RECEIVED,
    "GET_QUEUING_PORT_ID": Row.IDENTIFIED,
    "GET_QUEUING_PORT_STATUS": Row.QUEUING_STATUS,
    "CLEAR_QUEUING_PORT": Row.CLEARED,
    "SET_PARTITION_MODE": Row.MODE_SET,
}
SERVICE_NUMBERS = {service: number for number, service in enumerate(ACCEPTED)}
