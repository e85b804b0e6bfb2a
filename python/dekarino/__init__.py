"""The ports of an ARINC 653 module for benches in Python, over the shared object of Dekarino: docs/PYTHON.md."""
from ._channel import Channel
from ._codes import Code, Direction, Discipline, Mode, Validity
from ._errors import ApexError, ConfigError, LibraryError, LogError, NoCallError, ProgramError, TraceError
from ._judging import Judge
from ._logs import Judgement, Log, judge
from ._module import Module
from ._ports import Message, Partition, QueuingPort, SamplingPort
from ._program import (Departure, Report, ReportedCall, ReportedPartition, ReportedQueuing, ReportedSampling,
                       replay)
from ._readers import ConfiguredPort, WrittenSample
from ._replies import (IdReply, QueuingStatus, QueuingStatusReply, ReadReply, ReceiveReply, Reply, Sample,
                       SamplingStatus, SamplingStatusReply)
from ._rows import Row
from ._texts import Line, Text

# The version in CHANGES.md to which this package belongs.
__version__ = "0.2.0"
__all__ = [
    "ApexError", "Channel", "Code", "ConfigError", "ConfiguredPort", "Departure", "Direction", "Discipline",
    "IdReply", "Judge", "Judgement", "LibraryError", "Line", "Log", "LogError", "Message", "Mode", "Module", "NoCallError",
    "Partition", "ProgramError", "QueuingPort", "QueuingStatus", "QueuingStatusReply", "ReadReply", "ReceiveReply",
    "Reply", "Report", "ReportedCall", "ReportedPartition", "ReportedQueuing", "ReportedSampling", "Row", "Sample",
    "SamplingPort", "SamplingStatus", "SamplingStatusReply", "Text", "TraceError", "Validity", "WrittenSample",
    "judge", "replay",
]
