"""The calls that a module made, packed for its report."""
from array import array
from itertools import accumulate
from typing import Iterator, Sequence

from ._codes import Code
from ._replies import reply_words
from ._services import SERVICES

_SERVICES, _CODES = tuple(SERVICES.values()), tuple(Code)


class Calls:
    """The calls in their order. Each takes 21 bytes and its value. The library's functions append each answer as they
    return, and nothing can interrupt that. The call's other data are noted afterwards, so an answer without them shows that
    an interrupt came between."""

    def __init__(self, is_kept: bool) -> None:
        self.is_kept = is_kept
        self.answers = bytearray()
        # For each noted call: where its value ends among the values.
        self.ends = array("Q")
        self._moments, self._askers, self._values = array("Q"), array("I"), bytearray()
        self._add = self._moments.append, self._askers.append, self.ends.append

    def note(self, moment: int, asker: int, value: bytes) -> None:
        """Notes the first answer that isn't noted yet, or drops it if no calls are kept."""
        if not self.is_kept:
            del self.answers[0]
            return
        add_moment, add_asker, add_end = self._add
        if value:
            self._values += value
        add_moment(moment)
        add_asker(asker)
        add_end(len(self._values))

    def note_all(self, moment: int, asker: int, values: Sequence[bytes]) -> None:
        """Notes the first answers that aren't noted yet, one for each value, all by one caller at one moment."""
        count, end = len(values), len(self._values)
        if not self.is_kept:
            del self.answers[:count]
            return
        self._values += b"".join(values)
        self._moments.extend(array("Q", [moment]) * count)
        self._askers.extend(array("I", [asker]) * count)
        self.ends.extend(array("Q", accumulate(map(len, values), initial=end))[1:])

    def drop(self) -> None:
        """Drops the first answer that isn't noted yet."""
        del self.answers[len(self.ends)]

    def take_back(self) -> None:
        """Removes what was noted for a call without its end; if no calls are kept, removes everything."""
        if not self.is_kept:
            self.answers.clear()
        count = len(self.ends)
        del self._moments[count:], self._askers[count:], self._values[self.ends[-1] if count else 0 :]

    def lines(self, partitions: Sequence[str]) -> Iterator[str]:
        """The lines of the calls in a report, with the names of the partitions."""
        begin = 0
        for number, (code, moment, asker, end) in enumerate(
                zip(self.answers, self._moments, self._askers, self.ends), 1):
            partition, which = divmod(asker, len(_SERVICES))
            service = _SERVICES[which]
            value = service.given.unpack(bytes(self._values[begin:end])) if code == 0 else None
            yield f"{number} {moment} {partitions[partition]} {service.word} {reply_words(_CODES[code], value)}"
            begin = end
